//! What the crate, built with checked sums, says of a text.

use crate::partials::has_too_large_component;
use checked::{Compat, RangeSet};
use std::any::Any;
use std::panic;

pub const MODES: [Compat; 2] = [Compat::Cargo, Compat::Npm];
pub const LONGEST_TEXT: usize = 65_535;

pub enum Verdict {
    Set(RangeSet),
    /// The crate returned `Err`.
    NoReading,
    /// The crate panicked at a component above 2^64 - 1.
    TooLarge,
    /// The crate panicked at a sum.
    Over,
    /// The crate panicked at a sum before it came to a component above 2^64 - 1. By 01's order the answer is 3.
    OverBeforeTooLarge,
    /// The crate takes only UTF-8.
    NotUtf8,
    /// The crate has no longest text; docs/DIFFERENCES.md lists this.
    TooLong,
}

impl Verdict {
    /// The refusal that 01 asks for, or 0.
    pub fn number(&self) -> u64 {
        match self {
            Verdict::Set(_) => 0,
            Verdict::TooLong => 1,
            Verdict::NoReading | Verdict::NotUtf8 => 2,
            Verdict::TooLarge | Verdict::OverBeforeTooLarge => 3,
            Verdict::Over => 4,
        }
    }
}

pub fn verdict(text: &[u8], mode: Compat) -> Verdict {
    if text.len() > LONGEST_TEXT {
        return Verdict::TooLong;
    }
    let Ok(text) = std::str::from_utf8(text) else {
        return Verdict::NotUtf8;
    };
    match panic::catch_unwind(|| RangeSet::parse(text, mode)) {
        Ok(Ok(set)) => Verdict::Set(set),
        Ok(Err(_)) => Verdict::NoReading,
        Err(payload) => panicked(text, &message(payload)),
    }
}

fn panicked(text: &str, message: &str) -> Verdict {
    if message.contains("ParseIntError { kind: PosOverflow }") {
        return Verdict::TooLarge;
    }
    assert_eq!(message, "attempt to add with overflow", "{text}");
    if has_too_large_component(text) {
        return Verdict::OverBeforeTooLarge;
    }
    Verdict::Over
}

fn message(payload: Box<dyn Any + Send>) -> String {
    match payload.downcast::<String>() {
        Ok(message) => *message,
        Err(payload) => payload.downcast::<&str>().map_or(String::new(), |m| m.to_string()),
    }
}

/// Panics of the crate's src/range.rs are answers and print nothing; all others print as ever.
pub fn silence_panics() {
    let print = panic::take_hook();
    panic::set_hook(Box::new(move |info| {
        let of_crate = info.location().is_some_and(|at| at.file().ends_with("/range.rs"));
        if !of_crate {
            print(info);
        }
    }));
}
