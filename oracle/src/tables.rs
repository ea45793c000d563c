//! The tables of crates/reference_tables, as definitions of antt: what the crate returns for some texts, and what pest's methods do to some inputs.

use crate::pest_calls::{self, Call};
use crate::random::{several_bytes, Random};
use crate::reference::{verdict, Verdict, MODES};
use crate::sample::{chosen_texts, random_text};
use checked::{Comparator, Compat, Identifier, Op, RangeSet};
use std::collections::HashSet;
use std::fs;

const TEXTS: usize = 1_200;
const LONGEST_TEXT: usize = 40;
const CALLS: usize = 2_000;

/// The texts stand in five lists, since the checker ends a proof that computes too long.
const LISTS: [&str; 5] = ["texts₁", "texts₂", "texts₃", "texts₄", "texts₅"];

pub fn write(seed: u64, folder: &str) {
    let texts = texts(&mut Random::new(seed));
    let rows: Vec<_> = (0..LISTS.len()).map(|at| rows_from(&texts[at..])).collect();
    let lists: Vec<_> = LISTS.iter().zip(&rows).map(|(name, rows)| list_of_rows(name, "Row", rows)).collect();
    write_file(folder, "Texts", TEXTS_HEAD, &lists);
    println!("{} texts: {}", texts.len(), counts(&rows.concat(), ["(Ok", "Err", "panicked"]));

    let calls = pest_calls::random_calls(&mut Random::new(seed), CALLS);
    let rows: Vec<_> = calls.iter().map(Call::to_string).collect();
    write_file(folder, "Calls", CALLS_HEAD, &[list_of_rows("calls", "Call", &rows)]);
    println!("{} calls: {}", calls.len(), counts(&rows, ["(ok", "(err", "endless"]));
}

/// How many rows have each of these answers.
fn counts(rows: &[String], answers: [&str; 3]) -> String {
    let count = |answer: &str| rows.iter().filter(|row| row.contains(&format!(" {answer}"))).count();
    answers.map(|answer| format!("{} {}", count(answer), answer.trim_start_matches('('))).join(", ")
}

const TEXTS_HEAD: &str = "\
-- Texts with what the crate semver-parser 0.10.3 returned for them. Written by oracle/tables.
-- Assumes nothing.
use Rattle.std.specs.Prelude.{List, [], ◌∷◌}
use Rattle.rules.specs.Bytes.{bytes}
use Rattle.rules.specs.Syntax.{number, text, lt, lte, gt, gte, eq}
use Rattle.rules.specs.Expansion.{comparator}
use Rattle.reference.specs.Range.{Cargo, Npm}
use Rattle.reference.specs.RangeSet.{Ok, Err, panicked}
use Rattle.reference_tables.specs.Rows.{Row, row, both}
";

const CALLS_HEAD: &str = "\
-- Calls of pest's methods with what pest 2.5.2 answered to them. Written by oracle/tables.
-- Assumes nothing.
use Rattle.std.specs.Prelude.{List, [], ◌∷◌}
use Rattle.rules.specs.Bytes.{bytes}
use Rattle.reference.specs.Rule.{Rule}
use Rattle.reference.specs.Pest.{end, pair, ok, err, endless, unchanged, start-of-input, end-of-input, match-string, match-range, ◌and-then◌, ◌or-else◌, sequence, optional, repeat, rule}
use Rattle.reference_tables.specs.Rows.{Call, call}
";

fn list_of_rows(name: &str, of: &str, rows: &[String]) -> String {
    format!("\nabbrev pub {name} : List {of}\n{name} =\n    {}\n    ∷ []\n", rows.join("\n    ∷ "))
}

fn write_file(folder: &str, name: &str, head: &str, lists: &[String]) {
    let path = format!("{folder}/{name}.antt");
    fs::write(&path, head.to_string() + &lists.concat()).unwrap_or_else(|e| panic!("{path}: {e}"));
}

// ---- the crate's answers

/// The texts that the sample has too, and random ones.
fn texts(random: &mut Random) -> Vec<String> {
    let random_texts = std::iter::repeat_with(|| match random.one_in(8) {
        true => several_bytes(random),
        false => random_text(random),
    });
    let mut seen = HashSet::new();
    let texts = chosen_texts().into_iter().chain(random_texts);
    texts.filter(|text| text.len() <= LONGEST_TEXT && seen.insert(text.clone())).take(TEXTS).collect()
}

/// The rows of each fifth text, so that the lists take the same time.
fn rows_from(texts: &[String]) -> Vec<String> {
    texts.iter().step_by(LISTS.len()).flat_map(|text| text_rows(text)).collect()
}

/// One row, or one for each mode.
fn text_rows(text: &str) -> Vec<String> {
    let returned = MODES.map(|mode| returned(text, mode));
    if returned[0] == returned[1] {
        return vec![format!("row both {} {}", characters(text), returned[0])];
    }
    let modes = MODES.into_iter().zip(&returned);
    modes.map(|(mode, returned)| format!("row ({mode:?} ∷ []) {} {returned}", characters(text))).collect()
}

fn returned(text: &str, mode: Compat) -> String {
    match verdict(text.as_bytes(), mode) {
        Verdict::Set(set) => format!("(Ok {})", ranges(&set)),
        Verdict::NoReading => "Err".to_string(),
        Verdict::TooLarge | Verdict::Over | Verdict::OverBeforeTooLarge => "panicked".to_string(),
        Verdict::NotUtf8 | Verdict::TooLong => unreachable!("a short text of characters"),
    }
}

fn ranges(set: &RangeSet) -> String {
    list(set.ranges.iter().map(|range| list(range.comparator_set.iter().map(comparator))))
}

fn comparator(c: &Comparator) -> String {
    let op = match c.op {
        Op::Lt => "lt",
        Op::Lte => "lte",
        Op::Gt => "gt",
        Op::Gte => "gte",
        Op::Eq => "eq",
    };
    format!("comparator {op} {} {} {} {}", c.major, c.minor, c.patch, list(c.pre.iter().map(identifier)))
}

fn identifier(identifier: &Identifier) -> String {
    match identifier {
        Identifier::Numeric(number) => format!("number {number}"),
        Identifier::AlphaNumeric(text) => format!("text 0 {}", characters(text)),
    }
}

// ---- terms

fn list(parts: impl Iterator<Item = String>) -> String {
    let parts: Vec<_> = parts.map(|part| part + " ∷ ").collect();
    match parts.is_empty() {
        true => "[]".to_string(),
        false => format!("({}[])", parts.concat()),
    }
}

/// The list of a text's characters.
pub fn characters(text: &str) -> String {
    let plain = |c: char| matches!(c, ' '..='~') && !matches!(c, '"' | '\\');
    match !text.is_empty() && text.chars().all(plain) {
        true => format!("(bytes \"{text}\")"),
        false => list(text.chars().map(|c| (c as u32).to_string())),
    }
}
