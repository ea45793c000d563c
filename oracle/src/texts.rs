//! The texts that are compared, in families.

use crate::answer::normal_text;
use crate::random::{damaged, noise, range_set, several_bytes, Numbers, Random};
use crate::reference::{verdict, Verdict, LONGEST_TEXT, MODES};

/// Takes each text as it is made.
pub type Sink<'a> = &'a mut dyn FnMut(&[u8]);

type Make = dyn Fn(&mut Random, Sink) + Sync;

/// A part of a family, made by one thread.
pub struct Job {
    pub family: &'static str,
    pub make: Box<Make>,
}

const ALPHABET: &[u8] = b"019.-+*xa^~><=,| \t";
const LONGEST_OF_ALPHABET: usize = 6;

#[rustfmt::skip]
const TOKENS: [&str; 18] = [
    "0", "1", "1.2", "1.2.3", "0.0.3", "*", ".x", "-a", "+b.1", " ", " - ", "||", ",", "<=", "=", "~>", "^",
    "18446744073709551615",
];
const LONGEST_OF_TOKENS: usize = 5;

const RANDOM_TEXTS: usize = 1_000_000;

pub fn jobs() -> Vec<Job> {
    let mut jobs = every_text();
    jobs.push(job("token sequences", token_sequences));
    jobs.push(job("each byte in each place", seeds_with_each_byte));
    jobs.push(job("numbers about 2^64", large_numbers));
    jobs.push(job("lengths about 65,535", long_texts));
    jobs.push(random_job("texts of the grammar", |random| range_set(random, Numbers::Any).into_bytes()));
    jobs.push(random_job("normal texts", normal_text_of_one));
    jobs.push(random_job("damaged texts", |random| {
        let text = range_set(random, Numbers::Any);
        damaged(random, text.as_bytes())
    }));
    jobs.push(random_job("noise", noise));
    jobs.push(random_job("UTF-8 of several bytes", |random| several_bytes(random).into_bytes()));
    jobs
}

fn job(family: &'static str, make: fn(&mut Random, Sink)) -> Job {
    Job { family, make: Box::new(make) }
}

fn random_job(family: &'static str, one: fn(&mut Random) -> Vec<u8>) -> Job {
    Job {
        family,
        make: Box::new(move |random, sink| {
            for _ in 0..RANDOM_TEXTS {
                sink(&one(random));
            }
        }),
    }
}

fn normal_text_of_one(random: &mut Random) -> Vec<u8> {
    let text = range_set(random, Numbers::Any);
    match verdict(text.as_bytes(), MODES[random.below(2)]) {
        Verdict::Set(set) => normal_text(&set).into_bytes(),
        _ => text.into_bytes(),
    }
}

// ---- all sequences

/// All texts over the alphabet up to the longest, one job for each first byte.
fn every_text() -> Vec<Job> {
    let mut jobs = vec![job("every short text", |_, sink| sink(b""))];
    for first in ALPHABET {
        jobs.push(Job {
            family: "every short text",
            make: Box::new(|_, sink| {
                let symbols: Vec<_> = ALPHABET.iter().map(std::slice::from_ref).collect();
                sequences(&symbols, LONGEST_OF_ALPHABET - 1, &mut vec![*first], sink);
            }),
        });
    }
    jobs
}

fn token_sequences(_: &mut Random, sink: Sink) {
    let tokens: Vec<_> = TOKENS.iter().map(|token| token.as_bytes()).collect();
    sequences(&tokens, LONGEST_OF_TOKENS, &mut Vec::new(), sink);
}

/// The text, and the text followed by every sequence of one to `count` parts.
fn sequences(parts: &[&[u8]], count: usize, text: &mut Vec<u8>, sink: Sink) {
    sink(text);
    if count == 0 {
        return;
    }
    for part in parts {
        text.extend_from_slice(part);
        sequences(parts, count - 1, text, sink);
        text.truncate(text.len() - part.len());
    }
}

// ---- each byte in each place

#[rustfmt::skip]
pub const SEEDS: [&str; 40] = [
    "", " ", "||", "*", "x.X.*", "1", "1.2", "1.2.3", "1.x.3", "1.2.x-a", "x.2.3+b", "1.2.3-a", "1.2.3+b",
    "1.2.3-0.a-1.9", "1.2.3--", "0.0.3-x", "0.1.0", "<1", "<=1.2", ">1.2.3", ">= 1", "=1.2.3-rc.1", "~1", "~>1.2",
    "~> 1", "^1.2.3-a", "^0.0.3", "^ 0.1", "1 2", "1, 2", "1\t2", "1 - 2", "1.2.3-a - 2.3.4-b", "* - *",
    "1 || 2", "1||", "||1", " 1.2.3 || >1, <=1.2 ", "18446744073709551615", "1.x.18446744073709551616",
];
const RANDOM_SEEDS: usize = 80;

fn seeds_with_each_byte(random: &mut Random, sink: Sink) {
    SEEDS.iter().for_each(|seed| with_each_byte(seed, sink));
    for _ in 0..RANDOM_SEEDS {
        with_each_byte(&range_set(random, Numbers::Any), sink);
    }
}

/// Every byte value put in before each byte of the text and at its end, and instead of each byte.
pub fn with_each_byte(text: &str, sink: Sink) {
    for place in 0..=text.len() {
        for byte in 0..=255 {
            let mut changed = text.as_bytes().to_vec();
            changed.insert(place, byte);
            sink(&changed);
            if place < text.len() {
                changed.remove(place + 1);
                sink(&changed);
            }
        }
    }
}

// ---- numbers about 2^64

pub const OPERATORS: [&str; 9] = ["", "=", "<", "<=", ">", ">=", "~", "~>", "^"];
#[rustfmt::skip]
const NUMBERS: [&str; 12] = [
    "0", "1", "x", "9223372036854775808", "9999999999999999999", "10000000000000000000", "18446744073709551614",
    "18446744073709551615", "18446744073709551616", "18446744073709551620", "28446744073709551615",
    "100000000000000000000000000000000000000000",
];

fn large_numbers(_: &mut Random, sink: Sink) {
    let partials = large_partials();
    for partial in &partials {
        for operator in OPERATORS {
            sink(format!("{operator}{partial}").as_bytes());
            sink(format!("1.2.3 {operator}{partial}").as_bytes());
        }
        for other in ["1.2.3", "x", "18446744073709551615", "18446744073709551616"] {
            sink(format!("{partial} - {other}").as_bytes());
            sink(format!("{other} - {partial}").as_bytes());
        }
    }
    for number in NUMBERS {
        for operator in OPERATORS {
            sink(format!("{operator}1.2.3-{number}").as_bytes());
            sink(format!("{operator}1.2.3+a.{number}.{number}").as_bytes());
        }
    }
    two_items(sink);
}

/// Every partial with each of the numbers in each component.
fn large_partials() -> Vec<String> {
    let mut partials = Vec::new();
    for major in NUMBERS {
        partials.push(major.to_string());
        for minor in NUMBERS {
            partials.push(format!("{major}.{minor}"));
            partials.extend(NUMBERS.iter().map(|patch| format!("{major}.{minor}.{patch}")));
        }
    }
    partials
}

/// Every two items of some that are refused for different reasons: 01's order decides.
fn two_items(sink: Sink) {
    let partials = [
        "1",
        "1a",
        "18446744073709551615",
        "18446744073709551616",
        "0.0.18446744073709551615",
        "x.18446744073709551616",
    ];
    let with_operators = |partial| OPERATORS.map(|operator| format!("{operator}{partial}"));
    let items: Vec<_> = partials.iter().flat_map(with_operators).collect();
    for first in &items {
        for second in &items {
            sink(format!("{first} {second}").as_bytes());
            sink(format!("{first}||{second}").as_bytes());
        }
    }
}

// ---- lengths about 65,535

/// A head, a part that is repeated to fill the length, and a tail.
#[rustfmt::skip]
const LONG_TEXTS: [(&str, &str, &str); 17] = [
    ("", " ", ""), ("1", " ", "1"), ("1", " ", "a"), ("", "||", ""), ("*", "||*", ""), ("1", " 1", ""),
    ("1", ", ^1", ""), ("^1.2.3-a", "a", ""), ("1.2.3-a", ".a", ""), ("1.2.3-0", ".0", ""), ("1.2.3-a", "-", "_"),
    ("1", "0", ""), ("1.2.3-1", "0", ""), ("1.x.1", "0", ""), ("1.2.3", " 1.2.3-a.1", ""),
    ("1", " 1", " 18446744073709551616"), ("18446744073709551615", " 1", ""),
];

/// Some further ones, of twice 65,535 too.
const FAR_LENGTHS: [usize; 4] = [70_000, 2 * LONGEST_TEXT, 2 * LONGEST_TEXT + 1, 2 * LONGEST_TEXT + 7];

fn long_texts(_: &mut Random, sink: Sink) {
    for (head, part, tail) in LONG_TEXTS {
        for length in (LONGEST_TEXT - 15..=LONGEST_TEXT + 2).chain(FAR_LENGTHS) {
            let count = (length - head.len() - tail.len()) / part.len();
            let text = [head, &part.repeat(count), tail].concat();
            let blanks = " ".repeat(length - text.len());
            sink((blanks + &text).as_bytes());
        }
    }
}
