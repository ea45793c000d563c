//! The library's shelf beside the model of it (shelf_model.rs): random calls on memory that calls built and on memory
//! that none did. Of each call the answer and every byte is compared, and on a shelf that calls built from an empty
//! one the lookup with first fit. And the rows of crates/shelf_edges beside the model.

use crate::admission::{random_range, version_near};
use crate::random::{damaged, noise, number, Random};
use crate::report::{shown, Differences};
use crate::shelf_calls as library;
use crate::shelf_model::{self as model, Readings, ENTRIES, ENTRY, KEPT, KEPT_AT, SIZE, TEXT};
use crate::shelf_rows;
use std::collections::BTreeMap;
use std::process::ExitCode;
use std::time::Instant;

const CALLS: u64 = 5_000_000;
const CALLS_ON_A_MEMORY: usize = 200;
const TEXTS: usize = 400;

/// The texts and versions that the calls of a run are made with.
struct Stock {
    texts: Vec<Vec<u8>>,
    versions: Vec<Vec<u8>>,
}

#[derive(Default)]
struct Tally {
    calls: u64,
    /// How often a call had an answer: its refusal's number, or 0.
    answers: BTreeMap<(&'static str, u64), u64>,
    none_fits: u64,
    none_looked_up: u64,
    /// Lookups on a shelf that calls built, each compared with first fit; and those on other memory where first fit
    /// has another answer.
    on_built: u64,
    apart: u64,
    differences: Differences,
}

pub fn compare_all(seed: u64) -> ExitCode {
    let start = Instant::now();
    let mut random = Random::new(seed);
    let mut readings = Readings::default();
    let mut tally = Tally::default();
    while tally.calls < CALLS {
        let stock = stock(&mut random, &mut readings);
        for _ in 0..100 {
            let memory = random_memory(&mut random, &mut readings, &stock);
            compare_calls(&mut random, &mut readings, &stock, memory, &mut tally);
        }
        readings = Readings::default();
    }
    for ((call, number), count) in &tally.answers {
        println!("{call:>10} {number:>4} {count:>9}");
    }
    println!("none fits in {} answers of first fit and {} of the lookup", tally.none_fits, tally.none_looked_up);
    println!("{} lookups on shelves that calls built, compared with first fit", tally.on_built);
    println!("{} lookups on other memory where first fit has another answer", tally.apart);
    let (rows, row_differences) = shelf_rows::compare();
    println!("{rows} rows of shelf_edges: {} differences", row_differences.count);
    print!("{}{row_differences}", tally.differences);
    println!("{} seconds", start.elapsed().as_secs());
    let differences = tally.differences.count + row_differences.count;
    println!("{} calls, {differences} differences", tally.calls);
    ExitCode::from(u8::from(differences > 0))
}

// ---- what the calls are made with

fn stock(random: &mut Random, readings: &mut Readings) -> Stock {
    let texts: Vec<_> = (0..TEXTS).map(|_| random_text(random)).collect();
    let versions = (0..TEXTS).map(|_| random_version(random, readings, &texts)).collect();
    Stock { texts, versions }
}

fn random_text(random: &mut Random) -> Vec<u8> {
    let mut text = random_range(random);
    match random.below(20) {
        0 => noise(random),
        1 => " ".repeat(TEXT - 1 + random.below(3)).into_bytes(),
        2 => {
            text.resize(TEXT + random.below(2), b' ');
            text
        }
        _ => text,
    }
}

fn random_version(random: &mut Random, readings: &mut Readings, texts: &[Vec<u8>]) -> Vec<u8> {
    let text = &texts[random.below(texts.len())];
    let version = match readings.of(text, 1) {
        Ok(set) => version_near(random, set),
        Err(_) => format!("{}.{}.{}", number(random), number(random), number(random)),
    };
    match random.one_in(12) {
        true => damaged(random, version.as_bytes()),
        false => version.into_bytes(),
    }
}

/// Codes are few, so that calls meet them; some have only one of their bytes.
fn random_code(random: &mut Random) -> u16 {
    match random.below(40) {
        0..=3 => u16::from_le_bytes([random.byte(), random.byte()]),
        few => [0, 1, 255, 256, 257, 65_535][few % 6] ^ (few as u16 / 6),
    }
}

// ---- memory

fn random_memory(random: &mut Random, readings: &mut Readings, stock: &Stock) -> Vec<u8> {
    match random.below(10) {
        0 => (0..[0, 1, 2, ENTRY, KEPT_AT, SIZE - 1, SIZE + 1][random.below(7)]).map(|_| random.byte()).collect(),
        1 => (0..SIZE).map(|_| random.byte()).collect(),
        2..=5 => vec![0; SIZE],
        _ => made_memory(random, readings, stock),
    }
}

/// Entries as no call would have made them, among others that one would have.
fn made_memory(random: &mut Random, readings: &mut Readings, stock: &Stock) -> Vec<u8> {
    let behind = if random.one_in(2) { 0 } else { random.byte() };
    let mut memory = vec![behind; SIZE];
    let count = [random.below(8), random.below(ENTRIES + 1), ENTRIES, ENTRIES + 1][random.below(4)];
    memory[..2].copy_from_slice(&(count as u16).to_le_bytes());
    let (entries, kept) = memory[2..].split_at_mut(KEPT_AT - 2);
    for (entry, kept) in entries.chunks_exact_mut(ENTRY).zip(kept.chunks_exact_mut(KEPT)).take(count) {
        let text = &stock.texts[random.below(stock.texts.len())];
        let length = text.len().min(TEXT);
        let code = match random.one_in(2) {
            true => random_code(random),
            false => u16::from_le_bytes([random.byte(), random.byte()]),
        };
        entry[..2].copy_from_slice(&code.to_le_bytes());
        entry[2] = [0, 1, 1, 2, 255][random.below(5)];
        entry[3] = if random.one_in(8) { random.byte() } else { length as u8 };
        entry[4..4 + length].copy_from_slice(&text[..length]);
        kept.copy_from_slice(&made_triples(random, readings, text));
    }
    memory
}

/// The text's own triples, or with one byte changed; triples that enclose all; other bytes.
fn made_triples(random: &mut Random, readings: &mut Readings, text: &[u8]) -> [u8; KEPT] {
    let mut kept = match readings.of(text, random.below(2)) {
        Ok(set) if !random.one_in(4) => model::kept(set),
        _ => std::array::from_fn(|i| if i < KEPT / 2 { 0 } else { 255 }),
    };
    match random.below(8) {
        0 => kept.fill_with(|| random.byte()),
        1 | 2 => kept[random.below(KEPT)] = random.byte(),
        3 => kept[8 * random.below(6)] = random.below(4) as u8,
        _ => {}
    }
    kept
}

// ---- the calls

fn compare_calls(random: &mut Random, readings: &mut Readings, stock: &Stock, memory: Vec<u8>, tally: &mut Tally) {
    let mut here = memory.clone();
    let mut expected = memory;
    let mut built = expected == [0; SIZE];
    for _ in 0..CALLS_ON_A_MEMORY {
        let (call, there, answer) = match random.below(100) {
            0 => {
                let answer = refusal(model::clear(&mut expected));
                built |= answer == 0;
                ("clear", library::clear(&mut here), answer)
            }
            1..=44 => {
                let code = random_code(random);
                let mode = if random.one_in(50) { random.byte() } else { random.below(2) as u8 };
                let text = &stock.texts[random.below(stock.texts.len())];
                let answer = refusal(model::add(&mut expected, code, mode, text, readings));
                ("add", library::add(&mut here, code, mode, text), answer)
            }
            45..=64 => {
                let code = random_code(random);
                let answer = refusal(model::remove(&mut expected, code));
                ("remove", library::remove(&mut here, code), answer)
            }
            65..=79 => {
                let code = random_code(random);
                let listed = model::find(&expected, code);
                let (number, place, length) = library::find(&here, code);
                let same = (place, length) == listed.unwrap_or((0, 0));
                let answer = listed.map_or_else(|number| number, |_| 0);
                ("find", if same { number } else { u64::MAX }, answer)
            }
            80..=89 => {
                let version = &stock.versions[random.below(stock.versions.len())];
                let fit = model::first_fit(&expected, version, readings);
                tally.none_fits += u64::from(fit == Ok(None));
                ("first fit", fit_number(library::first_fit(&here, version), fit), refused_fit(fit))
            }
            _ => {
                let version = &stock.versions[random.below(stock.versions.len())];
                let fit = model::lookup(&expected, version, readings);
                let looked_up = library::lookup(&here, version);
                let same = looked_up == library::first_fit(&here, version);
                tally.none_looked_up += u64::from(fit == Ok(None));
                tally.on_built += u64::from(built);
                tally.apart += u64::from(!built && !same);
                let number = if built && !same { u64::MAX } else { fit_number(looked_up, fit) };
                ("lookup", number, refused_fit(fit))
            }
        };
        tally.calls += 1;
        *tally.answers.entry((call, answer)).or_default() += 1;
        if there != answer || here != expected {
            tally.differences.add(format!("{call}: here {there}, expected {answer}; {}", shown(&expected)));
            here.clone_from(&expected);
        }
    }
}

/// The number of an answer, if what it found is what was expected.
fn fit_number((number, found, code): (u64, u8, u16), expected: Result<Option<u16>, u64>) -> u64 {
    let same = (found, code) == expected.map_or((0, 0), |fit| fit.map_or((0, 0), |code| (1, code)));
    match same {
        true => number,
        false => u64::MAX,
    }
}

fn refused_fit(fit: Result<Option<u16>, u64>) -> u64 {
    fit.map_or_else(|number| number, |_| 0)
}

fn refusal(result: Result<(), u64>) -> u64 {
    result.map_or_else(|number| number, |()| 0)
}
