//! The rows of crates/shelf_edges, answered by the model of the shelf (shelf_model.rs), beside what the program has to
//! print. The head of its src/main.rt says what a row is.

use crate::report::Differences;
use crate::shelf_model::{self as model, Readings};
use std::fs;

const FOLDER: &str = concat!(env!("CARGO_MANIFEST_DIR"), "/../crates/shelf_edges");
const MEMORY: usize = 37_891;

struct Row<'a> {
    line: &'a [u8],
    numbers: [usize; 5],
    text: &'a [u8],
}

pub fn compare() -> (usize, Differences) {
    let rows = fs::read(format!("{FOLDER}/stdin")).unwrap();
    let printed = fs::read(format!("{FOLDER}/stdout")).unwrap();
    let mut rest = &rows[..];
    let mut printed = &printed[..];
    let mut memory = vec![0; MEMORY];
    let mut readings = Readings::default();
    let mut count = 0;
    let mut differences = Differences::default();
    while let Some(row) = next_row(&mut rest) {
        let [call, size, code, mode, _] = row.numbers;
        let shelf = &mut memory[..size];
        let answer = answered(call, shelf, code, mode as u8, row.text, &mut readings);
        let (low, high) = adler(shelf);
        let mut expected = [row.line, b"\n", row.text, b"\n"].concat();
        for number in answer.into_iter().chain([high, low]) {
            expected.extend(format!(" {number}").bytes());
        }
        expected.push(b'\n');
        count += 1;
        if !printed.starts_with(&expected) {
            differences.add(format!("row {count}: expected {}", expected.escape_ascii()));
            break;
        }
        printed = &printed[expected.len()..];
    }
    if differences.count == 0 && !printed.is_empty() {
        differences.add(format!("{} bytes behind the last row", printed.len()));
    }
    (count, differences)
}

fn next_row<'a>(rest: &mut &'a [u8]) -> Option<Row<'a>> {
    let end = rest.iter().position(|&byte| byte == b'\n')?;
    let line = &rest[..end];
    let words = std::str::from_utf8(line).unwrap().split(' ');
    let numbers: Vec<usize> = words.map(|word| word.parse().unwrap()).collect();
    let numbers: [usize; 5] = numbers.try_into().unwrap();
    let text = &rest[end + 1..][..numbers[4]];
    *rest = &rest[end + 1 + numbers[4] + 1..];
    Some(Row { line, numbers, text })
}

fn answered(call: usize, shelf: &mut [u8], code: usize, mode: u8, text: &[u8], readings: &mut Readings) -> Vec<u64> {
    let part = code as u16;
    let refusal = |answer: Result<(), u64>| vec![answer.err().unwrap_or(0)];
    match call {
        0 => vec![],
        1 => refusal(model::clear(shelf)),
        2 => refusal(model::add(shelf, part, mode, text, readings)),
        3 => refusal(model::remove(shelf, part)),
        4 => match model::find(shelf, part) {
            Ok((place, length)) => vec![0, place as u64, length as u64],
            Err(number) => vec![number, 0, 0],
        },
        5 => fit(model::first_fit(shelf, text, readings)),
        7 => fit(model::lookup(shelf, text, readings)),
        _ => {
            shelf[code] = mode;
            vec![]
        }
    }
}

fn fit(answer: Result<Option<u16>, u64>) -> Vec<u64> {
    match answer {
        Ok(Some(found)) => vec![0, 1, u64::from(found)],
        Ok(None) => vec![0, 0, 0],
        Err(number) => vec![number, 0, 0],
    }
}

/// The two halves of the Adler-32 checksum (RFC 1950).
fn adler(bytes: &[u8]) -> (u64, u64) {
    bytes.iter().fold((1, 0), |(low, high), &byte| {
        let low = (low + u64::from(byte)) % 65_521;
        (low, (high + low) % 65_521)
    })
}
