//! The shelf as 02's N1 and N3 say it, written from their sentences and not from the project's code. Which texts
//! are refused, what they read as, and which versions they admit is the crate's and semver's word (reference.rs,
//! admission.rs).

use crate::admission::{admits, parse_version};
use crate::reference::{verdict, Verdict, MODES};
use checked::{Comparator, Op, Range, RangeSet};
use semver::Version;
use std::collections::HashMap;

/// "37,890 bytes in all"; "holds at most 256 entries"
pub const SIZE: usize = 37_890;
pub const ENTRIES: usize = 256;
/// "256 times 100 bytes: code in two, mode, text length, text"
pub const ENTRY: usize = 100;
pub const TEXT: usize = 96;
/// "a lowest and a highest triple, six 64-bit numbers with low bytes first, after all the entries"
pub const KEPT_AT: usize = 2 + ENTRIES * ENTRY;
pub const KEPT: usize = 6 * 8;

const NOT_SHELF: u64 = 10;
const FULL: u64 = 11;
const CODE: u64 = 12;
const NO_MODE: u64 = 255;

/// What the crate says of a text under a mode, kept since a shelf asks it of the same texts again and again.
#[derive(Default)]
pub struct Readings {
    known: HashMap<(usize, Vec<u8>), Result<RangeSet, u64>>,
}

impl Readings {
    pub fn of(&mut self, text: &[u8], mode: usize) -> &Result<RangeSet, u64> {
        self.known.entry((mode, text.to_vec())).or_insert_with(|| match verdict(text, MODES[mode]) {
            Verdict::Set(set) => Ok(set),
            other => Err(other.number()),
        })
    }
}

/// The first byte of the entry at this place, and of its triples.
fn at(place: usize) -> usize {
    2 + ENTRY * place
}

fn kept_at(place: usize) -> usize {
    KEPT_AT + KEPT * place
}

// ---- triples, which compare as tuples do

type Triple = (u64, u64, u64);

fn triple(comparator: &Comparator) -> Triple {
    (comparator.major, comparator.minor, comparator.patch)
}

/// "A range's low triple is the largest among its Gt, Gte and Eq comparators, or 0.0.0."
fn low(range: &Range) -> Triple {
    let lower = range.comparator_set.iter().filter(|c| matches!(c.op, Op::Gt | Op::Gte | Op::Eq));
    lower.map(triple).max().unwrap_or((0, 0, 0))
}

/// "Its high triple is the smallest among Lt, Lte and Eq, or three times 18446744073709551615."
fn high(range: &Range) -> Triple {
    let upper = range.comparator_set.iter().filter(|c| matches!(c.op, Op::Lt | Op::Lte | Op::Eq));
    upper.map(triple).min().unwrap_or((u64::MAX, u64::MAX, u64::MAX))
}

/// "The entry keeps the least low and the greatest high over its ranges."
pub fn kept(set: &RangeSet) -> [u8; KEPT] {
    let low = set.ranges.iter().map(low).min().unwrap();
    let high = set.ranges.iter().map(high).max().unwrap();
    let mut bytes = [0; KEPT];
    for (to, number) in bytes.chunks_exact_mut(8).zip([low.0, low.1, low.2, high.0, high.1, high.2]) {
        to.copy_from_slice(&number.to_le_bytes());
    }
    bytes
}

/// "whose kept triples enclose the version's triple, both ends included"
fn encloses(kept: &[u8], version: &Version) -> bool {
    let number = |i: usize| u64::from_le_bytes(kept[8 * i..8 * i + 8].try_into().unwrap());
    let version = (version.major, version.minor, version.patch);
    (number(0), number(1), number(2)) <= version && version <= (number(3), number(4), number(5))
}

// ---- the calls

/// "The count stands first in two bytes ..; low bytes first". "Memory of the wrong length or .. with a count over
/// 256 gives 10".
fn count(memory: &[u8]) -> Result<usize, u64> {
    if memory.len() != SIZE {
        return Err(NOT_SHELF);
    }
    let count = usize::from(memory[0]) + 256 * usize::from(memory[1]);
    if count > ENTRIES {
        return Err(NOT_SHELF);
    }
    Ok(count)
}

fn set_count(memory: &mut [u8], count: usize) {
    memory[0] = (count % 256) as u8;
    memory[1] = (count / 256) as u8;
}

fn code(memory: &[u8], place: usize) -> u16 {
    u16::from(memory[at(place)]) + 256 * u16::from(memory[at(place) + 1])
}

/// "of equal codes the first is the one listed or removed"
fn place_of(memory: &[u8], count: usize, wanted: u16) -> Option<usize> {
    (0..count).find(|&place| code(memory, place) == wanted)
}

/// "Make empty writes zeros everywhere"
pub fn clear(memory: &mut [u8]) -> Result<(), u64> {
    if memory.len() != SIZE {
        return Err(NOT_SHELF);
    }
    memory.iter_mut().for_each(|byte| *byte = 0);
    Ok(())
}

/// "add fills its text with zeros to 96 bytes"; "1 to 4 for the text, with 96 as its length limit; then 12 ..; then
/// 11"
pub fn add(memory: &mut [u8], wanted: u16, mode: u8, text: &[u8], readings: &mut Readings) -> Result<(), u64> {
    if mode > 1 {
        return Err(NO_MODE);
    }
    let count = count(memory)?;
    if text.len() > TEXT {
        return Err(1);
    }
    let kept = match readings.of(text, usize::from(mode)) {
        Ok(set) => kept(set),
        Err(number) => return Err(*number),
    };
    if place_of(memory, count, wanted).is_some() {
        return Err(CODE);
    }
    if count == ENTRIES {
        return Err(FULL);
    }
    let entry = &mut memory[at(count)..at(count + 1)];
    entry.fill(0);
    entry[..2].copy_from_slice(&wanted.to_le_bytes());
    entry[2] = mode;
    entry[3] = text.len() as u8;
    entry[4..4 + text.len()].copy_from_slice(text);
    memory[kept_at(count)..kept_at(count + 1)].copy_from_slice(&kept);
    set_count(memory, count + 1);
    Ok(())
}

/// "remove by code, which closes the gap so that its space serves again"; "remove leaves zeros where the last entry
/// stood"
pub fn remove(memory: &mut [u8], wanted: u16) -> Result<(), u64> {
    let count = count(memory)?;
    let place = place_of(memory, count, wanted).ok_or(CODE)?;
    memory.copy_within(at(place + 1)..at(count), at(place));
    memory[at(count - 1)..at(count)].fill(0);
    memory.copy_within(kept_at(place + 1)..kept_at(count), kept_at(place));
    memory[kept_at(count - 1)..kept_at(count)].fill(0);
    set_count(memory, count - 1);
    Ok(())
}

/// "A listing by code gives the text"; "a length over 96 lists as the empty text". Place and length in the memory.
pub fn find(memory: &[u8], wanted: u16) -> Result<(usize, usize), u64> {
    let count = count(memory)?;
    let place = place_of(memory, count, wanted).ok_or(CODE)?;
    let length = usize::from(memory[at(place) + 3]);
    Ok((at(place) + 4, if length > TEXT { 0 } else { length }))
}

/// "an entry with another mode, a length over 96 or a text the reader refuses fits no version"
fn entry_admits(entry: &[u8], version: &Version, readings: &mut Readings) -> bool {
    let (mode, length) = (usize::from(entry[2]), usize::from(entry[3]));
    if mode > 1 || length > TEXT {
        return false;
    }
    matches!(readings.of(&entry[4..4 + length], mode), Ok(set) if admits(set, version))
}

/// "First fit takes a version and gives the part code of the first entry whose text admits it, or the answer none"
pub fn first_fit(memory: &[u8], version: &[u8], readings: &mut Readings) -> Result<Option<u16>, u64> {
    let count = count(memory)?;
    let version = parse_version(version)?;
    let fits = |&place: &usize| entry_admits(&memory[at(place)..at(place + 1)], &version, readings);
    Ok((0..count).find(fits).map(|place| code(memory, place)))
}

/// "The lookup takes a version and returns the part code of the first entry whose kept triples enclose the version's
/// triple .. and whose text admits it"; "Refusal 10 comes first, then 8 and 9"
pub fn lookup(memory: &[u8], version: &[u8], readings: &mut Readings) -> Result<Option<u16>, u64> {
    let count = count(memory)?;
    let version = parse_version(version)?;
    let fits = |&place: &usize| {
        encloses(&memory[kept_at(place)..kept_at(place + 1)], &version)
            && entry_admits(&memory[at(place)..at(place + 1)], &version, readings)
    };
    Ok((0..count).find(fits).map(|place| code(memory, place)))
}
