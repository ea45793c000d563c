use crate::calls::{identifier_bytes, ComparatorRow, IdentifierRow};
use crate::{ascii, Compat};

/// A version is in a range if it meets every comparator.
#[derive(Clone, PartialEq, Eq, PartialOrd, Ord, Hash, Debug)]
pub struct Range {
    pub comparator_set: Vec<Comparator>,
    pub compat: Compat,
}

#[derive(Clone, PartialEq, Eq, PartialOrd, Ord, Hash, Debug)]
pub struct Comparator {
    pub op: Op,
    pub major: u64,
    pub minor: u64,
    pub patch: u64,
    pub pre: Vec<Identifier>,
}

#[derive(Clone, PartialEq, Eq, PartialOrd, Ord, Hash, Debug)]
pub enum Op {
    Lt,
    Lte,
    Gt,
    Gte,
    Eq,
}

/// An identifier after `-` or `+`. Digits above 18446744073709551615 are `AlphaNumeric`.
#[derive(Clone, PartialEq, Eq, PartialOrd, Ord, Hash, Debug)]
pub enum Identifier {
    Numeric(u64),
    AlphaNumeric(String),
}

/// Puts each row's comparator into its range, with as many of the identifiers, in their order, as
/// the row says. The rows are those of the text.
pub(crate) fn fill(
    ranges: &mut [Range],
    text: &[u8],
    comparators: &[ComparatorRow],
    identifiers: &[IdentifierRow],
) {
    let mut identifiers = identifiers.iter().map(|row| identifier(text, row));
    for &[range, op, major, minor, patch, count, ..] in comparators {
        ranges[size(range)].comparator_set.push(Comparator {
            op: operator(op),
            major,
            minor,
            patch,
            pre: identifiers.by_ref().take(size(count)).collect(),
        });
    }
}

fn operator(code: u64) -> Op {
    match code {
        0 => Op::Lt,
        1 => Op::Lte,
        2 => Op::Gt,
        3 => Op::Gte,
        4 => Op::Eq,
        _ => unreachable!("the library writes the operators' codes, 0 to 4"),
    }
}

fn identifier(text: &[u8], row: &IdentifierRow) -> Identifier {
    match *row {
        [0, number, _] => Identifier::Numeric(number),
        [1, place, len] => {
            Identifier::AlphaNumeric(ascii(identifier_bytes(text, size(place), size(len))))
        }
        _ => unreachable!("the library writes the identifiers' kinds, 0 and 1"),
    }
}

/// A word that numbers a range, counts identifiers, or is a place in a text or a length: none
/// exceeds the text's own length.
pub(crate) fn size(word: u64) -> usize {
    usize::try_from(word).expect("the library writes no place behind the text")
}
