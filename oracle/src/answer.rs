//! An answer as 01 lays it out: the number of the refusal, the counts, the words of the rows, and the normal text.

use crate::calls::Counts;
use crate::items::{items, place};
use crate::partials::identifier_places;
use checked::{Comparator, Compat, Identifier, Op, RangeSet};

pub const COMPARATOR_WORDS: usize = 8;
const IDENTIFIER_WORDS: usize = 3;

/// A refused answer has nothing but its number.
pub struct Answer {
    pub number: u64,
    pub counts: Counts,
    pub words: Vec<u64>,
    pub ids: Vec<u64>,
    pub normal: String,
}

impl Answer {
    pub fn refused(number: u64) -> Answer {
        Answer {
            number,
            counts: Counts { ranges: 0, comparators: 0, identifiers: 0 },
            words: Vec::new(),
            ids: Vec::new(),
            normal: String::new(),
        }
    }

    /// The answer for a text that the crate reads as `set`.
    pub fn accepted(text: &str, set: &RangeSet) -> Answer {
        let words = comparator_words(text, set);
        let ids = identifier_words(text, set);
        Answer {
            number: 0,
            counts: Counts {
                ranges: set.ranges.len(),
                comparators: words.len() / COMPARATOR_WORDS,
                identifiers: ids.len() / IDENTIFIER_WORDS,
            },
            words,
            ids,
            normal: normal_text(set),
        }
    }
}

/// # Panics
/// Where the items found in the text, each read alone by the crate, do not give the crate's comparators.
fn comparator_words(text: &str, set: &RangeSet) -> Vec<u64> {
    let items: Vec<_> = items(text).collect();
    assert_eq!(items.len(), set.ranges.len(), "{text}");

    let mut words = Vec::new();
    for (number, (range, items)) in set.ranges.iter().zip(items).enumerate() {
        let mut comparators = range.comparator_set.iter();
        for item in items {
            for c in read_alone(item, set.compat) {
                assert_eq!(comparators.next(), Some(&c), "{text}");
                words.extend([number as u64, code(&c.op), c.major, c.minor, c.patch, c.pre.len() as u64]);
                words.extend([place(text, item) as u64, item.len() as u64]);
            }
        }
        assert_eq!(comparators.next(), None, "{text}");
    }
    words
}

fn read_alone(item: &str, mode: Compat) -> Vec<Comparator> {
    let set = RangeSet::parse(item, mode).expect(item);
    set.ranges.into_iter().flat_map(|range| range.comparator_set).collect()
}

/// # Panics
/// Where the places found in the text are not those of the crate's identifiers.
fn identifier_words(text: &str, set: &RangeSet) -> Vec<u64> {
    let ranges = set.ranges.iter();
    let comparators = ranges.flat_map(|range| &range.comparator_set);
    let identifiers: Vec<_> = comparators.flat_map(|c| &c.pre).collect();
    let places = identifier_places(text);
    assert_eq!(places.len(), identifiers.len(), "{text}");

    let mut words = Vec::new();
    for (identifier, (place, length)) in identifiers.into_iter().zip(places) {
        assert_eq!(spelled(identifier), text[place..place + length], "{text}");
        words.extend(match identifier {
            Identifier::Numeric(number) => [0, *number, 0],
            Identifier::AlphaNumeric(_) => [1, place as u64, length as u64],
        });
    }
    words
}

fn code(op: &Op) -> u64 {
    match op {
        Op::Lt => 0,
        Op::Lte => 1,
        Op::Gt => 2,
        Op::Gte => 3,
        Op::Eq => 4,
    }
}

pub fn normal_text(set: &RangeSet) -> String {
    let range = |comparators: &[Comparator]| {
        let spelled: Vec<_> = comparators.iter().map(comparator).collect();
        spelled.join(" ")
    };
    let ranges: Vec<_> = set.ranges.iter().map(|r| range(&r.comparator_set)).collect();
    ranges.join(" || ")
}

fn comparator(c: &Comparator) -> String {
    let sign = ["<", "<=", ">", ">=", "="][code(&c.op) as usize];
    let version = format!("{sign}{}.{}.{}", c.major, c.minor, c.patch);
    if c.pre.is_empty() {
        return version;
    }
    let identifiers: Vec<_> = c.pre.iter().map(spelled).collect();
    format!("{version}-{}", identifiers.join("."))
}

pub fn spelled(identifier: &Identifier) -> String {
    match identifier {
        Identifier::Numeric(number) => number.to_string(),
        Identifier::AlphaNumeric(text) => text.clone(),
    }
}
