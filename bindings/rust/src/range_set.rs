use crate::calls;
use crate::range::{self, size};
use crate::{Range, Refusal};
use std::str::FromStr;

/// A text's ranges, in its order. `==` compares the mode too, as in semver-parser.
#[derive(Clone, PartialEq, Eq, PartialOrd, Ord, Hash, Debug)]
pub struct RangeSet {
    pub ranges: Vec<Range>,
    pub compat: Compat,
}

/// The mode. A bare `1.2.3` is `^1.2.3` under Cargo and `=1.2.3` under Npm; all else is alike.
#[derive(Clone, Copy, PartialEq, Eq, PartialOrd, Ord, Hash, Debug)]
pub enum Compat {
    Cargo,
    Npm,
}

impl RangeSet {
    pub fn parse(input: &str, compat: Compat) -> Result<Self, Refusal> {
        RangeSet::parse_bytes(input.as_bytes(), compat)
    }

    /// [`RangeSet::parse`] for bytes that need not be UTF-8. The grammar has ASCII bytes only, so
    /// a text with others is refused with [`Refusal::NoReading`], unless it is too long.
    pub fn parse_bytes(input: &[u8], compat: Compat) -> Result<Self, Refusal> {
        let rows = Rows::read(input, compat)?;
        Ok(rows.range_set(input, compat))
    }

    /// The words that each comparator came from: for each range, and each of its comparators, in
    /// the order of `comparator_set`, the item as it stands in the input, with its operator. A
    /// hyphen range is one item; the item of an empty range is empty.
    ///
    /// ```
    /// use maluwesi::{Compat, RangeSet};
    ///
    /// let sources = RangeSet::sources("^1.2.3, <= 1.4 || 1 - 2", Compat::Npm)?;
    /// assert_eq!(sources[0], ["^1.2.3", "^1.2.3", "<= 1.4"]);
    /// assert_eq!(sources[1], ["1 - 2", "1 - 2"]);
    /// # Ok::<(), maluwesi::Refusal>(())
    /// ```
    pub fn sources(input: &str, compat: Compat) -> Result<Vec<Vec<&str>>, Refusal> {
        let rows = Rows::read(input.as_bytes(), compat)?;
        let mut sources = vec![Vec::new(); rows.ranges];
        for &[range, .., place, len] in &rows.comparators {
            sources[size(range)].push(&input[size(place)..][..size(len)]);
        }
        Ok(sources)
    }
}

/// The rows of a text, with the number of its ranges.
pub(crate) struct Rows {
    ranges: usize,
    pub(crate) comparators: Vec<calls::ComparatorRow>,
    pub(crate) identifiers: Vec<calls::IdentifierRow>,
}

impl Rows {
    fn read(text: &[u8], compat: Compat) -> Result<Rows, Refusal> {
        let mut rows = Rows::new(calls::count(text, compat)?);
        calls::read(text, compat, &mut rows.comparators, &mut rows.identifiers)?;
        Ok(rows)
    }

    /// Zeros, as many as the counts say.
    pub(crate) fn new(counts: calls::Counts) -> Rows {
        Rows {
            ranges: counts.ranges,
            comparators: vec![[0; calls::COMPARATOR_WORDS]; counts.comparators],
            identifiers: vec![[0; calls::IDENTIFIER_WORDS]; counts.identifiers],
        }
    }

    /// The reading with these rows, which are those of the text.
    pub(crate) fn range_set(&self, text: &[u8], compat: Compat) -> RangeSet {
        let empty = Range {
            comparator_set: Vec::new(),
            compat,
        };
        let mut ranges = vec![empty; self.ranges];
        range::fill(&mut ranges, text, &self.comparators, &self.identifiers);
        RangeSet { ranges, compat }
    }
}

/// Under Cargo, as in semver-parser.
impl FromStr for RangeSet {
    type Err = Refusal;

    fn from_str(input: &str) -> Result<Self, Self::Err> {
        RangeSet::parse(input, Compat::Cargo)
    }
}
