use crate::shelf_calls as calls;
use crate::{Compat, Refusal};
use std::slice::ChunksExact;

const ENTRY_BYTES: usize = 100;
const TEXT_AT: usize = 4;
const TEXT_BYTES: usize = 96;

/// At most 256 entries, each a part code, a mode and a range text of at most 96 bytes, in 37,890
/// bytes: the count, the entries in the order in which they were added, and in the same order the
/// lowest and the highest triple of each, by which the lookup goes (docs/USERS.md has the layout).
///
/// ```
/// use maluwesi::{Compat, Refusal, Shelf};
///
/// let mut shelf = Shelf::new();
/// shelf.add(7, Compat::Npm, "^1.2.3")?;
/// shelf.add(258, Compat::Cargo, "2 || 3")?;
/// assert_eq!(shelf.lookup("3.1.4")?, Some(258));
/// assert_eq!(shelf.get(7), Some(&b"^1.2.3"[..]));
/// assert_eq!(shelf.add(7, Compat::Npm, "*"), Err(Refusal::Code));
/// # Ok::<(), Refusal>(())
/// ```
#[derive(Clone, PartialEq, Eq)]
pub struct Shelf {
    bytes: Box<[u8]>,
}

impl Shelf {
    pub const BYTES: usize = calls::SHELF_BYTES;

    /// An empty shelf.
    pub fn new() -> Shelf {
        Shelf {
            bytes: vec![0; Shelf::BYTES].into_boxed_slice(),
        }
    }

    /// The shelf that these bytes are, or [`Refusal::NotShelf`]. Entries that no call would have
    /// made are kept as they stand, and fit no version; so are their triples, as which
    /// [`Shelf::lookup`] takes them.
    pub fn from_bytes(bytes: &[u8]) -> Result<Shelf, Refusal> {
        let shelf = Shelf {
            bytes: bytes.into(),
        };
        match calls::find(&shelf.bytes, 0) {
            Err(Refusal::NotShelf) => Err(Refusal::NotShelf),
            _ => Ok(shelf),
        }
    }

    pub fn as_bytes(&self) -> &[u8] {
        &self.bytes
    }

    /// Makes it empty.
    pub fn clear(&mut self) {
        calls::clear(&mut self.bytes).expect("the bytes are a shelf");
    }

    /// Puts an entry behind the others. The text is refused as by [`crate::RangeSet::parse`], and
    /// with [`Refusal::TooLong`] above 96 bytes; then a code that is there already with
    /// [`Refusal::Code`], and a 257th entry with [`Refusal::Full`].
    pub fn add(&mut self, code: u16, compat: Compat, text: &str) -> Result<(), Refusal> {
        calls::add(&mut self.bytes, code, compat, text.as_bytes())
    }

    /// Removes the first entry with the code; those behind it move up.
    pub fn remove(&mut self, code: u16) -> Result<(), Refusal> {
        calls::remove(&mut self.bytes, code)
    }

    /// The text of the first entry with the code.
    pub fn get(&self, code: u16) -> Option<&[u8]> {
        let place = calls::find(&self.bytes, code).ok()?;
        Some(&self.bytes[place])
    }

    /// The code of the first entry whose text admits the version; every entry is tried.
    pub fn first_fit(&self, version: &str) -> Result<Option<u16>, Refusal> {
        calls::first_fit(&self.bytes, version.as_bytes())
    }

    /// The same for a shelf that calls built, without reading them all: only an entry whose
    /// triples enclose the version's is tried.
    pub fn lookup(&self, version: &str) -> Result<Option<u16>, Refusal> {
        calls::lookup(&self.bytes, version.as_bytes())
    }

    pub fn len(&self) -> usize {
        usize::from(u16::from_le_bytes([self.bytes[0], self.bytes[1]]))
    }

    pub fn is_empty(&self) -> bool {
        self.len() == 0
    }

    /// The entries in their order.
    pub fn iter(&self) -> Entries<'_> {
        Entries {
            rows: self.bytes[2..][..ENTRY_BYTES * self.len()].chunks_exact(ENTRY_BYTES),
        }
    }
}

impl Default for Shelf {
    fn default() -> Shelf {
        Shelf::new()
    }
}

impl<'a> IntoIterator for &'a Shelf {
    type Item = Entry<'a>;
    type IntoIter = Entries<'a>;

    fn into_iter(self) -> Entries<'a> {
        self.iter()
    }
}

/// An entry of a [`Shelf`].
#[derive(Clone, Copy, PartialEq, Eq, Debug)]
pub struct Entry<'a> {
    pub code: u16,
    /// `None` where the mode's number is none, which no call writes.
    pub compat: Option<Compat>,
    /// Empty where its length is over 96, which no call writes.
    pub text: &'a [u8],
}

/// The entries of a [`Shelf`], in their order.
#[derive(Clone, Debug)]
pub struct Entries<'a> {
    rows: ChunksExact<'a, u8>,
}

impl<'a> Iterator for Entries<'a> {
    type Item = Entry<'a>;

    fn next(&mut self) -> Option<Entry<'a>> {
        self.rows.next().map(entry)
    }

    fn size_hint(&self) -> (usize, Option<usize>) {
        self.rows.size_hint()
    }
}

impl ExactSizeIterator for Entries<'_> {}

fn entry(row: &[u8]) -> Entry<'_> {
    let length = usize::from(row[3]);
    Entry {
        code: u16::from_le_bytes([row[0], row[1]]),
        compat: match row[2] {
            0 => Some(Compat::Cargo),
            1 => Some(Compat::Npm),
            _ => None,
        },
        text: if length <= TEXT_BYTES {
            &row[TEXT_AT..][..length]
        } else {
            &[]
        },
    }
}
