//! A safe function for each of [`ffi`](crate::ffi).
//!
//! References and slices bring all that is asked there: their pointers are never null, even where
//! they are empty; a slice has its own length; and a `&mut` overlaps nothing.

use crate::ffi;
use crate::{Compat, Refusal, RereadRefusal};

pub const COMPARATOR_WORDS: usize = 8;
pub const IDENTIFIER_WORDS: usize = 3;

/// Range, operator, major, minor, patch, number of identifiers, place and length of the item.
pub type ComparatorRow = [u64; COMPARATOR_WORDS];
/// Kind, number or place, 0 or length.
pub type IdentifierRow = [u64; IDENTIFIER_WORDS];

#[derive(Default)]
pub struct Counts {
    pub ranges: usize,
    pub comparators: usize,
    pub identifiers: usize,
}

pub fn count(text: &[u8], compat: Compat) -> Result<Counts, Refusal> {
    let mut counts = Counts::default();
    // SAFETY: the text is a slice with its length; the counts are three fields of a local.
    let number = unsafe {
        ffi::maluwesi_count(
            text.as_ptr(),
            text.len(),
            mode(compat),
            &mut counts.ranges,
            &mut counts.comparators,
            &mut counts.identifiers,
        )
    };
    accepted(number).map(|()| counts)
}

pub fn read(
    text: &[u8],
    compat: Compat,
    comparators: &mut [ComparatorRow],
    identifiers: &mut [IdentifierRow],
) -> Result<Counts, Refusal> {
    let words = comparators.as_flattened_mut();
    let ids = identifiers.as_flattened_mut();
    let mut counts = Counts::default();
    // SAFETY: text, words and ids are slices, each with its length; words and ids are exclusive,
    // and the counts are three fields of a local.
    let number = unsafe {
        ffi::maluwesi_read(
            text.as_ptr(),
            text.len(),
            mode(compat),
            words.as_mut_ptr(),
            words.len(),
            ids.as_mut_ptr(),
            ids.len(),
            &mut counts.ranges,
            &mut counts.comparators,
            &mut counts.identifiers,
        )
    };
    accepted(number).map(|()| counts)
}

pub fn normal_text_len(text: &[u8], compat: Compat) -> Result<usize, Refusal> {
    let lent = usize::MAX;
    let mut len = 0;
    // SAFETY: the text is a slice with its length; len is a local. The call is told how many bytes
    // would be lent, and is lent none.
    let number = unsafe {
        ffi::maluwesi_normal_text_len(text.as_ptr(), text.len(), mode(compat), lent, &mut len)
    };
    accepted(number).map(|()| len)
}

pub fn normal_text(text: &[u8], compat: Compat, out: &mut [u8]) -> Result<usize, Refusal> {
    let mut len = 0;
    // SAFETY: text and out are slices, each with its length; out is exclusive, and len is a local.
    let number = unsafe {
        ffi::maluwesi_normal_text(
            text.as_ptr(),
            text.len(),
            mode(compat),
            out.as_mut_ptr(),
            out.len(),
            &mut len,
        )
    };
    accepted(number).map(|()| len)
}

pub fn admit(text: &[u8], compat: Compat, version: &[u8]) -> Result<bool, Refusal> {
    let mut admitted = 0;
    // SAFETY: text and version are slices, each with its length, and only read, so they may
    // overlap; the answer is a local.
    let number = unsafe {
        ffi::maluwesi_admit(
            text.as_ptr(),
            text.len(),
            mode(compat),
            version.as_ptr(),
            version.len(),
            &mut admitted,
        )
    };
    accepted(number).map(|()| admitted == 1)
}

/// The bytes that an identifier's row names; none where they pass the end of the text.
pub fn identifier_bytes(text: &[u8], place: usize, len: usize) -> &[u8] {
    let (mut from, mut size) = (0, 0);
    // SAFETY: the text is a slice with its length; from and size are locals.
    unsafe {
        ffi::maluwesi_identifier_bytes(text.as_ptr(), text.len(), place, len, &mut from, &mut size);
    }
    &text[from..][..size]
}

pub fn read_normal_text(
    text: &[u8],
    compat: Compat,
    other: Compat,
    out: &mut [u8],
    comparators: &mut [ComparatorRow],
    identifiers: &mut [IdentifierRow],
) -> Result<Counts, RereadRefusal> {
    let words = comparators.as_flattened_mut();
    let ids = identifiers.as_flattened_mut();
    let mut counts = Counts::default();
    let mut normal = 0;
    // SAFETY: text, out, words and ids are slices, each with its length; out, words and ids are
    // exclusive, and normal and the counts are locals.
    let number = unsafe {
        ffi::maluwesi_read_normal_text(
            text.as_ptr(),
            text.len(),
            mode(compat),
            mode(other),
            out.as_mut_ptr(),
            out.len(),
            words.as_mut_ptr(),
            words.len(),
            ids.as_mut_ptr(),
            ids.len(),
            &mut normal,
            &mut counts.ranges,
            &mut counts.comparators,
            &mut counts.identifiers,
        )
    };
    let refused = if normal == 1 {
        RereadRefusal::NormalText
    } else {
        RereadRefusal::Text
    };
    accepted(number).map(|()| counts).map_err(refused)
}

/// The texts with their modes, and the bytes lent for the normal text of each.
pub fn equal_readings(
    (text, compat): (&[u8], Compat),
    (text2, compat2): (&[u8], Compat),
    out: &mut [u8],
    out2: &mut [u8],
) -> Result<bool, Refusal> {
    let mut equal = 0;
    // SAFETY: the texts and the bytes lent are slices, each with its length; the texts are only
    // read, so they may overlap; out and out2 are exclusive, and the answer is a local.
    let number = unsafe {
        ffi::maluwesi_equal_readings(
            text.as_ptr(),
            text.len(),
            mode(compat),
            text2.as_ptr(),
            text2.len(),
            mode(compat2),
            out.as_mut_ptr(),
            out.len(),
            out2.as_mut_ptr(),
            out2.len(),
            &mut equal,
        )
    };
    accepted(number).map(|()| equal == 1)
}

pub(crate) fn mode(compat: Compat) -> u8 {
    match compat {
        Compat::Cargo => 0,
        Compat::Npm => 1,
    }
}

pub(crate) fn accepted(number: u64) -> Result<(), Refusal> {
    if number == 0 {
        return Ok(());
    }
    let refusal = Refusal::from_number(number);
    Err(refusal.expect("a call whose mode is 0 or 1 returns 0 to 12"))
}

#[cfg(test)]
mod tests {
    use super::identifier_bytes;

    const TEXT: &[u8] = b"1.2.3-beta.4";

    #[test]
    fn the_part_that_is_named() {
        assert_eq!(identifier_bytes(TEXT, 6, 4), b"beta");
        assert_eq!(identifier_bytes(TEXT, 11, 1), b"4");
        assert_eq!(identifier_bytes(TEXT, 0, 12), TEXT);
    }

    #[test]
    fn nothing_past_the_end() {
        for (place, len) in [
            (11, 2),
            (0, 13),
            (12, 0),
            (12, 1),
            (13, 0),
            (usize::MAX, 1),
            (1, usize::MAX),
            (usize::MAX, usize::MAX),
            (6, usize::MAX - 5),
        ] {
            assert_eq!(identifier_bytes(TEXT, place, len), b"", "{place} {len}");
        }
        assert_eq!(identifier_bytes(b"", 0, 0), b"");
    }
}
