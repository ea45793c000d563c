//! Version ranges, read by a proved reader under the names of the crate semver-parser 0.10.3.
//!
//! [`RangeSet::parse`] gives what that crate gives. Where it would panic or wrap, and for a text
//! longer than 65,535 bytes, a [`Refusal`] comes back. [`RangeSet::sources`], [`normal_text`],
//! [`read_normal_text`], [`equal_readings`], [`admits`] and [`Shelf`] are added.
//!
//! ```
//! use maluwesi::{Compat, Op, RangeSet, Refusal};
//!
//! let set = RangeSet::parse(">=1.2, <2 || 1.0.x", Compat::Npm)?;
//! assert_eq!(set.ranges.len(), 2);
//! assert_eq!(set.ranges[0].comparator_set[1].op, Op::Lt);
//!
//! let wrapped = RangeSet::parse("1.0.0 - 18446744073709551615", Compat::Npm);
//! assert_eq!(wrapped, Err(Refusal::Over));
//!
//! assert_eq!(maluwesi::normal_text("~1.2", Compat::Npm)?, ">=1.2.0 <1.3.0");
//! assert!(maluwesi::admits("~1.2", Compat::Npm, "1.2.9")?);
//! # Ok::<(), Refusal>(())
//! ```

mod calls;
pub mod ffi;
mod range;
mod range_set;
mod refusal;
mod shelf;
mod shelf_calls;

pub use range::{Comparator, Identifier, Op, Range};
pub use range_set::{Compat, RangeSet};
pub use refusal::{Refusal, RereadRefusal};
pub use shelf::{Entries, Entry, Shelf};

use range_set::Rows;

/// The range text in its plainest spelling, such as `>=1.2.0 <1.3.0 || =2.0.0`.
///
/// Read again under either mode, it gives the same comparators, unless it is longer than 65,535
/// bytes.
pub fn normal_text(text: &str, compat: Compat) -> Result<String, Refusal> {
    let text = text.as_bytes();
    let mut out = vec![0; calls::normal_text_len(text, compat)?];
    calls::normal_text(text, compat, &mut out)?;
    Ok(ascii(&out))
}

/// The normal text under the first mode, and its reading under the other, which has the comparators
/// of the text itself. A normal text that is longer than 65,535 bytes is refused with
/// [`Refusal::TooLong`], in [`RereadRefusal::NormalText`].
pub fn read_normal_text(
    text: &str,
    compat: Compat,
    other: Compat,
) -> Result<(String, RangeSet), RereadRefusal> {
    let text = text.as_bytes();
    let mut out = vec![0; calls::normal_text_len(text, compat)?];
    let mut rows = Rows::new(calls::count(text, compat)?);
    let (comparators, identifiers) = (&mut rows.comparators, &mut rows.identifiers);
    calls::read_normal_text(text, compat, other, &mut out, comparators, identifiers)?;
    Ok((ascii(&out), rows.range_set(&out, other)))
}

/// Whether two texts, each under its mode, have the same comparators in the same ranges: decided by
/// their normal texts.
pub fn equal_readings(
    text: &str,
    compat: Compat,
    text2: &str,
    compat2: Compat,
) -> Result<bool, Refusal> {
    let (first, second) = ((text.as_bytes(), compat), (text2.as_bytes(), compat2));
    let mut out = vec![0; calls::normal_text_len(first.0, first.1)?];
    let mut out2 = vec![0; calls::normal_text_len(second.0, second.1)?];
    calls::equal_readings(first, second, &mut out, &mut out2)
}

/// Whether the version meets every comparator of some range of the range text, by the precedence
/// of Semantic Versioning 2.0.0.
pub fn admits(text: &str, compat: Compat, version: &str) -> Result<bool, Refusal> {
    calls::admit(text.as_bytes(), compat, version.as_bytes())
}

/// The bytes of a normal text or of an identifier as a string. The grammar has ASCII bytes only,
/// and an ASCII byte is its own character.
fn ascii(bytes: &[u8]) -> String {
    bytes.iter().copied().map(char::from).collect()
}
