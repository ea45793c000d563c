use std::error::Error;
use std::fmt;

/// Why a call was refused, in the order in which the checks are made, each over the whole text
/// before the next begins. `Display` gives a sentence for each.
///
/// This crate lends the library all the space that an answer needs, so 5, 6 and 7 do not come back
/// from it; C callers meet them.
#[derive(Clone, Copy, PartialEq, Eq, PartialOrd, Ord, Hash, Debug)]
pub enum Refusal {
    TooLong = 1,
    NoReading,
    TooLarge,
    Over,
    ComparatorsShort,
    IdentifiersShort,
    BytesShort,
    NoVersion,
    VersionTooLarge,
    NotShelf,
    Full,
    Code,
}

impl Refusal {
    /// The refusal's number, 1 to 12.
    pub fn number(self) -> u64 {
        self as u64
    }

    pub(crate) fn from_number(number: u64) -> Option<Refusal> {
        let refusal = match number {
            1 => Refusal::TooLong,
            2 => Refusal::NoReading,
            3 => Refusal::TooLarge,
            4 => Refusal::Over,
            5 => Refusal::ComparatorsShort,
            6 => Refusal::IdentifiersShort,
            7 => Refusal::BytesShort,
            8 => Refusal::NoVersion,
            9 => Refusal::VersionTooLarge,
            10 => Refusal::NotShelf,
            11 => Refusal::Full,
            12 => Refusal::Code,
            _ => return None,
        };
        Some(refusal)
    }
}

impl fmt::Display for Refusal {
    fn fmt(&self, f: &mut fmt::Formatter<'_>) -> fmt::Result {
        f.write_str(match self {
            Refusal::TooLong => "the range text is longer than 65,535 bytes",
            Refusal::NoReading => "the range text has no reading",
            Refusal::TooLarge => "a component exceeds 18446744073709551615",
            Refusal::Over => "an expansion would add one to 18446744073709551615",
            Refusal::ComparatorsShort => "the words lent for comparators are too few",
            Refusal::IdentifiersShort => "the words lent for identifiers are too few",
            Refusal::BytesShort => "the bytes lent for the normal text are too few",
            Refusal::NoVersion => "the version text is no version or is longer than 65,535 bytes",
            Refusal::VersionTooLarge => {
                "the version's major, minor or patch exceeds 18446744073709551615"
            }
            Refusal::NotShelf => "the memory is no shelf",
            Refusal::Full => "the shelf has 256 entries",
            Refusal::Code => "the part code is on the shelf already, or is not on it",
        })
    }
}

impl Error for Refusal {}

/// Why a normal text could not be read again: the text was refused, or its normal text.
#[derive(Clone, Copy, PartialEq, Eq, Debug)]
pub enum RereadRefusal {
    Text(Refusal),
    NormalText(Refusal),
}

impl fmt::Display for RereadRefusal {
    fn fmt(&self, f: &mut fmt::Formatter<'_>) -> fmt::Result {
        match self {
            RereadRefusal::Text(refusal) => refusal.fmt(f),
            RereadRefusal::NormalText(refusal) => write!(f, "of the normal text: {refusal}"),
        }
    }
}

impl Error for RereadRefusal {}

impl From<Refusal> for RereadRefusal {
    fn from(refusal: Refusal) -> RereadRefusal {
        RereadRefusal::Text(refusal)
    }
}

/// semver-parser's error is a `String`. With this, `?` goes on compiling in a function that
/// returns one.
impl From<Refusal> for String {
    fn from(refusal: Refusal) -> String {
        refusal.to_string()
    }
}
