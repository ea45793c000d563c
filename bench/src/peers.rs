//! What is measured: each peer's act on a text. An act hands back a number, so that nothing of it is left out as unused; what the Rust peers
//! allocate, they free within the act, and ours is lent its memory.

use maluwesi::ffi;
use std::cell::UnsafeCell;

pub const CARGO: u8 = 0;

/// The memory that is lent: enough for every text of 65,535 bytes.
pub struct Lent<T, const N: usize>(pub UnsafeCell<[T; N]>);
// One thread runs the acts.
unsafe impl<T, const N: usize> Sync for Lent<T, N> {}
const WORDS_LEN: usize = 8 * 65_536;
const IDS_LEN: usize = 3 * 32_765;
const BYTES_LEN: usize = 8 * 65_535 + 7;
static WORDS: Lent<u64, WORDS_LEN> = Lent(UnsafeCell::new([0; WORDS_LEN]));
static IDS: Lent<u64, IDS_LEN> = Lent(UnsafeCell::new([0; IDS_LEN]));
static BYTES: Lent<u8, BYTES_LEN> = Lent(UnsafeCell::new([0; BYTES_LEN]));

pub struct Peer {
    pub name: &'static str,
    pub act: fn(&str) -> Option<u64>,
}

pub const READERS: [Peer; 3] = [
    Peer { name: "crate", act: crate_reads },
    Peer { name: "semver", act: semver_reads },
    Peer { name: "maluwesi", act: maluwesi_reads },
];

pub const SPELLERS: [Peer; 2] =
    [Peer { name: "semver", act: semver_spells }, Peer { name: "maluwesi", act: maluwesi_spells }];

pub const ADMITTERS: [Peer; 2] =
    [Peer { name: "semver", act: semver_admits }, Peer { name: "maluwesi", act: maluwesi_admits }];

fn crate_reads(text: &str) -> Option<u64> {
    let set = released::RangeSet::parse(text, released::Compat::Cargo).ok()?;
    Some(set.ranges.len() as u64)
}

fn semver_reads(text: &str) -> Option<u64> {
    let range = semver::VersionReq::parse(text).ok()?;
    Some(range.comparators.len() as u64)
}

fn maluwesi_reads(text: &str) -> Option<u64> {
    let (mut ranges, mut comparators, mut identifiers) = (0, 0, 0);
    // SAFETY: the text is a slice with its length; the words are two statics', which nothing else uses while the call runs; the counts are locals.
    let refusal = unsafe {
        ffi::maluwesi_read(
            text.as_ptr(),
            text.len(),
            CARGO,
            WORDS.0.get().cast(),
            WORDS_LEN,
            IDS.0.get().cast(),
            IDS_LEN,
            &mut ranges,
            &mut comparators,
            &mut identifiers,
        )
    };
    (refusal == 0).then_some(comparators as u64)
}

fn semver_spells(text: &str) -> Option<u64> {
    let range = semver::VersionReq::parse(text).ok()?;
    Some(range.to_string().len() as u64)
}

fn maluwesi_spells(text: &str) -> Option<u64> {
    let mut length = 0;
    // SAFETY: the text is a slice with its length; the bytes are a static's, which nothing else uses while the call runs; the length is a local.
    let refusal = unsafe {
        ffi::maluwesi_normal_text(text.as_ptr(), text.len(), CARGO, BYTES.0.get().cast(), BYTES_LEN, &mut length)
    };
    (refusal == 0).then_some(length as u64)
}

const VERSION: &str = "1.4.0";

fn semver_admits(text: &str) -> Option<u64> {
    let range = semver::VersionReq::parse(text).ok()?;
    let version = semver::Version::parse(std::hint::black_box(VERSION)).ok()?;
    Some(range.matches(&version) as u64)
}

fn maluwesi_admits(text: &str) -> Option<u64> {
    let mut admitted = 0;
    // SAFETY: both texts are slices with their lengths; the answer is a local.
    let refusal = unsafe {
        ffi::maluwesi_admit(text.as_ptr(), text.len(), CARGO, VERSION.as_ptr(), VERSION.len(), &mut admitted)
    };
    (refusal == 0).then_some(admitted as u64)
}
