//! Admission, held to dtolnay's semver: it refuses what is no version, and its precedence decides.

use crate::answer::spelled;
use crate::calls;
use crate::random::{damaged, identifiers, number, range_set, Numbers, Random};
use crate::reference::{verdict, Verdict, LONGEST_TEXT, MODES};
use crate::report::{shown, Differences};
use crate::texts::with_each_byte;
use checked::{Comparator, Compat, Op, RangeSet};
use semver::{BuildMetadata, Prerelease, Version};
use std::fmt;

const RANDOM_PAIRS: usize = 600_000;
const STAMP_PAIRS: usize = 200_000;

#[derive(Default)]
pub struct Tally {
    pairs: u64,
    yes: u64,
    no: u64,
    range_refused: u64,
    no_version: u64,
    version_too_large: u64,
    pub differences: Differences,
}

pub struct Expected {
    pub number: u64,
    pub admitted: u8,
}

pub fn compare_all(seed: u64) -> Tally {
    let mut random = Random::new(seed);
    let mut tally = Tally::default();
    for _ in 0..RANDOM_PAIRS {
        let range = random_range(&mut random);
        let mode = MODES[random.below(2)];
        let version = random_version(&mut random, &range, mode);
        compare(&range, mode, &version, &mut tally);
    }
    compare_prereleases(&mut tally);
    for _ in 0..STAMP_PAIRS {
        compare_by(random.pick(&COMPARISONS), &stamp(&mut random), &stamp(&mut random), &mut tally);
    }
    compare_long_stamps(&mut tally);
    compare_changed_versions(&mut tally);
    compare_long_versions(&mut tally);
    tally
}

fn compare(range: &[u8], mode: Compat, version: &[u8], tally: &mut Tally) {
    let expected = expected(range, mode, version);
    tally.pairs += 1;
    match (expected.number, expected.admitted) {
        (0, 1) => tally.yes += 1,
        (0, _) => tally.no += 1,
        (8, _) => tally.no_version += 1,
        (9, _) => tally.version_too_large += 1,
        _ => tally.range_refused += 1,
    }
    let (number, admitted) = calls::admit(range, mode as u8, version);
    if (number, admitted) != (expected.number, expected.admitted) {
        tally.differences.add(format!(
            "admit `{}` {mode:?} `{}`: here {number} {admitted}, expected {} {}",
            shown(range),
            shown(version),
            expected.number,
            expected.admitted
        ));
    }
}

pub fn expected(range: &[u8], mode: Compat, version: &[u8]) -> Expected {
    let refused = |number| Expected { number, admitted: 0 };
    let set = match verdict(range, mode) {
        Verdict::Set(set) => set,
        other => return refused(other.number()),
    };
    match parse_version(version) {
        Err(number) => refused(number),
        Ok(version) => Expected { number: 0, admitted: u8::from(admits(&set, &version)) },
    }
}

// ---- versions

/// The version without its build part, or the refusal.
pub fn parse_version(text: &[u8]) -> Result<Version, u64> {
    let text = std::str::from_utf8(text).map_err(|_| 8u64)?;
    if text.len() > LONGEST_TEXT {
        return Err(8);
    }
    match Version::parse(text) {
        Ok(version) => Ok(Version { build: BuildMetadata::EMPTY, ..version }),
        Err(_) if Version::parse(&with_small_components(text)).is_ok() => Err(9),
        Err(_) => Err(8),
    }
}

/// semver refuses a component above 2^64 - 1 before it looks at what follows, and 01 only in a version.
fn with_small_components(text: &str) -> String {
    let end = text.find(['-', '+']).unwrap_or(text.len());
    let long =
        |number: &str| number.len() > 19 && !number.starts_with('0') && number.bytes().all(|b| b.is_ascii_digit());
    let small: Vec<_> = text[..end].split('.').map(|c| if long(c) { "1" } else { c }).collect();
    small.join(".") + &text[end..]
}

// ---- precedence

pub fn admits(set: &RangeSet, version: &Version) -> bool {
    set.ranges.iter().any(|range| range.comparator_set.iter().all(|c| meets(version, c)))
}

fn meets(version: &Version, comparator: &Comparator) -> bool {
    let order = version.cmp(&bound(comparator));
    match comparator.op {
        Op::Lt => order.is_lt(),
        Op::Lte => order.is_le(),
        Op::Gt => order.is_gt(),
        Op::Gte => order.is_ge(),
        Op::Eq => order.is_eq(),
    }
}

fn bound(comparator: &Comparator) -> Version {
    let identifiers: Vec<_> = comparator.pre.iter().map(spelled).collect();
    Version {
        major: comparator.major,
        minor: comparator.minor,
        patch: comparator.patch,
        pre: Prerelease::new(&identifiers.join(".")).unwrap(),
        build: BuildMetadata::EMPTY,
    }
}

// ---- pairs

pub fn random_range(random: &mut Random) -> Vec<u8> {
    let numbers = if random.one_in(3) { Numbers::Any } else { Numbers::Small };
    let range = range_set(random, numbers).into_bytes();
    match random.one_in(16) {
        true => damaged(random, &range),
        false => range,
    }
}

fn random_version(random: &mut Random, range: &[u8], mode: Compat) -> Vec<u8> {
    let version = match verdict(range, mode) {
        Verdict::Set(set) if !random.one_in(16) => version_near(random, &set),
        _ => format!("{}.{}.{}", number(random), number(random), number(random)),
    };
    match random.one_in(12) {
        true => damaged(random, version.as_bytes()),
        false => version.into_bytes(),
    }
}

/// A version equal to one of the range set's or a little off it.
pub fn version_near(random: &mut Random, set: &RangeSet) -> String {
    let range = &set.ranges[random.below(set.ranges.len())];
    let comparator = &range.comparator_set[random.below(range.comparator_set.len())];
    let mut near = |number: u64| match random.below(8) {
        0 => number.saturating_add(1),
        1 => number.saturating_sub(1),
        _ => number,
    };
    let triple = [comparator.major, comparator.minor, comparator.patch].map(&mut near);
    let prerelease = match random.below(5) {
        0 | 1 => String::new(),
        2 => format!("-{}", identifiers(random)),
        _ if comparator.pre.is_empty() => String::new(),
        3 => format!("-{}", bound(comparator).pre),
        _ => format!("-{}{}", bound(comparator).pre, random.pick(&[".0", "a", "0", ".-"])),
    };
    let build = if random.one_in(6) { "+001.b" } else { "" };
    format!("{}.{}.{}{prerelease}{build}", triple[0], triple[1], triple[2])
}

const COMPARISONS: [&str; 5] = ["<", "<=", ">", ">=", "="];

/// The prerelease parts by an operator: in a range, and in a version.
fn compare_by(operator: &str, left: &str, right: &str, tally: &mut Tally) {
    let range = format!("{operator}1.2.3{left}");
    let version = format!("1.2.3{right}+b");
    compare(range.as_bytes(), Compat::Npm, version.as_bytes(), tally);
}

/// Every two of the prerelease parts, by each operator.
fn compare_each(parts: &[&str], tally: &mut Tally) {
    for left in parts {
        for right in parts {
            COMPARISONS.iter().for_each(|operator| compare_by(operator, left, right, tally));
        }
    }
}

#[rustfmt::skip]
const PRERELEASES: [&str; 30] = [
    "", "-0", "-1", "-2", "-10", "-9999999999999999999", "-10000000000000000000", "-18446744073709551615",
    "-18446744073709551616", "-18446744073709551617", "-99999999999999999999", "-100000000000000000000",
    "-100000000000000000001", "-999999999999999999999", "-100000000000000000000.a", "-1.0", "-1.a", "-a", "-a.0", "-a.1",
    "-a.10", "-a.b", "-a-b", "-a0", "-A", "-b", "--", "-Z", "-a.18446744073709551616", "-a.100000000000000000000",
];

fn compare_prereleases(tally: &mut Tally) {
    compare_each(&PRERELEASES, tally);
}

/// A stamp of 18 to 22 digits, few of which are not 0 or 9, or now and then with a letter or a hyphen in it.
fn stamp(random: &mut Random) -> String {
    let mut text = format!("-{}", random.pick(&["1", "9"]));
    for _ in 0..17 + random.below(5) {
        text += match random.below(24) {
            0 => random.pick(&["1", "2", "8"]),
            _ if text.ends_with('1') || text.ends_with('0') => "0",
            _ => "9",
        };
    }
    match random.one_in(6) {
        true => text.replacen(['1', '9'], random.pick(&["a", "-", "A"]), 1),
        false => text,
    }
}

/// Stamps of 59,999 and 60,000 digits, of equal lengths too, and as many letters.
fn compare_long_stamps(tally: &mut Tally) {
    let short = format!("-{}", "9".repeat(59_999));
    let long = format!("-1{}", "0".repeat(59_999));
    let larger = format!("-1{}1", "0".repeat(59_998));
    let letters = format!("-{}", "a".repeat(60_000));
    compare_each(&[&short, &long, &larger, &letters, "-a"], tally);
}

fn compare_changed_versions(tally: &mut Tally) {
    for version in ["1.2.3", "1.20.3-a.0.-+b.01", "0.0.18446744073709551615", "18446744073709551616.0.0-0"] {
        with_each_byte(version, &mut |changed| compare(b"<=1.2.3", Compat::Npm, changed, tally));
    }
}

fn compare_long_versions(tally: &mut Tally) {
    for length in LONGEST_TEXT - 1..=LONGEST_TEXT + 1 {
        let version = format!("1.2.3-{}", "a".repeat(length - "1.2.3-".len()));
        compare(b">=1.2.3-a", Compat::Npm, version.as_bytes(), tally);
        compare(version.as_bytes(), Compat::Npm, version.as_bytes(), tally);
    }
}

impl fmt::Display for Tally {
    fn fmt(&self, f: &mut fmt::Formatter) -> fmt::Result {
        writeln!(f, "admissions of {} pairs of a range and a version", self.pairs)?;
        writeln!(f, "{:>12} yes, {} no", self.yes, self.no)?;
        writeln!(f, "{:>12} refused with 1 to 4 as the reading", self.range_refused)?;
        writeln!(f, "{:>12} refused with 8, {} with 9", self.no_version, self.version_too_large)?;
        writeln!(f, "{:>12} differences", self.differences.count)
    }
}
