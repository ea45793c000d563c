//! A small tool over semver-parser 0.10.3's names alone. With the dependency
//! `semver-parser = { package = "maluwesi", path = ".." }` the next line would not be there.
use maluwesi as semver_parser;

use semver_parser::{Comparator, Compat, Identifier, Op, Range, RangeSet};

type Build = (u64, u64, u64);

fn meets(build: Build, comparator: &Comparator) -> bool {
    let bound = (comparator.major, comparator.minor, comparator.patch);
    match comparator.op {
        Op::Lt => build < bound,
        Op::Lte => build <= bound,
        Op::Gt => build > bound,
        Op::Gte => build >= bound,
        Op::Eq => build == bound,
    }
}

fn holds(range: &Range, build: Build) -> bool {
    range.comparator_set.iter().all(|c| meets(build, c))
}

fn may_load(text: &str, build: Build) -> Result<bool, String> {
    let set = RangeSet::parse(text, Compat::Npm)?;
    Ok(set.ranges.iter().any(|range| holds(range, build)))
}

fn cargo_ranges(text: &str) -> Result<Vec<Range>, String> {
    let set: RangeSet = text.parse()?;
    Ok(set.ranges)
}

#[test]
fn a_build_in_some_range_is_loaded() {
    let text = ">=1.2, <2 || 1.0.x";
    assert_eq!(may_load(text, (1, 0, 9)), Ok(true));
    assert_eq!(may_load(text, (1, 1, 0)), Ok(false));
    assert_eq!(may_load(text, (1, 2, 0)), Ok(true));
    assert_eq!(may_load(text, (2, 0, 0)), Ok(false));
}

#[test]
fn the_range_that_wrapped_is_an_error() {
    let refused = may_load("1.0.0 - 18446744073709551615", (1, 2, 3));
    let sentence = "an expansion would add one to 18446744073709551615";
    assert_eq!(refused, Err(String::from(sentence)));
}

#[test]
fn from_str_reads_under_cargo() {
    let expected = Range {
        comparator_set: vec![
            Comparator {
                op: Op::Gte,
                major: 1,
                minor: 2,
                patch: 3,
                pre: vec![
                    Identifier::AlphaNumeric(String::from("beta")),
                    Identifier::Numeric(4),
                ],
            },
            Comparator {
                op: Op::Lt,
                major: 2,
                minor: 0,
                patch: 0,
                pre: Vec::new(),
            },
        ],
        compat: Compat::Cargo,
    };
    assert_eq!(cargo_ranges("1.2.3-beta.4"), Ok(vec![expected]));
}

#[test]
fn readings_are_compared_ordered_and_cloned() {
    let read = |text, compat| RangeSet::parse(text, compat).unwrap();
    let one = read("^1.2.3", Compat::Cargo);
    assert_eq!(one, read(" ^  1.2.3 ", Compat::Cargo));
    assert_eq!(one, read(">=1.2.3 <2", Compat::Cargo));
    assert_eq!(one, one.clone());
    assert_ne!(one, read("^1.2.4", Compat::Cargo));
    assert_ne!(one, read("^1.2.3", Compat::Npm));
    assert!(one < read("^1.2.4", Compat::Cargo));
}
