use maluwesi::{Comparator, Compat, Identifier, Op, RangeSet, Refusal};

fn comparator(op: Op, [major, minor, patch]: [u64; 3]) -> Comparator {
    Comparator {
        op,
        major,
        minor,
        patch,
        pre: Vec::new(),
    }
}

/// The comparators of each range.
fn read(text: &str, compat: Compat) -> Vec<Vec<Comparator>> {
    let set = RangeSet::parse(text, compat).unwrap();
    assert_eq!(set.compat, compat);
    let comparators = |range: maluwesi::Range| {
        assert_eq!(range.compat, compat);
        range.comparator_set
    };
    set.ranges.into_iter().map(comparators).collect()
}

/// The identifiers of the first comparator.
fn identifiers(text: &str) -> Vec<Identifier> {
    read(text, Compat::Npm)[0][0].pre.clone()
}

fn word(text: &str) -> Identifier {
    Identifier::AlphaNumeric(String::from(text))
}

#[test]
fn the_empty_text_is_one_range() {
    let anything = vec![comparator(Op::Gte, [0, 0, 0])];
    assert_eq!(read("", Compat::Cargo), vec![anything.clone()]);
    assert_eq!(read("||", Compat::Npm), vec![anything.clone(), anything]);
}

#[test]
fn a_bare_version_goes_by_the_mode() {
    let caret = vec![
        comparator(Op::Gte, [1, 2, 3]),
        comparator(Op::Lt, [2, 0, 0]),
    ];
    assert_eq!(read("1.2.3", Compat::Cargo), vec![caret]);
    let equal = vec![comparator(Op::Eq, [1, 2, 3])];
    assert_eq!(read("1.2.3", Compat::Npm), vec![equal]);
}

#[test]
fn each_operator_is_read() {
    let operators = [
        ("<1.2.3", Op::Lt),
        ("<=1.2.3", Op::Lte),
        (">1.2.3", Op::Gt),
        (">=1.2.3", Op::Gte),
        ("=1.2.3", Op::Eq),
    ];
    for (text, op) in operators {
        let expected = vec![comparator(op, [1, 2, 3])];
        assert_eq!(read(text, Compat::Cargo), vec![expected]);
    }
}

#[test]
fn comparators_stand_in_their_ranges() {
    let first = vec![comparator(Op::Lt, [3, 0, 0])];
    let second = vec![comparator(Op::Gt, [1, 0, 0]), comparator(Op::Lt, [1, 3, 0])];
    let third = vec![comparator(Op::Lt, [0, 0, 0])];
    let read = read("* - 2 || >1, <=1.2||<*", Compat::Npm);
    assert_eq!(read, vec![first, second, third]);
}

#[test]
fn identifiers_are_numbers_or_words() {
    let largest = Identifier::Numeric(u64::MAX);
    assert_eq!(identifiers("1.2.3-18446744073709551615"), vec![largest]);
    let beyond = word("18446744073709551616");
    assert_eq!(identifiers("1.2.3-18446744073709551616"), vec![beyond]);
    assert_eq!(identifiers("1.2.3+b7"), vec![word("b7")]);
    let mixed = vec![word("rc-1"), Identifier::Numeric(0), word("-")];
    assert_eq!(identifiers("1.2.3-rc-1.0.-"), mixed);
}

#[test]
fn identifiers_stand_at_their_comparators() {
    let ranges = read("1.2.3-a - 2.0.0-b.2 || <3 >=4.0.0-c", Compat::Npm);
    let of = |range: usize, at: usize| ranges[range][at].pre.clone();
    assert_eq!(of(0, 0), vec![word("a")]);
    assert_eq!(of(0, 1), vec![word("b"), Identifier::Numeric(2)]);
    assert_eq!(of(1, 0), vec![]);
    assert_eq!(of(1, 1), vec![word("c")]);
}

#[test]
fn the_longest_readings_are_whole() {
    let items = vec!["1"; 32_768].join(" ");
    assert_eq!(items.len(), 65_535);
    assert_eq!(read(&items, Compat::Npm)[0].len(), 65_536);

    let bars = "||".repeat(32_767);
    assert_eq!(read(&bars, Compat::Npm).len(), 32_768);

    let qualified = format!("1.2.3-{}", vec!["a"; 32_765].join("."));
    assert_eq!(qualified.len(), 65_535);
    assert_eq!(identifiers(&qualified), vec![word("a"); 32_765]);
}

#[test]
fn bytes_that_are_no_utf8_have_no_reading() {
    let refused = Err(Refusal::NoReading);
    assert_eq!(RangeSet::parse_bytes(b"1.2.3-\xff", Compat::Npm), refused);
    assert_eq!(RangeSet::parse("1.2.3-\u{e9}", Compat::Npm), refused);
    let set = RangeSet::parse("1.2.3-a", Compat::Npm);
    assert_eq!(RangeSet::parse_bytes(b"1.2.3-a", Compat::Npm), set);
}
