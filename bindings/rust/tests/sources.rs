use maluwesi::{Compat, RangeSet, Refusal};

fn sources(text: &str, compat: Compat) -> Vec<Vec<&str>> {
    let sources = RangeSet::sources(text, compat).unwrap();
    let set = RangeSet::parse(text, compat).unwrap();
    let comparators = set.ranges.iter().map(|range| range.comparator_set.len());
    assert!(comparators.eq(sources.iter().map(Vec::len)), "{text}");
    sources
}

#[test]
fn each_comparator_has_its_item() {
    let text = " >= 1.2.3-a.1,\t~>1.x  <3";
    let items = [">= 1.2.3-a.1", "~>1.x", "~>1.x", "<3"];
    assert_eq!(sources(text, Compat::Npm), [items]);
}

#[test]
fn a_bare_version_goes_by_the_mode() {
    assert_eq!(sources("1.2.3", Compat::Cargo), [["1.2.3", "1.2.3"]]);
    assert_eq!(sources("1.2.3", Compat::Npm), [["1.2.3"]]);
}

#[test]
fn a_hyphen_range_is_one_item() {
    let text = "1  - 2.x.3-a || * - 2||* - *";
    let expected = [vec!["1  - 2.x.3-a"; 2], vec!["* - 2"], vec!["* - *"]];
    assert_eq!(sources(text, Compat::Npm), expected);
}

#[test]
fn an_empty_range_has_the_empty_item_in_its_place() {
    let text = " || 1 ||  ";
    let found = sources(text, Compat::Npm);
    assert_eq!(found, [vec![""], vec!["1", "1"], vec![""]]);
    let place = |item: &str| item.as_ptr() as usize - text.as_ptr() as usize;
    let places: Vec<usize> = found.iter().map(|items| place(items[0])).collect();
    assert_eq!(places, [1, 4, 10]);
}

#[test]
fn the_longest_text_has_all_its_items() {
    let text = vec!["1"; 32_768].join(" ");
    assert_eq!(sources(&text, Compat::Npm), [vec!["1"; 65_536]]);
}

#[test]
fn a_refused_text_has_none() {
    let refused = |text| RangeSet::sources(text, Compat::Npm).err();
    assert_eq!(refused("1,2"), Some(Refusal::NoReading));
    assert_eq!(refused("1.2.3-\u{e9}"), Some(Refusal::NoReading));
    assert_eq!(refused("18446744073709551616"), Some(Refusal::TooLarge));
}
