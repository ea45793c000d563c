use maluwesi::{Compat, Entry, Refusal, Shelf};

const ENTRY: usize = 100;
const KEPT: usize = 2 + 256 * ENTRY;

fn two() -> Shelf {
    let mut shelf = Shelf::new();
    shelf.add(7, Compat::Npm, "^1.2.3").unwrap();
    shelf.add(258, Compat::Cargo, "2").unwrap();
    shelf
}

#[test]
fn entries_stand_in_the_order_they_were_added() {
    let shelf = two();
    let entries: Vec<_> = shelf.iter().collect();
    let expected = [
        Entry {
            code: 7,
            compat: Some(Compat::Npm),
            text: b"^1.2.3",
        },
        Entry {
            code: 258,
            compat: Some(Compat::Cargo),
            text: b"2",
        },
    ];
    assert_eq!(entries, expected);
    assert_eq!(shelf.iter().len(), 2);
    assert_eq!(&shelf.as_bytes()[..8], &[2, 0, 7, 0, 1, 6, b'^', b'1']);
}

#[test]
fn a_listing_gives_the_text() {
    let shelf = two();
    assert_eq!(shelf.get(7), Some(&b"^1.2.3"[..]));
    assert_eq!(shelf.get(258), Some(&b"2"[..]));
    assert_eq!(shelf.get(2), None);
}

#[test]
fn first_fit_takes_the_first() {
    let mut shelf = two();
    shelf.add(0, Compat::Npm, "").unwrap();
    assert_eq!(shelf.first_fit("1.9.0"), Ok(Some(7)));
    assert_eq!(shelf.first_fit("2.9.0"), Ok(Some(258)));
    assert_eq!(shelf.first_fit("3.0.0"), Ok(Some(0)));
    assert_eq!(shelf.first_fit("0.0.0-a"), Ok(None));
    assert_eq!(shelf.first_fit("3.0"), Err(Refusal::NoVersion));
    let large = "18446744073709551616.0.0";
    assert_eq!(shelf.first_fit(large), Err(Refusal::VersionTooLarge));
}

#[test]
fn a_lookup_answers_as_first_fit() {
    let mut shelf = two();
    shelf.add(9, Compat::Npm, "<0.0.0 || 5 || 7").unwrap();
    shelf.add(10, Compat::Npm, ">2 <1").unwrap();
    let versions =
        "0.0.0-a 0.0.0 1.2.2 1.2.3-a 1.2.3 1.9.0 2.0.0-rc.1 2.0.0 3.0.0-a 3.0.0 5.1.0 6.0.0";
    let others = "7.9.9 8.0.0 3.0 18446744073709551616.0.0";
    for version in versions.split(' ').chain(others.split(' ')) {
        assert_eq!(shelf.lookup(version), shelf.first_fit(version), "{version}");
    }
    assert_eq!(shelf.lookup("2.0.0-rc.1"), Ok(Some(7)));
    assert_eq!(shelf.lookup("0.0.0-a"), Ok(Some(9)));
    assert_eq!(shelf.lookup("6.0.0"), Ok(None));
    shelf.remove(7).unwrap();
    assert_eq!(shelf.lookup("2.9.0"), Ok(Some(258)));
    assert_eq!(shelf.lookup("1.9.0"), Ok(None));
}

#[test]
fn triples_stand_behind_the_entries() {
    let shelf = two();
    let words: Vec<_> = shelf.as_bytes()[KEPT..]
        .chunks_exact(8)
        .map(|bytes| u64::from_le_bytes(bytes.try_into().unwrap()))
        .collect();
    assert_eq!(words[..12], [1, 2, 3, 2, 0, 0, 2, 0, 0, 3, 0, 0]);
    assert!(words[12..].iter().all(|&word| word == 0));
}

#[test]
fn triples_that_no_call_wrote_are_taken_as_they_stand() {
    let mut bytes = two().as_bytes().to_vec();
    bytes[KEPT] = 2;
    let shelf = Shelf::from_bytes(&bytes).ok().unwrap();
    assert_eq!(shelf.first_fit("1.9.0"), Ok(Some(7)));
    assert_eq!(shelf.lookup("1.9.0"), Ok(None));
}

#[test]
fn remove_closes_the_gap() {
    let mut shelf = two();
    shelf.remove(7).unwrap();
    let mut other = Shelf::new();
    other.add(258, Compat::Cargo, "2").unwrap();
    assert!(shelf == other);
    shelf.remove(258).unwrap();
    assert!(shelf == Shelf::new());
    assert!(shelf.is_empty());
    assert_eq!(shelf.remove(258), Err(Refusal::Code));
}

#[test]
fn a_refused_add_changes_nothing() {
    let mut shelf = Shelf::new();
    for code in 0..256 {
        assert_eq!(shelf.add(code, Compat::Npm, "1"), Ok(()));
    }
    let full = shelf.clone();
    let refused = [
        (0, " ".repeat(97), Refusal::TooLong),
        (0, "1a".to_string(), Refusal::NoReading),
        (0, "18446744073709551616".to_string(), Refusal::TooLarge),
        (0, "18446744073709551615".to_string(), Refusal::Over),
        (0, "1".to_string(), Refusal::Code),
        (256, "1".to_string(), Refusal::Full),
    ];
    for (code, text, refusal) in refused {
        assert_eq!(shelf.add(code, Compat::Npm, &text), Err(refusal));
        assert!(shelf == full);
    }
    shelf.remove(128).unwrap();
    assert_eq!(shelf.add(256, Compat::Npm, &" ".repeat(96)), Ok(()));
    assert_eq!(shelf.len(), 256);
    shelf.clear();
    assert!(shelf == Shelf::new());
}

#[test]
fn bytes_that_are_no_shelf_are_refused() {
    let mut bytes = vec![0; Shelf::BYTES];
    assert!(Shelf::from_bytes(&bytes[1..]) == Err(Refusal::NotShelf));
    assert!(Shelf::from_bytes(&bytes[..KEPT]) == Err(Refusal::NotShelf));
    bytes[0] = 1;
    bytes[1] = 1;
    assert!(Shelf::from_bytes(&bytes) == Err(Refusal::NotShelf));
    assert_eq!(Refusal::NotShelf.number(), 10);
    assert_eq!(Refusal::Full.number(), 11);
    assert_eq!(Refusal::Code.number(), 12);
}

#[test]
fn entries_that_no_call_makes_fit_nothing() {
    let mut bytes = two().as_bytes().to_vec();
    bytes[2 + 2] = 2;
    bytes[2 + ENTRY + 3] = 97;
    let shelf = Shelf::from_bytes(&bytes).ok().unwrap();
    assert_eq!(shelf.first_fit("1.9.0"), Ok(None));
    assert_eq!(shelf.first_fit("2.9.0"), Ok(None));
    assert_eq!(shelf.lookup("1.9.0"), Ok(None));
    assert_eq!(shelf.lookup("2.9.0"), Ok(None));
    let entries: Vec<_> = shelf.iter().collect();
    assert_eq!(entries[0].compat, None);
    assert_eq!(entries[1].text, b"");
    assert_eq!(shelf.get(258), Some(&b""[..]));
}
