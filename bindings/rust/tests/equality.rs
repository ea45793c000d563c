use maluwesi::{equal_readings, read_normal_text, Comparator, Compat, RangeSet, Refusal, RereadRefusal};

const MODES: [Compat; 2] = [Compat::Cargo, Compat::Npm];

fn comparators(set: RangeSet) -> Vec<Vec<Comparator>> {
    let ranges = set.ranges.into_iter();
    ranges.map(|range| range.comparator_set).collect()
}

#[test]
fn a_normal_text_is_read_again_under_either_mode() {
    for text in ["", "1.2.3 || >1, <=1.2", "1.2.3-beta.7 - 2", "1.2.3+b-1.0"] {
        for mode in MODES {
            let own = RangeSet::parse(text, mode).unwrap();
            for other in MODES {
                let (normal, read) = read_normal_text(text, mode, other).unwrap();
                assert_eq!(maluwesi::normal_text(text, mode), Ok(normal));
                assert_eq!(read.compat, other);
                assert_eq!(comparators(read), comparators(own.clone()));
            }
        }
    }
}

#[test]
fn a_text_or_its_normal_text_is_refused() {
    let refused = |text: &str| read_normal_text(text, Compat::Npm, Compat::Cargo).err();
    let of_text = |refusal| Some(RereadRefusal::Text(refusal));
    assert_eq!(refused("1,2"), of_text(Refusal::NoReading));
    assert_eq!(refused("18446744073709551616"), of_text(Refusal::TooLarge));
    assert_eq!(refused(&" ".repeat(65_536)), of_text(Refusal::TooLong));
    let nines = vec!["9"; 32_768].join(" ");
    let of_normal_text = Some(RereadRefusal::NormalText(Refusal::TooLong));
    assert_eq!(refused(&nines), of_normal_text);
    assert!(maluwesi::normal_text(&nines, Compat::Npm).is_ok());
}

#[test]
fn readings_are_compared() {
    let equal = [
        ("^1.2.3", Compat::Cargo, ">=1.2.3 <2", Compat::Npm),
        ("1.2.3", Compat::Cargo, "^1.2.3", Compat::Npm),
        ("1.2.3+b", Compat::Npm, "=1.2.3-b", Compat::Cargo),
        ("", Compat::Npm, "*", Compat::Npm),
    ];
    for (text, mode, text2, mode2) in equal {
        assert_eq!(equal_readings(text, mode, text2, mode2), Ok(true), "{text}");
    }
    let different = [
        ("1.2.3", Compat::Cargo, "1.2.3", Compat::Npm),
        (">1.2.3", Compat::Npm, ">1.2.4", Compat::Npm),
        (">1 <2", Compat::Npm, "<2 >1", Compat::Npm),
        ("1 || 1", Compat::Npm, "1", Compat::Npm),
    ];
    for (text, mode, text2, mode2) in different {
        assert_eq!(equal_readings(text, mode, text2, mode2), Ok(false), "{text}");
    }
}

#[test]
fn the_first_refusal_comes_back() {
    let compare = |text: &str, text2: &str| equal_readings(text, Compat::Npm, text2, Compat::Npm);
    let large = "18446744073709551616";
    assert_eq!(compare(large, "1,2"), Err(Refusal::TooLarge));
    assert_eq!(compare("1,2", large), Err(Refusal::NoReading));
    assert_eq!(compare("1", large), Err(Refusal::TooLarge));
}
