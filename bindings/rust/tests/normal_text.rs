use maluwesi::{normal_text, Compat, RangeSet};

const MODES: [Compat; 2] = [Compat::Cargo, Compat::Npm];

/// What `normal_text` gives, or the refusal's number.
fn spelled(text: &str, compat: Compat) -> String {
    normal_text(text, compat).unwrap_or_else(|refusal| refusal.number().to_string())
}

fn comparators(text: &str, compat: Compat) -> Vec<Vec<maluwesi::Comparator>> {
    let set = RangeSet::parse(text, compat).unwrap();
    let ranges = set.ranges.into_iter();
    ranges.map(|range| range.comparator_set).collect()
}

#[test]
fn the_bench_sheet_under_both_modes() {
    let sheet = [
        ("", ">=0.0.0"),
        ("||", ">=0.0.0 || >=0.0.0"),
        ("~>1.2", ">=1.2.0 <1.3.0"),
        (">1", ">1.0.0"),
        ("<=1.2", "<1.3.0"),
        ("* - 2", "<3.0.0"),
        ("1,2", "2"),
        ("1.2.3-1a", "2"),
        ("18446744073709551616", "3"),
        ("18446744073709551615", "4"),
        ("1.x.18446744073709551616", ">=1.0.0 <2.0.0"),
    ];
    for (text, expected) in sheet {
        for mode in MODES {
            assert_eq!(spelled(text, mode), expected, "{text} {mode:?}");
        }
    }
}

#[test]
fn the_bench_sheet_by_mode() {
    let sheet = [
        ("1.2.3", Compat::Npm, "=1.2.3"),
        ("1.2.3", Compat::Cargo, ">=1.2.3 <2.0.0"),
        ("0.0.3", Compat::Cargo, ">=0.0.3 <0.0.4"),
        ("1.2.3+b7", Compat::Npm, "=1.2.3-b7"),
    ];
    for (text, mode, expected) in sheet {
        assert_eq!(spelled(text, mode), expected, "{text} {mode:?}");
    }
}

#[test]
fn other_edges() {
    let edges = [
        ("1, 2", ">=1.0.0 <2.0.0 >=2.0.0 <3.0.0"),
        ("1 , 2", "2"),
        ("1,", "2"),
        ("=18446744073709551615.0.0", "=18446744073709551615.0.0"),
        ("1.2", ">=1.2.0 <1.3.0"),
        ("^0.0.3", ">=0.0.3 <0.0.4"),
        ("^1.2.3-a", ">=1.2.3-a <2.0.0"),
    ];
    for (text, expected) in edges {
        for mode in MODES {
            assert_eq!(spelled(text, mode), expected, "{text} {mode:?}");
        }
    }
}

#[test]
fn a_normal_text_reads_the_same_under_either_mode() {
    for text in ["", "1.2.3 || >1, <=1.2", "1.2.3-a.7 - 2", "~0.1 ^0.0.0"] {
        for mode in MODES {
            let normal = normal_text(text, mode).unwrap();
            for other in MODES {
                assert_eq!(comparators(&normal, other), comparators(text, mode));
                assert_eq!(normal_text(&normal, other).as_ref(), Ok(&normal));
            }
        }
    }
}

#[test]
fn the_longest_has_eight_bytes_for_each_and_seven() {
    let nines = vec!["9"; 32_768].join(" ");
    let normal = normal_text(&nines, Compat::Npm).unwrap();
    assert_eq!(normal.len(), 8 * nines.len() + 7);
}
