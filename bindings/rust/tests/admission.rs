use maluwesi::{admits, Compat, Refusal};

#[test]
fn admitted_by_precedence() {
    let asked = [
        ("^1.2.3-a || 1.0.x", "1.2.3", true),
        ("^1.2.3-a || 1.0.x", "2.0.0", false),
        ("^1.2.3-a || 1.0.x", "2.0.0-rc.1", true),
        ("^1.2.3-a || 1.0.x", "1.0.7", true),
        ("^1.2.3-a || 1.0.x", "1.2.3-9", false),
        ("", "0.0.0", true),
        ("", "0.0.0-a", false),
        ("<*", "0.0.0-a", true),
        ("=1.2.3", "1.2.3+build.7", true),
        ("=1.2.3+b", "1.2.3+b", false),
        ("=1.2.3+b", "1.2.3-b", true),
        (">1.0.0-2", "1.0.0-10", true),
        (">1.0.0-a2", "1.0.0-a10", false),
        (
            ">1.0.0-99999999999999999999",
            "1.0.0-100000000000000000000",
            true,
        ),
        ("<1.0.0--", "1.0.0-100000000000000000000", true),
    ];
    for (text, version, expected) in asked {
        for mode in [Compat::Cargo, Compat::Npm] {
            assert_eq!(
                admits(text, mode, version),
                Ok(expected),
                "{text} {version}"
            );
        }
    }
}

#[test]
fn the_mode_decides_a_bare_version() {
    assert_eq!(admits("1.2.3", Compat::Cargo, "1.9.0"), Ok(true));
    assert_eq!(admits("1.2.3", Compat::Npm, "1.9.0"), Ok(false));
}

#[test]
fn a_version_text_that_is_none_is_refused() {
    let long = format!("1.2.3-{}", "a".repeat(65_530));
    for version in [
        "", "1.2", "01.2.3", "1.2.3-", "1.2.3-01", "v1.2.3", " 1.2.3", &long,
    ] {
        let answer = admits("*", Compat::Npm, version);
        assert_eq!(answer, Err(Refusal::NoVersion), "{version}");
    }
    let longest = &long[..65_535];
    assert_eq!(admits("*", Compat::Npm, longest), Ok(true));
}

#[test]
fn a_version_too_large_is_refused() {
    let answer = admits("*", Compat::Npm, "1.18446744073709551616.0");
    assert_eq!(answer, Err(Refusal::VersionTooLarge));
    let answer = admits("*", Compat::Npm, "1.18446744073709551615.0");
    assert_eq!(answer, Ok(true));
}

#[test]
fn the_range_text_is_refused_before_the_version() {
    let answer = admits("18446744073709551615", Compat::Npm, "none");
    assert_eq!(answer, Err(Refusal::Over));
}
