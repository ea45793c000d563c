use maluwesi::{admits, normal_text, Compat, RangeSet, Refusal};

/// The number that every call over a range text gives for it: 0 where it is accepted.
fn number(text: &str, compat: Compat) -> u64 {
    let of = |refused: Option<Refusal>| refused.map_or(0, Refusal::number);
    let reading = of(RangeSet::parse(text, compat).err());
    assert_eq!(of(normal_text(text, compat).err()), reading);
    assert_eq!(of(admits(text, compat, "1.2.3").err()), reading);
    reading
}

#[test]
fn the_text_that_wrapped_is_refused() {
    for mode in [Compat::Cargo, Compat::Npm] {
        assert_eq!(number("1.0.0 - 18446744073709551615", mode), 4);
    }
}

#[test]
fn the_length_comes_first() {
    assert_eq!(number(&" ".repeat(65_535), Compat::Npm), 0);
    assert_eq!(number(&" ".repeat(65_536), Compat::Npm), 1);
    assert_eq!(number(&"?".repeat(65_536), Compat::Npm), 1);
    let identifier = |letters| format!("1.2.3-{}", "a".repeat(letters));
    assert_eq!(number(&identifier(65_529), Compat::Npm), 0);
    for letters in [65_530, 70_000, 131_071] {
        assert_eq!(number(&identifier(letters), Compat::Npm), 1);
    }
}

#[test]
fn each_check_is_made_over_the_whole_text_before_the_next() {
    assert_eq!(number("18446744073709551616 1a", Compat::Npm), 2);
    assert_eq!(
        number("18446744073709551615 18446744073709551616", Compat::Npm),
        3
    );
    assert_eq!(number("18446744073709551615", Compat::Npm), 4);
}

#[test]
fn raising_depends_on_the_mode() {
    assert_eq!(number("0.0.18446744073709551615", Compat::Cargo), 4);
    assert_eq!(number("0.0.18446744073709551615", Compat::Npm), 0);
}

#[test]
fn line_ends_and_other_bytes_have_no_reading() {
    for text in ["1\n2", "v1", "1.2.3-a+b", "1.2.3-", "|", "1 - ", "\0"] {
        assert_eq!(number(text, Compat::Cargo), 2, "{text:?}");
    }
}

#[test]
fn a_refusal_becomes_a_string_or_a_boxed_error() {
    fn as_string() -> Result<RangeSet, String> {
        Ok(RangeSet::parse("1,2", Compat::Npm)?)
    }
    fn as_error() -> Result<RangeSet, Box<dyn std::error::Error>> {
        Ok("1,2".parse()?)
    }
    let sentence = "the range text has no reading";
    assert_eq!(as_string().unwrap_err(), sentence);
    assert_eq!(as_error().unwrap_err().to_string(), sentence);
}
