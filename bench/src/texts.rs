//! The texts that are read.

pub struct Text {
    pub name: &'static str,
    pub text: String,
}

/// `item` as often as fits into `length` bytes, with `between` between.
fn list(item: &str, between: &str, length: usize) -> String {
    let times = (length + between.len()) / (item.len() + between.len());
    vec![item; times].join(between)
}

fn qualified(identifiers: String) -> String {
    format!("1.2.3-{identifiers}")
}

pub fn all() -> Vec<Text> {
    let longest = 65_535;
    let of = |name, text| Text { name, text };
    vec![
        of("1.2.3", "1.2.3".into()),
        of("^1.2.3", "^1.2.3".into()),
        of(">=1.2.0, <2.0.0", ">=1.2.0, <2.0.0".into()),
        of("1.2.3 || >1, <=1.2", "1.2.3 || >1, <=1.2".into()),
        of("items, 4 KB", list(">=1.2.0, <2.0.0", ", ", 4096)),
        of("items, 64 KB", list(">=1.2.0, <2.0.0", ", ", longest)),
        of("ranges, 64 KB", list("1.2.3 || >1, <=1.2", " || ", longest)),
        of("one identifier, 64 KB", qualified("a".repeat(longest - 6))),
        of("identifiers, 64 KB", qualified(list("a", ".", longest - 6))),
        of("blanks, 64 KB", " ".repeat(longest)),
    ]
}

/// Texts of half the length and the whole, to see how the cost grows.
pub fn growing() -> Vec<Text> {
    let of = |name, text| Text { name, text };
    vec![
        of("items, 32 KB", list(">=1.2.0, <2.0.0", ", ", 32_767)),
        of("ranges, 32 KB", list("1.2.3 || >1, <=1.2", " || ", 32_767)),
        of("one identifier, 32 KB", qualified("a".repeat(32_767 - 6))),
        of("identifiers, 32 KB", qualified(list("a", ".", 32_767 - 6))),
        of("blanks, 32 KB", " ".repeat(32_767)),
        of("short items, 32 KB", list("1", " ", 32_767)),
        of("short items, 64 KB", list("1", " ", 65_535)),
        of("empty ranges, 32 KB", "||".repeat(16_383)),
        of("empty ranges, 64 KB", "||".repeat(32_767)),
    ]
}

/// Shelves, an entry of 20 bytes to a line. The version that is asked for is 9.9.9, which no entry admits: `>=1.2.0-rc.1, <1.4.0` does not enclose it,
/// and `>=9.2.0-rc.1, <9.9.9` does.
pub fn on_shelf() -> Vec<Text> {
    let shelf = |entries: usize, encloses: fn(usize) -> bool| {
        let entry = |place| if encloses(place) { ">=9.2.0-rc.1, <9.9.9" } else { ">=1.2.0-rc.1, <1.4.0" };
        (0..entries).map(entry).collect::<Vec<_>>().join("\n")
    };
    vec![
        Text { name: "256 entries, none encloses", text: shelf(256, |_| false) },
        Text { name: "256 entries, one in sixteen encloses", text: shelf(256, |place| place % 16 == 15) },
        Text { name: "128 entries, none encloses", text: shelf(128, |_| false) },
        Text { name: "128 entries, one in sixteen encloses", text: shelf(128, |place| place % 16 == 15) },
    ]
}
