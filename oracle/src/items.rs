//! Where the items of a text stand, which the crate does not tell: by 01's grammar and 02's N2. Only for texts that the
//! crate reads: there `||` is a separator, and a word `-` the middle of a hyphen range.

const SPACES: [char; 2] = [' ', '\t'];
const BETWEEN_ITEMS: [char; 3] = [' ', '\t', ','];
const OPERATORS: [char; 5] = ['<', '>', '=', '~', '^'];

/// The items of each range in order, as parts of the text; of an empty range one without bytes, "after the leading spaces or
/// after the separator and its spaces".
pub fn items(text: &str) -> impl Iterator<Item = Vec<&str>> {
    text.split("||").map(|range| {
        let behind_spaces = range.trim_start_matches(SPACES);
        range_items(behind_spaces.trim_end_matches(SPACES))
    })
}

/// "A hyphen range is one item."
fn range_items(range: &str) -> Vec<&str> {
    if range.is_empty() || range.split(SPACES).any(|word| word == "-") {
        return vec![range];
    }
    let mut items = Vec::new();
    let mut rest = range;
    while !rest.is_empty() {
        let (item, behind) = first_item(rest);
        items.push(item);
        rest = behind.trim_start_matches(BETWEEN_ITEMS);
    }
    items
}

/// "The place of the item's first byte": its operator's, where it has one. "Commas and outer spaces left off": it ends with its
/// partial, in which there are none.
fn first_item(rest: &str) -> (&str, &str) {
    let partial = rest.trim_start_matches(OPERATORS).trim_start_matches(SPACES);
    let size = partial.find(BETWEEN_ITEMS).unwrap_or(partial.len());
    rest.split_at(rest.len() - partial.len() + size)
}

/// Where a part of the text begins in it.
pub fn place(text: &str, part: &str) -> usize {
    part.as_ptr() as usize - text.as_ptr() as usize
}
