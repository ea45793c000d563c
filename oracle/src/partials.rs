//! What the crate does not tell of a text that it parses: where its identifiers stand, and whether a component
//! that is read is too large. Only for texts of the grammar: there a partial is a longest run without the bytes
//! that stand between partials.

/// The place and length of each identifier that is read, in order.
pub fn identifier_places(text: &str) -> Vec<(usize, usize)> {
    let mut places = Vec::new();
    for (start, partial) in partials(text) {
        let Some(sign) = partial.find(['-', '+']) else {
            continue;
        };
        if read_components(partial).count() < 3 {
            continue;
        }
        let mut place = start + sign + 1;
        for identifier in partial[sign + 1..].split('.') {
            places.push((place, identifier.len()));
            place += identifier.len() + 1;
        }
    }
    places
}

pub fn has_too_large_component(text: &str) -> bool {
    partials(text).any(|(_, partial)| read_components(partial).any(|number| number.parse::<u64>().is_err()))
}

fn partials(text: &str) -> impl Iterator<Item = (usize, &str)> {
    text.split([' ', '\t', ',', '|', '<', '>', '=', '~', '^'])
        .filter(|run| !run.is_empty() && *run != "-")
        .map(|run| (run.as_ptr() as usize - text.as_ptr() as usize, run))
}

fn read_components(partial: &str) -> impl Iterator<Item = &str> {
    let end = partial.find(['-', '+']).unwrap_or(partial.len());
    partial[..end].split('.').take_while(|component| !matches!(*component, "x" | "X" | "*"))
}
