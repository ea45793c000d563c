//! Numbers by a seed (SplitMix64), and texts made with them.

use crate::texts::OPERATORS;

pub struct Random(u64);

impl Random {
    pub fn new(seed: u64) -> Random {
        Random(seed)
    }

    fn next(&mut self) -> u64 {
        self.0 = self.0.wrapping_add(0x9E37_79B9_7F4A_7C15);
        let z = (self.0 ^ (self.0 >> 30)).wrapping_mul(0xBF58_476D_1CE4_E5B9);
        let z = (z ^ (z >> 27)).wrapping_mul(0x94D0_49BB_1331_11EB);
        z ^ (z >> 31)
    }

    pub fn below(&mut self, limit: usize) -> usize {
        (self.next() % limit as u64) as usize
    }

    pub fn one_in(&mut self, count: usize) -> bool {
        self.below(count) == 0
    }

    pub fn byte(&mut self) -> u8 {
        self.next() as u8
    }

    pub fn pick<'a, T: ?Sized>(&mut self, among: &[&'a T]) -> &'a T {
        among[self.below(among.len())]
    }
}

// ---- texts of the grammar

/// Which numbers the components have. With small ones a version often lies at the end of a range.
#[derive(Clone, Copy)]
pub enum Numbers {
    Small,
    Any,
}

pub fn range_set(random: &mut Random, numbers: Numbers) -> String {
    let mut text = spaces(random, 0);
    text += &range(random, numbers);
    while random.one_in(3) {
        text += &spaces(random, 0);
        text += "||";
        text += &spaces(random, 0);
        text += &range(random, numbers);
    }
    text + &spaces(random, 0)
}

fn range(random: &mut Random, numbers: Numbers) -> String {
    if random.one_in(12) {
        return String::new();
    }
    if random.one_in(5) {
        return hyphen_range(random, numbers);
    }
    let mut text = item(random, numbers);
    while random.one_in(2) {
        text += random.pick(&["", "", ","]);
        text += &spaces(random, 1);
        text += &item(random, numbers);
    }
    text
}

fn hyphen_range(random: &mut Random, numbers: Numbers) -> String {
    let left = partial(random, numbers) + &spaces(random, 1);
    let right = spaces(random, 1) + &partial(random, numbers);
    left + "-" + &right
}

fn item(random: &mut Random, numbers: Numbers) -> String {
    let operator = random.pick(&OPERATORS);
    let spaces = if operator.is_empty() { String::new() } else { spaces(random, 0) };
    format!("{operator}{spaces}{}", partial(random, numbers))
}

fn partial(random: &mut Random, numbers: Numbers) -> String {
    let components = [1, 2, 3, 3, 3][random.below(5)];
    let mut text = component(random, numbers);
    for _ in 1..components {
        text += ".";
        text += &component(random, numbers);
    }
    if components == 3 && random.one_in(2) {
        text += random.pick(&["-", "-", "+"]);
        text += &identifiers(random);
    }
    text
}

fn component(random: &mut Random, numbers: Numbers) -> String {
    if random.one_in(12) {
        return random.pick(&["x", "X", "*"]).to_string();
    }
    match numbers {
        Numbers::Small => random.below(4).to_string(),
        Numbers::Any => number(random),
    }
}

pub fn number(random: &mut Random) -> String {
    match random.below(100) {
        0 => (u64::MAX as u128 - 2 + random.below(5) as u128).to_string(),
        1 => (random.next() as u128 * (1 + random.below(20) as u128)).to_string(),
        2..=5 => (random.next() >> random.below(64)).to_string(),
        6..=30 => "0".to_string(),
        _ => random.below(30).to_string(),
    }
}

pub fn identifiers(random: &mut Random) -> String {
    let mut text = identifier(random);
    while random.one_in(3) {
        text += ".";
        text += &identifier(random);
    }
    text
}

fn identifier(random: &mut Random) -> String {
    if random.one_in(3) {
        return number(random);
    }
    let mut text = random.pick(&["a", "b", "rc", "x", "X", "Z", "-", "v1"]).to_string();
    while random.one_in(2) {
        text += random.pick(&["0", "9", "a", "z", "A", "-", "x"]);
    }
    text
}

fn spaces(random: &mut Random, at_least: usize) -> String {
    let count = at_least + [0, 0, 0, 1, 1, 2, 5][random.below(7)];
    (0..count).map(|_| [' ', ' ', '\t'][random.below(3)]).collect()
}

// ---- texts that may be in no grammar

const TELLING_BYTES: &[u8] = b"0019.-+*xXaz^~<>=,| \t\n_/:v\x00\x7f";

fn telling_byte(random: &mut Random) -> u8 {
    TELLING_BYTES[random.below(TELLING_BYTES.len())]
}

/// The text with one to three changes.
pub fn damaged(random: &mut Random, text: &[u8]) -> Vec<u8> {
    let mut text = text.to_vec();
    for _ in 0..1 + random.below(3) {
        let at = random.below(text.len() + 1);
        let byte = match random.one_in(16) {
            true => random.byte(),
            false => telling_byte(random),
        };
        match random.below(5) {
            0 => text.insert(at, byte),
            1 => text.truncate(at),
            2 => text.extend_from_within(at..),
            _ if at == text.len() => text.push(byte),
            3 => text[at] = byte,
            _ => drop(text.remove(at)),
        }
    }
    text
}

pub fn noise(random: &mut Random) -> Vec<u8> {
    let byte = match random.one_in(4) {
        true => Random::byte,
        false => telling_byte,
    };
    (0..random.below(24)).map(|_| byte(random)).collect()
}

/// A text of the grammar with characters put in that take several bytes in UTF-8.
pub fn several_bytes(random: &mut Random) -> String {
    const CHARACTERS: [char; 9] = ['\u{80}', '\u{a0}', 'é', '\u{661}', '\u{2003}', '１', '＊', '\u{feff}', '𝟙'];
    let mut text = range_set(random, Numbers::Any);
    for _ in 0..1 + random.below(3) {
        let at = random.below(text.len() + 1);
        if text.is_char_boundary(at) {
            text.insert(at, CHARACTERS[random.below(CHARACTERS.len())]);
        }
    }
    text
}
