//! Some answers of the crate, and of the lines in `reference` and `admission` that stand in for it where it has none,
//! as rows that the proved program `replay` asks the calls for, and what it is to print of each. What a row is, and
//! what is printed, is said at the head of crates/replay/src/main.rt.

use crate::admission;
use crate::answer::{Answer, COMPARATOR_WORDS};
use crate::calls::Counts;
use crate::random::{damaged, range_set, Numbers, Random};
use crate::reference::{verdict, Verdict, LONGEST_TEXT, MODES};
use crate::texts::OPERATORS;
use checked::Compat;
use std::collections::HashSet;
use std::fmt::Write;
use std::{fs, io, path::Path};

const TEXTS: usize = 1_000;
const LONGEST_SAMPLE: usize = 96;

/// How many bytes are lent where the text is refused whatever is lent.
const SOME: usize = 8;

/// The heading behind which the rows stand, in both files.
const HEADING: &str = "\nAnswers of the crate semver-parser 0.10.3, made by oracle/sample\n\n";

/// Each kind of partial, with and without zeros and wildcards in each place.
#[rustfmt::skip]
const PARTIALS: [&str; 27] = [
    "*", "x", "X", "x.2", "X.2.3", "*.x.3-a", "0", "1", "1.x", "1.X.*", "1.*.3", "0.x", "0.0", "0.2", "1.0", "1.2",
    "1.2.x", "0.0.*+b", "0.0.0", "0.0.3", "0.2.0", "0.2.3", "1.2.3", "1.2.3-a", "0.0.3-0.x-1", "1.2.3+b7", "0.2.3+9.-",
];

/// 2^64 - 2, 2^64 - 1 and 2^64 in each component and behind a wildcard.
#[rustfmt::skip]
const LARGE_PARTIALS: [&str; 14] = [
    "18446744073709551614", "18446744073709551615", "18446744073709551616", "18446744073709551615.1",
    "1.18446744073709551614", "1.18446744073709551615", "1.18446744073709551616", "0.0.18446744073709551614",
    "0.0.18446744073709551615", "0.0.18446744073709551616", "0.18446744073709551615.1",
    "18446744073709551615.0.18446744073709551615", "x.18446744073709551616", "1.x.18446744073709551616",
];

#[rustfmt::skip]
const HYPHEN_SIDES: [&str; 12] = [
    "*", "1", "0.x", "1.2", "1.2.X", "1.2.3", "0.0.3-a", "1.2.3+b.1", "18446744073709551615",
    "1.18446744073709551615", "1.2.18446744073709551615", "18446744073709551616",
];

/// Separators, spaces, commas, identifiers, and the texts of 01 and of docs/DIFFERENCES.md.
#[rustfmt::skip]
const OTHERS: [&str; 96] = [
    "", " ", "\t", " \t ", "||", " || ", "||||", "|", "|||", "1||", "||1", "1||2", "1 || 2", "1\t||\t2", "1 | 2",
    "1 2", "1  2", "1\t2", "1, 2", "1,\t2", "1,  2", "1,2", "1 , 2", "1,", ",1", "1,, 2", "1, || 2", " 1", "1 ", "\t1\t",
    ">= 1", ">\t1", "< =1", "> = 1", "=>1", "=<1", "==1", "~ 1", "~> 1", "~ >1", "^ 1", "^^1", "~~1", "^~1", ">", "^", "~>",
    "1 - 2", "1  -  2", "1\t-\t2", "1 -2", "1- 2", "1-2", "1 - 2 - 3", "1 - 2 3", "1 2 - 3", ">1 - 2", "1 - >2", "1 -", "- 1",
    "1.", ".1", "1..2", "1.2.", "1.2.3.", "1.2.3.4", "01", "1.01", "1.2.00", "v1", "1a", "a", "x1", "xx", "1.x.", "1.2-a",
    "1.2.3-", "1.2.3+", "1.2.3-1a", "1.2.3-0-1", "1.2.3-01", "1.2.3-a+b", "1.2.3+a-b", "1.2.3-a.", "1.2.3-a..b", "1.2.3--",
    "1.2.3-a_b", "1.2.3-18446744073709551615", "1.2.3-18446744073709551616", "1.2.3+a.18446744073709551616", "1\n2", "1\n",
    "1.2.3 || >1, <=1.2", "18446744073709551616 1a", "18446744073709551616 18446744073709551615", "é",
];

/// Texts that are accepted under both modes, for the refusals that depend on more than the text.
#[rustfmt::skip]
const ACCEPTED: [&str; 9] = [
    "", "* - 2", "1.2.3", "^1.2.3-a.0", "0.0.3", "<=1.2 || 2.0.0+b7", "=1.2.3-beta.2 =1.2.3",
    "1.0.0-rc.1 - 2.0.0", "1.2.3 || >1, <=1.2",
];

/// One text for each of 2 to 4.
const REFUSED: [&str; 3] = ["1,2", "18446744073709551616", "18446744073709551615"];

/// Versions; then texts that are none, and some that are too large.
#[rustfmt::skip]
const VERSIONS: [&str; 13] = [
    "1.2.3", "1.2.3-a.0+b.01", "1.2.3-beta.10", "2.0.0-b7", "2.0.0", "0.0.3", "18446744073709551615.0.0",
    "", "1.2", "v1.2.3", "1.2.3-01",
    "18446744073709551616.0.0", "1.2.18446744073709551616-a",
];

/// Writes the rows into the files stdin and stdout of the program.
pub fn write(seed: u64, folder: &Path) -> io::Result<()> {
    let mut sample = Sample::default();
    let mut random = Random::new(seed);
    let random_texts = std::iter::repeat_with(|| random_text(&mut random));
    let mut seen = HashSet::new();
    chosen_texts()
        .into_iter()
        .chain(random_texts)
        .filter(|text| text.len() <= LONGEST_SAMPLE && seen.insert(text.clone()))
        .filter(|text| MODES.iter().all(|mode| is_answered(text, *mode)))
        .take(TEXTS)
        .for_each(|text| sample.exact(&Text::whole(&text)));
    for text in ACCEPTED {
        sample.short(&Text::whole(text));
        VERSIONS.iter().for_each(|version| sample.admission(&Text::whole(text), &Text::whole(version)));
    }
    REFUSED.iter().for_each(|text| sample.refused(&Text::whole(text)));
    sample.long();
    replace(&folder.join("stdin"), &sample.rows)?;
    replace(&folder.join("stdout"), &sample.answers)
}

/// What stands behind the heading is replaced.
fn replace(file: &Path, rows: &str) -> io::Result<()> {
    let mut bytes = fs::read(file)?;
    let place = bytes.windows(HEADING.len()).position(|part| part == HEADING.as_bytes());
    bytes.truncate(place.expect("no heading") + HEADING.len());
    bytes.extend_from_slice(rows.as_bytes());
    fs::write(file, bytes)
}

// ---- texts

pub fn chosen_texts() -> Vec<String> {
    let mut texts: Vec<_> = OTHERS.iter().map(|text| text.to_string()).collect();
    for partial in PARTIALS.iter().chain(&LARGE_PARTIALS) {
        texts.extend(OPERATORS.map(|operator| format!("{operator}{partial}")));
    }
    for left in HYPHEN_SIDES {
        texts.extend(HYPHEN_SIDES.map(|right| format!("{left} - {right}")));
    }
    texts
}

/// A text of the grammar, or a damaged one.
pub fn random_text(random: &mut Random) -> String {
    let text = range_set(random, Numbers::Any);
    match random.one_in(2) {
        true => text,
        false => String::from_utf8_lossy(&damaged(random, text.as_bytes())).into_owned(),
    }
}

// ---- rows

/// A text of `size` bytes that goes on with the last two of those given.
struct Text {
    given: String,
    size: usize,
}

impl Text {
    fn whole(text: &str) -> Text {
        Text { given: text.to_string(), size: text.len() }
    }

    fn bytes(&self) -> String {
        let mut text = self.given.clone();
        while text.len() < self.size {
            text.push(char::from(text.as_bytes()[text.len() - 2]));
        }
        text
    }
}

/// The rows, and what is printed of them.
#[derive(Default)]
struct Sample {
    rows: String,
    answers: String,
}

impl Sample {
    fn row(&mut self, call: usize, lent: [usize; 4], text: &Text, other: &Text) {
        let [cargo, npm, words, ids] = lent;
        let (size, given) = (text.size, text.given.len());
        let (other_size, other_given) = (other.size, other.given.len());
        let numbers = format!("{call} {cargo} {npm} {words} {ids} {size} {given} {other_size} {other_given}");
        for file in [&mut self.rows, &mut self.answers] {
            writeln!(file, "{numbers}\n{}\n{}", text.given, other.given).unwrap();
        }
    }

    /// The normal text call, with so many bytes lent under each mode.
    fn normal_text(&mut self, text: &Text, lent: [usize; 2]) {
        self.row(1, [lent[0], lent[1], 0, 0], text, &Text::whole(""));
        for (mode, lent) in MODES.into_iter().zip(lent) {
            let answer = answer(&text.bytes(), mode);
            let (number, written) = match answer.number {
                0 if answer.normal.len() > lent => ("7".to_string(), ""),
                0 => (format!("0 {}", answer.normal.len()), answer.normal.as_str()),
                number => (number.to_string(), ""),
            };
            let left = "_".repeat(lent - written.len());
            writeln!(self.answers, " {number} {written}{left}").unwrap();
        }
    }

    /// The reading call, with so many words lent.
    fn reading(&mut self, text: &Text, words: usize, ids: usize) {
        self.row(2, [0, 0, words, ids], text, &Text::whole(""));
        for mode in MODES {
            let mut answer = answer(&text.bytes(), mode);
            let number = match answer.number {
                0 if answer.words.len() > words => 5,
                0 if answer.ids.len() > ids => 6,
                number => number,
            };
            let Counts { ranges, comparators, identifiers } = answer.counts;
            if number > 0 {
                answer = Answer::refused(number);
                writeln!(self.answers, " {number}").unwrap();
            } else {
                writeln!(self.answers, " 0 {ranges} {comparators} {identifiers}").unwrap();
            }
            self.lent_words(&answer.words, words);
            self.lent_words(&answer.ids, ids);
        }
    }

    /// The words written, and 7 behind them.
    fn lent_words(&mut self, written: &[u64], lent: usize) {
        let all = written.iter().chain(std::iter::repeat(&7)).take(lent);
        let shown: String = all.map(|word| format!(" {word}")).collect();
        writeln!(self.answers, "{shown}").unwrap();
    }

    fn admission(&mut self, text: &Text, version: &Text) {
        self.row(3, [0; 4], text, version);
        for mode in MODES {
            let expected = admission::expected(text.bytes().as_bytes(), mode, version.bytes().as_bytes());
            let answer = match (expected.number, expected.admitted) {
                (0, 1) => "yes".to_string(),
                (0, _) => "no".to_string(),
                (number, _) => number.to_string(),
            };
            writeln!(self.answers, " {answer}").unwrap();
        }
    }

    // ---- the rows of a text

    /// The normal text, with just its bytes lent.
    fn exact(&mut self, text: &Text) {
        let lent = MODES.map(|mode| match answer(&text.bytes(), mode) {
            Answer { number: 0, normal, .. } => normal.len(),
            _ => SOME,
        });
        self.normal_text(text, lent);
    }

    /// The normal text with a byte less; then the reading with just the words of each mode, and with a word less for
    /// comparators, for identifiers, and for both.
    fn short(&mut self, text: &Text) {
        let answers = MODES.map(|mode| answer(&text.bytes(), mode));
        self.normal_text(text, [answers[0].normal.len() - 1, answers[1].normal.len() - 1]);
        let mut lent: Vec<_> = answers.iter().map(|answer| (answer.words.len(), answer.ids.len())).collect();
        lent.dedup();
        for (words, ids) in lent {
            self.reading(text, words, ids);
            self.reading(text, words - 1, ids);
            if ids > 0 {
                self.reading(text, words, ids - 1);
                self.reading(text, words - 1, ids - 1);
            }
        }
    }

    /// Nothing lent, and no version: the text is refused first.
    fn refused(&mut self, text: &Text) {
        self.normal_text(text, [0, 0]);
        self.reading(text, 0, 0);
        self.admission(text, &Text::whole(""));
    }

    /// The longest text by each call, and a byte more. Then a version that is too long.
    fn long(&mut self) {
        for size in [LONGEST_TEXT, LONGEST_TEXT + 1] {
            let blanks = Text { given: "  ".to_string(), size };
            self.normal_text(&blanks, [SOME, SOME]);
            self.reading(&blanks, COMPARATOR_WORDS, 3);
            self.admission(&blanks, &Text::whole("0.0.0"));
        }
        let version = Text { given: "1.2.3-aa".to_string(), size: LONGEST_TEXT + 1 };
        self.admission(&Text::whole("1.2.3"), &version);
    }
}

fn answer(text: &str, mode: Compat) -> Answer {
    match verdict(text.as_bytes(), mode) {
        Verdict::Set(set) => Answer::accepted(text, &set),
        refused => Answer::refused(refused.number()),
    }
}

/// Whether the crate's answer is 01's.
fn is_answered(text: &str, mode: Compat) -> bool {
    !matches!(verdict(text.as_bytes(), mode), Verdict::OverBeforeTooLarge)
}
