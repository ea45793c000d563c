//! What was found, counted by families.

use crate::reference::Verdict;
use std::fmt;

const SHOWN_DIFFERENCES: usize = 20;
const SHOWN_TEXT: usize = 200;
const SHOWN_LINE: usize = 1_000;

const VERDICTS: [&str; 7] = ["reading", "2", "3", "4", "1", "4 before 3", "no UTF-8"];
const LEGEND: &str = "\
The columns count answers, one under each mode.
  reading     the crate reads the text: all counts, words and bytes are as expected
  2           the crate returns an error
  3, 4        the crate panics at a component above 2^64 - 1, at a sum
  1           the text is longer than 65,535 bytes; the crate has no such limit
Not compared with the crate, but held to 01:
  4 before 3  the crate panics at a sum before it comes to a component above 2^64 - 1; by 01's order it is 3
  no UTF-8    the crate cannot be given the text; by 01 it is 2
";

fn column(verdict: &Verdict) -> usize {
    match verdict {
        Verdict::Set(_) => 0,
        Verdict::NoReading => 1,
        Verdict::TooLarge => 2,
        Verdict::Over => 3,
        Verdict::TooLong => 4,
        Verdict::OverBeforeTooLarge => 5,
        Verdict::NotUtf8 => 6,
    }
}

/// The text in ASCII; of a long one the first bytes.
pub fn shown(text: &[u8]) -> String {
    text[..text.len().min(SHOWN_TEXT)].escape_ascii().to_string()
}

#[derive(Default)]
pub struct Differences {
    pub count: u64,
    shown: Vec<String>,
}

impl Differences {
    /// The difference is given in ASCII.
    pub fn add(&mut self, mut difference: String) {
        self.count += 1;
        if self.shown.len() < SHOWN_DIFFERENCES {
            difference.truncate(SHOWN_LINE);
            self.shown.push(difference);
        }
    }

    fn merge(&mut self, other: Differences) {
        self.count += other.count;
        self.shown.extend(other.shown);
        self.shown.truncate(SHOWN_DIFFERENCES);
    }
}

impl fmt::Display for Differences {
    fn fmt(&self, f: &mut fmt::Formatter) -> fmt::Result {
        self.shown.iter().try_for_each(|difference| writeln!(f, "  {difference}"))
    }
}

/// Texts are counted once, verdicts once under each mode.
#[derive(Default)]
pub struct Tally {
    pub texts: u64,
    /// The texts that have a reading under a mode at least.
    pub readable: u64,
    verdicts: [u64; VERDICTS.len()],
    pub differences: Differences,
}

impl Tally {
    pub fn add(&mut self, verdict: &Verdict) {
        self.verdicts[column(verdict)] += 1;
    }

    fn merge(&mut self, other: Tally) {
        self.texts += other.texts;
        self.readable += other.readable;
        for (sum, count) in self.verdicts.iter_mut().zip(other.verdicts) {
            *sum += count;
        }
        self.differences.merge(other.differences);
    }
}

#[derive(Default)]
pub struct Report(Vec<(&'static str, Tally)>);

impl Report {
    pub fn add(&mut self, family: &'static str, tally: Tally) {
        match self.0.iter_mut().find(|(name, _)| *name == family) {
            Some((_, sum)) => sum.merge(tally),
            None => self.0.push((family, tally)),
        }
    }

    pub fn total(self) -> Tally {
        let mut total = Tally::default();
        self.0.into_iter().for_each(|(_, tally)| total.merge(tally));
        total
    }
}

impl fmt::Display for Report {
    fn fmt(&self, f: &mut fmt::Formatter) -> fmt::Result {
        writeln!(f, "{LEGEND}")?;
        write!(f, "{:24}{:>10}", "family", "texts")?;
        VERDICTS.iter().try_for_each(|name| write!(f, "{name:>12}"))?;
        writeln!(f, "{:>13}", "differences")?;
        for (family, tally) in &self.0 {
            write!(f, "{family:24}{:>10}", tally.texts)?;
            tally.verdicts.iter().try_for_each(|count| write!(f, "{count:>12}"))?;
            writeln!(f, "{:>13}", tally.differences.count)?;
        }
        Ok(())
    }
}
