//! The calls, held to an answer.

use crate::answer::Answer;
use crate::calls;
use crate::reference::{verdict, Verdict, LONGEST_TEXT, MODES};
use checked::{Compat, RangeSet};

const SPARE_WORDS: usize = 7;
const SPARE_IDS: usize = 4;
const SPARE_BYTES: usize = 5;

/// What the crate said, once the calls were found to agree with it; else how they differ.
pub fn compare(text: &[u8], mode: Compat) -> Result<Verdict, String> {
    let verdict = verdict(text, mode);
    match &verdict {
        Verdict::Set(set) => compare_accepted(std::str::from_utf8(text).unwrap(), mode as u8, set)?,
        refused => compare_calls(text, mode as u8, &Answer::refused(refused.number()))?,
    }
    Ok(verdict)
}

/// The mode is neither of the two.
pub fn compare_without_mode(text: &[u8], mode: u8) -> Result<(), String> {
    compare_calls(text, mode, &Answer::refused(255))?;
    equal("admit", calls::admit(text, mode, b"1.2.3"), (255, 0))
}

fn compare_accepted(text: &str, mode: u8, set: &RangeSet) -> Result<(), String> {
    let answer = Answer::accepted(text, set);
    compare_calls(text.as_bytes(), mode, &answer)?;
    compare_edges(text.as_bytes(), mode, &answer)?;
    if answer.normal.len() > LONGEST_TEXT {
        return Ok(());
    }
    let again = Answer::accepted(&answer.normal, set);
    for mode in MODES {
        compare_calls(answer.normal.as_bytes(), mode as u8, &again)
            .map_err(|difference| format!("its normal text under {mode:?}: {difference}"))?;
    }
    Ok(())
}

fn compare_calls(text: &[u8], mode: u8, answer: &Answer) -> Result<(), String> {
    let counted = calls::count(text, mode);
    equal("count", counted, (answer.number, answer.counts))?;
    let words = answer.words.len() + SPARE_WORDS;
    compare_read(text, mode, answer, words, answer.ids.len() + SPARE_IDS)?;
    compare_normal_text(text, mode, answer, answer.normal.len() + SPARE_BYTES)
}

/// The lent space is just enough, or one short.
fn compare_edges(text: &[u8], mode: u8, answer: &Answer) -> Result<(), String> {
    let (words, ids, bytes) = (answer.words.len(), answer.ids.len(), answer.normal.len());
    compare_read(text, mode, answer, words, ids)?;
    compare_read(text, mode, &Answer::refused(5), words - 1, ids)?;
    if ids > 0 {
        compare_read(text, mode, &Answer::refused(6), words, ids - 1)?;
        compare_read(text, mode, &Answer::refused(5), words - 1, ids - 1)?;
    }
    compare_normal_text(text, mode, answer, bytes)?;
    compare_normal_text(text, mode, &Answer::refused(7), bytes - 1)
}

fn compare_read(text: &[u8], mode: u8, answer: &Answer, words_len: usize, ids_len: usize) -> Result<(), String> {
    let mut words = lent_words(words_len);
    let mut ids = lent_words(ids_len);
    let read = calls::read(text, mode, &mut words, &mut ids);
    equal("read", read, (answer.number, answer.counts))?;
    equal("comparator words", words, written(&answer.words, lent_words(words_len)))?;
    equal("identifier words", ids, written(&answer.ids, lent_words(ids_len)))
}

fn compare_normal_text(text: &[u8], mode: u8, answer: &Answer, lent: usize) -> Result<(), String> {
    let expected = (answer.number, answer.normal.len());
    let length = calls::normal_text_len(text, mode, lent);
    equal("normal text's length", length, expected)?;
    let mut bytes = lent_bytes(lent);
    let spelled = calls::normal_text(text, mode, &mut bytes);
    equal("normal text", spelled, expected)?;
    let expected = written(answer.normal.as_bytes(), lent_bytes(lent));
    equal("normal text's bytes", bytes, expected)
}

fn lent_words(length: usize) -> Vec<u64> {
    (0..length as u64).map(|i| 0xA5A5_A5A5_0000_0000 + i).collect()
}

fn lent_bytes(length: usize) -> Vec<u8> {
    (0..length).map(|i| 0x80 + (i % 0x80) as u8).collect()
}

fn written<T: Copy>(rows: &[T], mut lent: Vec<T>) -> Vec<T> {
    lent[..rows.len()].copy_from_slice(rows);
    lent
}

fn equal<T: PartialEq + std::fmt::Debug>(what: &str, ours: T, expected: T) -> Result<(), String> {
    if ours == expected {
        return Ok(());
    }
    Err(format!("{what}: here {ours:?}, expected {expected:?}"))
}
