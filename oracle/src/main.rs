//! Compares Maluwesi with the crate semver-parser 0.10.3, and its admissions with the crate semver.
//! Compares its shelf with a model of it. Run by oracle/run, oracle/sample, oracle/tables and oracle/shelf.

mod admission;
mod answer;
mod calls;
mod compare;
mod items;
mod partials;
mod pest_calls;
mod random;
mod reference;
mod report;
mod sample;
mod shelf;
mod shelf_calls;
mod shelf_model;
mod shelf_rows;
mod tables;
mod texts;

use random::Random;
use reference::{Verdict, LONGEST_TEXT, MODES};
use report::{shown, Differences, Report, Tally};
use std::collections::BTreeMap;
use std::process::ExitCode;
use std::sync::atomic::{AtomicUsize, Ordering};
use std::sync::Mutex;
use std::time::Instant;
use std::{env, path::Path, thread};
use texts::Job;

const THREADS: usize = 2;
const USAGE: &str = "usage: oracle compare SEED | oracle sample SEED FOLDER | oracle tables SEED FOLDER | oracle shelf SEED";

fn main() -> ExitCode {
    let arguments: Vec<_> = env::args().skip(1).collect();
    let arguments: Vec<_> = arguments.iter().map(String::as_str).collect();
    reference::silence_panics();
    match arguments[..] {
        ["compare", seed] => compare_all(seed.parse().expect(USAGE)),
        ["sample", seed, folder] => {
            sample::write(seed.parse().expect(USAGE), Path::new(folder)).expect("the files cannot be written");
            ExitCode::SUCCESS
        }
        ["tables", seed, folder] => {
            tables::write(seed.parse().expect(USAGE), folder);
            ExitCode::SUCCESS
        }
        ["shelf", seed] => shelf::compare_all(seed.parse().expect(USAGE)),
        _ => panic!("{USAGE}"),
    }
}

fn compare_all(seed: u64) -> ExitCode {
    let start = Instant::now();
    println!("seed {seed}");
    show_listed();
    let report = compare_texts(seed);
    eprintln!("admissions");
    let admissions = admission::compare_all(seed);
    eprintln!("modes 2 to 255");
    let other_modes = compare_other_modes();
    print!("\n{report}\n{admissions}\n");
    println!("modes 2 to 255: {} differences", other_modes.count);
    let total = report.total();
    print!("{}{}{other_modes}", total.differences, admissions.differences);
    println!("{} seconds", start.elapsed().as_secs());
    let differences = total.differences.count + admissions.differences.count + other_modes.count;
    println!("{} texts, {} with a reading, {differences} differences", total.texts, total.readable);
    ExitCode::from(u8::from(differences > 0))
}

/// The threads take the jobs in turn, and say so on standard error. A job's texts depend on the seed and on its place in
/// the list alone.
fn compare_texts(seed: u64) -> Report {
    let jobs = texts::jobs();
    let next = AtomicUsize::new(0);
    let tallies = Mutex::new(BTreeMap::new());
    let work = || loop {
        let at = next.fetch_add(1, Ordering::Relaxed);
        let Some(job) = jobs.get(at) else { return };
        eprintln!("{} of {}: {}", at + 1, jobs.len(), job.family);
        let tally = compare_job(job, seed.wrapping_add(at as u64));
        tallies.lock().unwrap().insert(at, tally);
    };
    thread::scope(|scope| (0..THREADS).for_each(|_| drop(scope.spawn(work))));

    let mut report = Report::default();
    for (at, tally) in tallies.into_inner().unwrap() {
        report.add(jobs[at].family, tally);
    }
    report
}

fn compare_job(job: &Job, seed: u64) -> Tally {
    let mut tally = Tally::default();
    (job.make)(&mut Random::new(seed), &mut |text| compare_text(text, &mut tally));
    tally
}

fn compare_text(text: &[u8], tally: &mut Tally) {
    let mut readable = false;
    for mode in MODES {
        match compare::compare(text, mode) {
            Ok(verdict) => {
                readable |= matches!(verdict, Verdict::Set(_));
                tally.add(&verdict);
            }
            Err(difference) => {
                tally.differences.add(format!("`{}` {mode:?}: {difference}", shown(text)));
            }
        }
    }
    tally.texts += 1;
    tally.readable += u64::from(readable);
}

/// The header has two modes; under any other number each call is refused with 255.
fn compare_other_modes() -> Differences {
    let mut differences = Differences::default();
    for mode in 2..=255 {
        for text in texts::SEEDS {
            if let Err(difference) = compare::compare_without_mode(text.as_bytes(), mode) {
                differences.add(format!("`{}` {mode}: {difference}", shown(text.as_bytes())));
            }
        }
    }
    differences
}

/// Two texts of docs/DIFFERENCES.md: the one for which the port was asked for, and one that is too long.
fn show_listed() {
    let text = "1.0.0 - 18446744073709551615";
    let set = released::RangeSet::parse(text, released::Compat::Cargo).unwrap();
    let comparators = set.ranges[0].comparator_set.iter();
    let shown: Vec<_> = comparators.map(|c| format!("{:?} {}.{}.{}", c.op, c.major, c.minor, c.patch)).collect();
    let (number, _) = calls::count(text.as_bytes(), 0);
    println!("`{text}`: the crate's release build {}; here {number}", shown.join(", "));

    let blanks = " ".repeat(LONGEST_TEXT + 1);
    let set = checked::RangeSet::parse(&blanks, checked::Compat::Cargo).unwrap();
    let (number, _) = calls::count(blanks.as_bytes(), 0);
    println!("{} blanks: the crate {}; here {number}", blanks.len(), answer::normal_text(&set));
}
