//! The crate semver-parser, dtolnay's semver and Maluwesi on the same texts.
//! `bench times` prints nanoseconds; `bench list` the acts that instructions are counted of; `bench once ACT TEXT PEER` does one of them once,
//! inside `measured`, for callgrind; `bench table TIMES COUNTS` prints both as a table.

mod peers;
mod shelf;
mod table;
mod texts;

use peers::{Peer, ADMITTERS, READERS, SPELLERS};
use shelf::{ADDERS, FITTERS, SEEKERS};
use std::hint::black_box;
use std::time::{Duration, Instant};
use texts::Text;

/// An act, on the texts that it is done on, by each peer.
struct Act {
    name: &'static str,
    peers: &'static [Peer],
    texts: Vec<Text>,
}

fn acts() -> Vec<Act> {
    let short = || texts::all().into_iter().take(3).collect();
    let ours = std::slice::from_ref(&READERS[2]);
    vec![
        Act { name: "read", peers: &READERS, texts: texts::all() },
        Act { name: "spell", peers: &SPELLERS, texts: short() },
        Act { name: "admit", peers: &ADMITTERS, texts: short() },
        Act { name: "grow", peers: ours, texts: texts::growing() },
        Act { name: "first fit", peers: &FITTERS, texts: texts::on_shelf() },
        Act { name: "lookup", peers: &SEEKERS, texts: texts::on_shelf() },
        Act { name: "add", peers: &ADDERS, texts: texts::on_shelf().into_iter().take(1).collect() },
    ]
}

#[no_mangle]
#[inline(never)]
pub fn measured(act: fn(&str) -> Option<u64>, text: &str) -> u64 {
    act(text).unwrap_or(u64::MAX)
}

const SWEEPS: usize = 6;
const ROUNDS: usize = 4;
const ROUND: Duration = Duration::from_millis(10);

/// Nanoseconds of one act, over so many.
fn round(act: fn(&str) -> Option<u64>, text: &str, times: u32) -> f64 {
    let start = Instant::now();
    for _ in 0..times {
        black_box(act(black_box(text)));
    }
    start.elapsed().as_secs_f64() * 1e9 / f64::from(times)
}

/// How many acts take half a round at least.
fn times_in_a_round(act: fn(&str) -> Option<u64>, text: &str) -> u32 {
    let mut times = 1;
    loop {
        let nanoseconds = round(act, text, times) * f64::from(times);
        if nanoseconds * 2.0 > ROUND.as_nanos() as f64 {
            return times;
        }
        times *= 2;
    }
}

/// The best of several rounds for each peer; the peers take turns. A peer that does not read the text has none.
fn best(peers: &[Peer], text: &str) -> Vec<Option<f64>> {
    let times: Vec<Option<u32>> =
        peers.iter().map(|peer| (peer.act)(text).map(|_| times_in_a_round(peer.act, text))).collect();
    let mut best = vec![None; peers.len()];
    for _ in 0..ROUNDS {
        for ((peer, times), best) in peers.iter().zip(&times).zip(&mut best) {
            *best = least(*best, times.map(|times| round(peer.act, text, times)));
        }
    }
    best
}

fn least(a: Option<f64>, b: Option<f64>) -> Option<f64> {
    a.into_iter().chain(b).reduce(f64::min)
}

/// The machine may run at another speed for a while, so all is measured in several sweeps, and the best is kept. Standard error has a line for each.
fn print_times() {
    let acts = acts();
    let each: Vec<(&Act, &Text)> = acts.iter().flat_map(|act| act.texts.iter().map(move |text| (act, text))).collect();
    let mut found: Vec<Vec<Option<f64>>> = each.iter().map(|(act, _)| vec![None; act.peers.len()]).collect();
    for sweep in 1..=SWEEPS {
        eprintln!("times, sweep {sweep} of {SWEEPS}");
        for ((act, text), found) in each.iter().zip(&mut found) {
            for (found, took) in found.iter_mut().zip(best(act.peers, &text.text)) {
                *found = least(*found, took);
            }
        }
    }
    for ((act, text), found) in each.iter().zip(&found) {
        for (peer, best) in act.peers.iter().zip(found) {
            if let Some(best) = best {
                println!("{}\t{}\t{}\t{}\t{:.1}", act.name, text.name, text.text.len(), peer.name, best);
            }
        }
    }
}

fn print_list() {
    for act in acts() {
        for Text { name, text } in &act.texts {
            for peer in act.peers.iter().filter(|peer| (peer.act)(text).is_some()) {
                println!("{}\t{}\t{}\t{}", act.name, name, text.len(), peer.name);
            }
        }
    }
}

/// Twice before it is measured, so that the allocator has what it needs.
fn do_once(act: &str, text: &str, peer: &str) {
    let acts = acts();
    let act = acts.iter().find(|a| a.name == act).expect("no such act");
    let peer = act.peers.iter().find(|p| p.name == peer).expect("no such peer");
    let text = &act.texts.iter().find(|t| t.name == text).expect("no such text").text;
    black_box((peer.act)(text));
    black_box((peer.act)(text));
    black_box(measured(black_box(peer.act), black_box(text)));
}

fn print_table(times: &str, counts: &str) {
    let acts: Vec<_> = acts()
        .into_iter()
        .map(|act| (act.name, act.texts.into_iter().map(|t| (t.name, t.text.len())).collect()))
        .collect();
    table::print(&acts, times, counts);
}

fn main() {
    let arguments: Vec<String> = std::env::args().skip(1).collect();
    let arguments: Vec<&str> = arguments.iter().map(String::as_str).collect();
    match arguments[..] {
        ["times"] => print_times(),
        ["list"] => print_list(),
        ["once", act, text, peer] => do_once(act, text, peer),
        ["table", times, counts] => print_table(times, counts),
        _ => panic!("usage: bench times | list | once ACT TEXT PEER | table TIMES COUNTS"),
    }
}
