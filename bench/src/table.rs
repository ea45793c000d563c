//! A table in Markdown of what was measured: nanoseconds and instructions of each peer, and how they compare.

use std::collections::BTreeMap;
use std::fs;

/// Of an act and a text, by peer.
type Figures = BTreeMap<(String, String), BTreeMap<String, f64>>;

pub const PEERS: [&str; 3] = ["crate", "semver", "maluwesi"];

/// Lines of ACT, TEXT, BYTES, PEER, FIGURE with tabs between.
fn figures(path: &str) -> Figures {
    let lines = fs::read_to_string(path).expect(path);
    let mut figures = Figures::new();
    for line in lines.lines() {
        let fields: Vec<&str> = line.split('\t').collect();
        let [act, text, _, peer, figure] = fields[..] else {
            panic!("{path}: {line}");
        };
        let of_text = figures.entry((act.into(), text.into())).or_default();
        of_text.insert(peer.into(), figure.parse().expect(line));
    }
    figures
}

fn shown(figure: Option<&f64>) -> String {
    figure.map_or(String::new(), |figure| format!("{figure:.0}"))
}

/// How many times the second the first is.
fn ratio(of: &BTreeMap<String, f64>, first: &str, second: &str) -> String {
    match (of.get(first), of.get(second)) {
        (Some(first), Some(second)) => format!("{:.2}", first / second),
        _ => String::new(),
    }
}

pub fn print(acts: &[(&'static str, Vec<(&'static str, usize)>)], times: &str, counts: &str) {
    let (times, counts) = (figures(times), figures(counts));
    println!("| act | text | bytes | ns: crate | semver | maluwesi | a byte | instructions: crate | semver | maluwesi | crate / maluwesi | maluwesi / semver |");
    println!("|---|---|---|---|---|---|---|---|---|---|---|---|");
    for (act, texts) in acts {
        for (text, bytes) in texts {
            let key = (act.to_string(), text.to_string());
            let (time, count) = (&times[&key], &counts[&key]);
            let by_peer = |of: &BTreeMap<String, f64>| PEERS.map(|peer| shown(of.get(peer))).join(" | ");
            println!(
                "| {act} | `{}` | {bytes} | {} | {:.2} | {} | {} | {} |",
                text.replace('|', "\\|"),
                by_peer(time),
                time["maluwesi"] / *bytes as f64,
                by_peer(count),
                ratio(count, "crate", "maluwesi"),
                ratio(count, "maluwesi", "semver"),
            );
        }
    }
}
