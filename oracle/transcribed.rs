//! Compares the definitions of crates/reference/specs with the source of the crate semver-parser 0.10.3. Run by oracle/transcribed.
//!
//! Generated.antt: each function of src/generated.rs and its definition are read into trees. A definition that is no
//! function of the source is a name for a part of others, and is put in their place.
//! Range.antt, RangeSet.antt: a comment that cites a line of src/range.rs or src/range_set.rs by its number must have
//! that line, and each function of theirs must be cited.

use std::collections::{BTreeMap, BTreeSet};
use std::process::ExitCode;
use std::{env, fmt, fs};

fn main() -> ExitCode {
    let folders: Vec<_> = env::args().skip(1).collect();
    let [source, specs] = &folders[..] else {
        panic!("usage: transcribed SOURCE SPECS");
    };
    let read = |folder: &str, name: &str| {
        fs::read_to_string(format!("{folder}/{name}")).unwrap_or_else(|e| panic!("{folder}/{name}: {e}"))
    };
    let generated = read(source, "generated.rs");
    let (range, range_set) = (read(specs, "Range.antt"), read(specs, "RangeSet.antt"));
    let mut cited = citations("range.rs", &range);
    cited.extend(citations("range_set.rs", &range_set));

    let mut faults = compare_rules(&generated, &read(specs, "Rule.antt"));
    faults += compare_functions(&generated, &read(specs, "Generated.antt"));
    faults += compare_lines("range.rs", &read(source, "range.rs"), &cited, &[]);
    faults += compare_lines("range_set.rs", &read(source, "range_set.rs"), &cited, &["new", "from_str"]);
    ExitCode::from(u8::from(faults > 0))
}

/// A call: a method's, with what it is called on first; or a function's by its name.
#[derive(Clone, PartialEq)]
struct Tree {
    name: String,
    parts: Vec<Tree>,
}

impl fmt::Display for Tree {
    fn fmt(&self, f: &mut fmt::Formatter) -> fmt::Result {
        let parts: Vec<_> = self.parts.iter().map(Tree::to_string).collect();
        match parts.is_empty() {
            true => write!(f, "{}", self.name),
            false => write!(f, "{}({})", self.name, parts.join(", ")),
        }
    }
}

fn tree(name: &str, parts: Vec<Tree>) -> Tree {
    Tree { name: name.to_string(), parts }
}

const CHAINED: [&str; 2] = ["and_then", "or_else"];
const OVER_CLOSURE: [&str; 3] = ["sequence", "optional", "repeat"];
const OVER_NOTHING: [&str; 2] = ["start_of_input", "end_of_input"];

// ---- tokens

struct Tokens {
    tokens: Vec<String>,
    at: usize,
}

impl Tokens {
    /// Words (with the given signs in them), quoted texts, and single signs.
    fn new(text: &str, in_words: &str) -> Tokens {
        let mut tokens = Vec::new();
        let mut rest = text.chars().peekable();
        while let Some(c) = rest.next() {
            let mut token = c.to_string();
            if c.is_alphanumeric() || in_words.contains(c) {
                while let Some(d) = rest.next_if(|d| d.is_alphanumeric() || in_words.contains(*d)) {
                    token.push(d);
                }
            } else if c == '"' {
                loop {
                    let d = rest.next().expect("a text that ends");
                    token.push(d);
                    match d {
                        '\\' => token.push(rest.next().expect("a sign behind \\")),
                        '"' => break,
                        _ => {}
                    }
                }
            }
            if !c.is_whitespace() {
                tokens.push(token);
            }
        }
        Tokens { tokens, at: 0 }
    }

    fn peek(&self) -> &str {
        self.tokens.get(self.at).map_or("", |token| token)
    }

    fn next(&mut self) -> String {
        let token = self.peek().to_string();
        assert!(!token.is_empty(), "the text ends too early");
        self.at += 1;
        token
    }

    fn expect(&mut self, tokens: &[&str]) {
        for token in tokens {
            let next = self.next();
            assert_eq!(next, *token, "behind {:?}", &self.tokens[self.at.saturating_sub(8)..self.at]);
        }
    }

    fn take(&mut self, token: &str) -> bool {
        let found = self.peek() == token;
        self.at += usize::from(found);
        found
    }
}

/// A text as it is written, quotation marks included.
fn quoted(token: String) -> Tree {
    assert!(token.starts_with('"'), "{token} is no text");
    tree(&token, vec![])
}

fn rule_named(name: &str) -> Tree {
    tree(&format!("Rule::{name}"), vec![])
}

// ---- src/generated.rs

/// The name behind `fn`, and the tokens of its body, for each function of the grammar.
fn functions(source: &str) -> BTreeMap<String, Tree> {
    let mut functions = BTreeMap::new();
    let parts: Vec<_> = source.split(" fn ").collect();
    for part in &parts[1..] {
        let name = part.split(['(', '<']).next().unwrap().trim_start_matches("r#");
        if ["all_rules", "parse"].contains(&name) {
            continue;
        }
        let signature = "::pest::ParseResult<::std::boxed::Box<::pest::ParserState<'_, Rule>>> {";
        let body = part.split_once(signature).expect("a function over the state").1;
        let mut tokens = Tokens::new(body, "_#");
        let body = expression(&mut tokens);
        tokens.expect(&["}"]);
        assert!(functions.insert(name.to_string(), body).is_none(), "{name} twice");
    }
    functions
}

/// `state.METHOD(..)` or `PATH(state)`, and the methods behind it.
fn expression(tokens: &mut Tokens) -> Tree {
    let first = path(tokens);
    let mut body = match first.as_str() {
        "state" => method(tokens, None),
        "Ok" => tree("unchanged", vec![]),
        function => tree(function, vec![]),
    };
    if first != "state" {
        tokens.expect(&["(", "state", ")"]);
    }
    while tokens.peek() == "." {
        body = method(tokens, Some(body));
    }
    body
}

/// The last name of a path, without `r#`.
fn path(tokens: &mut Tokens) -> String {
    let mut name = tokens.next();
    while tokens.take(":") {
        tokens.expect(&[":"]);
        name = tokens.next();
    }
    name.trim_start_matches("r#").to_string()
}

fn method(tokens: &mut Tokens, called_on: Option<Tree>) -> Tree {
    tokens.expect(&["."]);
    let name = tokens.next();
    tokens.expect(&["("]);
    let body = match called_on {
        Some(body) if CHAINED.contains(&name.as_str()) => tree(&name, vec![body, closure(tokens)]),
        None if OVER_CLOSURE.contains(&name.as_str()) => tree(&name, vec![closure(tokens)]),
        None if OVER_NOTHING.contains(&name.as_str()) => tree(&name, vec![]),
        None if name == "match_string" => tree(&name, vec![quoted(tokens.next())]),
        None if name == "match_range" => {
            let from = character(tokens);
            tokens.expect(&[".", "."]);
            tree(&name, vec![from, character(tokens)])
        }
        None if name == "rule" => {
            let rule = path(tokens);
            tokens.expect(&[","]);
            tree(&name, vec![rule_named(&rule), closure(tokens)])
        }
        _ => panic!("the method {name}"),
    };
    tokens.expect(&[")"]);
    body
}

/// A character by its number.
fn character(tokens: &mut Tokens) -> Tree {
    tokens.expect(&["'"]);
    let character = tokens.next();
    tokens.expect(&["'"]);
    assert_eq!(character.chars().count(), 1);
    tree(&(character.chars().next().unwrap() as u32).to_string(), vec![])
}

fn closure(tokens: &mut Tokens) -> Tree {
    tokens.expect(&["|", "state", "|"]);
    let braces = tokens.take("{");
    let body = expression(tokens);
    if braces {
        tokens.expect(&["}"]);
    }
    body
}

// ---- Generated.antt

/// Each definition `NAME : Expr`.
fn definitions(text: &str) -> BTreeMap<String, Tree> {
    let code: String = text.lines().filter(|line| !line.starts_with("--")).map(|line| format!("{line}\n")).collect();
    let mut definitions = BTreeMap::new();
    let parts: Vec<_> = code.split(" pub ").collect();
    for part in &parts[1..] {
        let (name, body) = part.split_once(" : Expr\n").expect("a definition of an Expr");
        let body = body.strip_prefix(name).and_then(|b| b.strip_prefix(" =")).expect("an equation");
        let body = body.trim_end().trim_end_matches("unfoldable").trim_end_matches("abbrev");
        let mut tokens = Tokens::new(body, "-_.₁");
        let tree = chain(&mut tokens);
        assert_eq!(tokens.peek(), "", "{name}");
        assert!(definitions.insert(underscored(name), tree).is_none(), "{name} twice");
    }
    definitions
}

fn underscored(name: &str) -> String {
    name.replace('-', "_")
}

/// `a and-then b or-else c ..`, bracketed to the left.
fn chain(tokens: &mut Tokens) -> Tree {
    let mut body = application(tokens);
    while ["and-then", "or-else"].contains(&tokens.peek()) {
        let name = underscored(&tokens.next());
        body = tree(&name, vec![body, application(tokens)]);
    }
    body
}

fn application(tokens: &mut Tokens) -> Tree {
    if tokens.take("(") {
        let body = chain(tokens);
        tokens.expect(&[")"]);
        return body;
    }
    let name = underscored(&tokens.next());
    let parts = match name.as_str() {
        "match_string" => {
            tokens.expect(&["(", "bytes"]);
            let text = quoted(tokens.next());
            tokens.expect(&[")"]);
            vec![text]
        }
        "match_range" => vec![tree(&tokens.next(), vec![]), tree(&tokens.next(), vec![])],
        "rule" => {
            let rule = underscored(tokens.next().strip_prefix("Rule.").expect("a Rule"));
            vec![rule_named(&rule), application(tokens)]
        }
        name if OVER_CLOSURE.contains(&name) => vec![application(tokens)],
        _ => vec![],
    };
    tree(&name, parts)
}

// ---- trees compared

fn compare_functions(source: &str, text: &str) -> usize {
    let functions = functions(source);
    let definitions = definitions(text);
    let mut used = BTreeSet::new();
    let mut same = 0;
    for (name, function) in &functions {
        match definitions.get(name).map(|body| written_out(body, &definitions, &functions, &mut used)) {
            Some(body) if body == *function => same += 1,
            Some(body) => println!("{name} differs:\n  generated.rs    {function}\n  Generated.antt  {body}"),
            None => println!("{name} is not in Generated.antt"),
        }
    }
    let unknown: Vec<_> =
        definitions.keys().filter(|name| !functions.contains_key(*name) && !used.contains(*name)).collect();
    unknown.iter().for_each(|name| println!("{name} is not in generated.rs"));
    println!("generated.rs: {same} of {} functions the same", functions.len());
    assert!(!functions.is_empty());
    functions.len() - same + unknown.len()
}

/// The body, with the names that are no functions replaced by what they stand for.
fn written_out(
    body: &Tree,
    definitions: &BTreeMap<String, Tree>,
    functions: &BTreeMap<String, Tree>,
    used: &mut BTreeSet<String>,
) -> Tree {
    if let (Some(part), false) = (definitions.get(&body.name), functions.contains_key(&body.name)) {
        used.insert(body.name.clone());
        return written_out(part, definitions, functions, used);
    }
    let parts = body.parts.iter().map(|part| written_out(part, definitions, functions, used)).collect();
    Tree { name: body.name.clone(), parts }
}

/// The names of the enum, in order; and that the generated `parse` calls the function of each rule's name.
fn compare_rules(source: &str, text: &str) -> usize {
    let variants = between(source, "pub enum Rule {", "}").lines().map(str::trim);
    let variants: Vec<_> = variants.filter_map(|line| line.strip_suffix(',')).collect();
    let names = between(text, "pub data Rule : Type 0 where\n", " : Rule").split_whitespace();
    let names: Vec<_> = names.map(underscored).collect();

    let is_called = |variant: &&&str| source.contains(&format!("Rule::{variant} => rules::{variant}(state),"));
    let called = variants.iter().filter(is_called).count();
    let is_same = |(variant, name): &(&&str, &String)| variant.trim_start_matches("r#") == *name;
    let same = variants.iter().zip(&names).filter(is_same).count();
    let all = variants.len().max(names.len());
    println!("generated.rs: {same} of {all} rules the same, {called} called by their names");
    2 * all - same - called
}

fn between<'a>(text: &'a str, start: &str, end: &str) -> &'a str {
    let (_, rest) = text.split_once(start).unwrap_or_else(|| panic!("no {start:?}"));
    rest.split_once(end).unwrap_or_else(|| panic!("no {end:?} behind {start:?}")).0
}

// ---- src/range.rs, src/range_set.rs

/// A line of the source, as a comment has it.
struct Citation<'a> {
    file: &'a str,
    number: usize,
    line: &'a str,
}

/// The comments `-- NUMBER: ` and `-- FILE NUMBER: ` with a line in backquotes.
fn citations<'a>(file: &'a str, text: &'a str) -> Vec<Citation<'a>> {
    let citation = |comment: &'a str| {
        let (place, line) = comment.strip_prefix("-- ")?.split_once(": `")?;
        let (file, number) = place.split_once(' ').unwrap_or((file, place));
        Some(Citation { file, number: number.parse().ok()?, line: line.split_once('`')?.0 })
    };
    text.lines().filter_map(citation).collect()
}

/// Each line that is cited, and each function that is not; of the latter some are left out.
fn compare_lines(name: &str, source: &str, citations: &[Citation], left_out: &[&str]) -> usize {
    let lines: Vec<_> = source.lines().map(str::trim).collect();
    let cited: Vec<&Citation> = citations.iter().filter(|citation| citation.file == name).collect();
    let is_there = |citation: &&Citation| lines.get(citation.number - 1) == Some(&citation.line);
    let (same, others): (Vec<&Citation>, Vec<&Citation>) = cited.iter().copied().partition(is_there);
    others.iter().for_each(|citation| println!("{name} {} is not {:?}", citation.number, citation.line));

    // by its own line, or by the one line of its body
    let is_cited = |at: usize| same.iter().any(|citation| [at + 1, at + 2].contains(&citation.number));
    let functions = lines.iter().enumerate().filter_map(|(at, line)| Some((at, line.split_once("fn ")?.1)));
    let functions = functions.map(|(at, line)| (at, line.split('(').next().unwrap()));
    let missing: Vec<_> = functions.filter(|(at, name)| !is_cited(*at) && !left_out.contains(name)).collect();
    missing.iter().for_each(|(at, function)| println!("{name} {}: {function} is not transcribed", at + 1));

    println!("{name}: {} of {} lines the same, {} functions missing", same.len(), cited.len(), missing.len());
    assert!(!cited.is_empty(), "no line of {name} is cited");
    others.len() + missing.len()
}
