//! Random expressions of the methods of pest's `ParserState` that the crate's src/generated.rs calls, and what pest answers to them.

use crate::random::Random;
use crate::tables::characters;
use pest::iterators::Pairs;
use pest::{ParseResult, ParserState};
use std::cell::Cell;
use std::fmt;
use std::panic::{catch_unwind, resume_unwind, AssertUnwindSafe};

/// The rules that the expressions name.
const RULES: [&str; 4] = ["nr", "part", "xr", "partial"];
const DEEPEST: usize = 6;

/// More steps than an expression takes that ends.
const STEPS: usize = 20_000;

enum Expr {
    Unchanged,
    StartOfInput,
    EndOfInput,
    MatchString(&'static str),
    MatchRange(char, char),
    AndThen(Box<Expr>, Box<Expr>),
    OrElse(Box<Expr>, Box<Expr>),
    Sequence(Box<Expr>),
    Optional(Box<Expr>),
    Repeat(Box<Expr>),
    Rule(usize, Box<Expr>),
}

/// An input, an expression, and what pest answers.
pub struct Call {
    input: String,
    expr: Expr,
    result: String,
}

impl fmt::Display for Call {
    fn fmt(&self, f: &mut fmt::Formatter) -> fmt::Result {
        write!(f, "call {} {} {}", characters(&self.input), self.expr, self.result)
    }
}

pub fn random_calls(random: &mut Random, count: usize) -> Vec<Call> {
    let call = |_| {
        let depth = 2 + random.below(DEEPEST - 1);
        let expr = random_expr(random, depth);
        let input: String = (0..random.below(7)).map(|_| ['a', 'a', 'b', 'b', 'é'][random.below(5)]).collect();
        let result = result(&expr, &input);
        Call { input, expr, result }
    };
    (0..count).map(call).collect()
}

fn random_expr(random: &mut Random, depth: usize) -> Expr {
    if depth == 0 || random.one_in(8) {
        return random_leaf(random);
    }
    let part = |random: &mut Random| Box::new(random_expr(random, depth - 1));
    match random.below(10) {
        0..=2 => Expr::AndThen(part(random), part(random)),
        3..=4 => Expr::OrElse(part(random), part(random)),
        5 => Expr::Sequence(part(random)),
        6 => Expr::Optional(part(random)),
        7 => Expr::Repeat(part(random)),
        _ => Expr::Rule(random.below(RULES.len()), part(random)),
    }
}

fn random_leaf(random: &mut Random) -> Expr {
    const TEXTS: [&str; 8] = ["a", "b", "a", "b", "ab", "", "é", "ba"];
    const RANGES: [(char, char); 5] = [('a', 'b'), ('b', 'z'), ('a', 'é'), ('b', 'a'), ('é', 'é')];
    match random.below(12) {
        0..=5 => Expr::MatchString(TEXTS[random.below(TEXTS.len())]),
        6..=8 => {
            let (from, to) = RANGES[random.below(RANGES.len())];
            Expr::MatchRange(from, to)
        }
        9 => Expr::StartOfInput,
        10 => Expr::EndOfInput,
        _ => Expr::Unchanged,
    }
}

// ---- pest

struct Endless;

type State<'i> = Box<ParserState<'i, usize>>;

fn run<'i>(expr: &Expr, state: State<'i>, steps: &Cell<usize>) -> ParseResult<State<'i>> {
    steps.set(steps.get() + 1);
    if steps.get() > STEPS {
        resume_unwind(Box::new(Endless));
    }
    match expr {
        Expr::Unchanged => Ok(state),
        Expr::StartOfInput => state.start_of_input(),
        Expr::EndOfInput => state.end_of_input(),
        Expr::MatchString(text) => state.match_string(text),
        Expr::MatchRange(from, to) => state.match_range(*from..*to),
        Expr::AndThen(first, second) => run(first, state, steps).and_then(|state| run(second, state, steps)),
        Expr::OrElse(first, second) => run(first, state, steps).or_else(|state| run(second, state, steps)),
        Expr::Sequence(part) => state.sequence(|state| run(part, state, steps)),
        Expr::Optional(part) => state.optional(|state| run(part, state, steps)),
        Expr::Repeat(part) => state.repeat(|state| run(part, state, steps)),
        Expr::Rule(rule, part) => state.rule(*rule, |state| run(part, state, steps)),
    }
}

/// The state of an Err has a queue too: it is handed to pest as if it were Ok's, and so seen as pairs.
fn result(expr: &Expr, input: &str) -> String {
    let ended = catch_unwind(AssertUnwindSafe(|| {
        let mut result = ("", 0);
        let pairs = pest::state(input, |state| {
            let (name, state) = match run(expr, state, &Cell::new(0)) {
                Ok(state) => ("ok", state),
                Err(state) => ("err", state),
            };
            result = (name, state.position().pos());
            Ok(state)
        });
        let (name, at) = result;
        format!("({name} {} {})", characters(&input[at..]), pairs_of(pairs.unwrap()))
    }));
    ended.unwrap_or_else(|panic| {
        assert!(panic.is::<Endless>());
        "endless".to_string()
    })
}

fn pairs_of(mut pairs: Pairs<usize>) -> String {
    let Some(pair) = pairs.next() else {
        return "end".to_string();
    };
    let (rule, text) = (RULES[pair.as_rule()], characters(pair.as_str()));
    format!("(pair Rule.{rule} {text} {} {})", pairs_of(pair.into_inner()), pairs_of(pairs))
}

// ---- terms

impl fmt::Display for Expr {
    fn fmt(&self, f: &mut fmt::Formatter) -> fmt::Result {
        match self {
            Expr::Unchanged => write!(f, "unchanged"),
            Expr::StartOfInput => write!(f, "start-of-input"),
            Expr::EndOfInput => write!(f, "end-of-input"),
            Expr::MatchString(text) => write!(f, "(match-string {})", characters(text)),
            Expr::MatchRange(from, to) => write!(f, "(match-range {} {})", *from as u32, *to as u32),
            Expr::AndThen(first, second) => write!(f, "({first} and-then {second})"),
            Expr::OrElse(first, second) => write!(f, "({first} or-else {second})"),
            Expr::Sequence(part) => write!(f, "(sequence {part})"),
            Expr::Optional(part) => write!(f, "(optional {part})"),
            Expr::Repeat(part) => write!(f, "(repeat {part})"),
            Expr::Rule(rule, part) => write!(f, "(rule Rule.{} {part})", RULES[*rule]),
        }
    }
}
