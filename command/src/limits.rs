//! Which number of a line is above its limit.

use crate::facts::Facts;
use crate::text::{number, told};
use crate::FERP;

/// What bounds a number: a limit of its own, or the formula's V or C.
enum Limit {
    V,
    C,
    Copies,
    Indexes,
    Variables,
    Clauses,
}

impl Limit {
    /// The number, and what it is.
    fn value(&self, before: &Facts) -> (i64, &'static str) {
        let [v, c] = before.counts();
        match self {
            Limit::V => (4_096, "V is at most"),
            Limit::C => (8_192, "C is at most"),
            Limit::Copies => (16_384, "a copy is at most"),
            Limit::Indexes => (65_536, "an index is at most"),
            Limit::Variables => (v, "the formula's V is"),
            Limit::Clauses => (c, "the formula's C is"),
        }
    }
}

/// For a token of a FERP clause line, by its place and the zeros before it.
fn ferp_limit(tokens: &[&[u8]], place: usize, zeros: usize) -> Limit {
    // a single number between the last two zeros is a clause's
    let single = tokens.iter().nth_back(2).is_some_and(|token| *token == b"0");
    match zeros {
        0 if place == 0 => Limit::Indexes,
        0 => Limit::Copies,
        _ if single => Limit::Clauses,
        _ => Limit::Indexes,
    }
}

/// For a token, by its place in its line and the zeros before it.
fn limit(file: u32, kind: u32, tokens: &[&[u8]], place: usize, zeros: usize) -> Limit {
    match (file, tokens[0]) {
        (1, b"p") if place == 2 => Limit::V,
        (1, b"p") => Limit::C,
        (1, _) => Limit::Variables,
        (_, b"x") if zeros > 0 => Limit::Variables,
        (_, b"x") => Limit::Copies,
        _ if kind == FERP => ferp_limit(tokens, place, zeros),
        (_, b"o") => Limit::Clauses,
        _ => Limit::Copies,
    }
}

/// What can be said of a line that is refused 3: its first number above a
/// limit.
pub fn reason(file: u32, tokens: &[&[u8]], before: &Facts) -> Option<String> {
    let mut zeros = 0;
    for (place, token) in tokens.iter().enumerate() {
        let (most, what) = limit(file, before.kind, tokens, place, zeros).value(before);
        match number(token) {
            Some(0) => zeros += 1,
            Some(n) if n.abs() > most => return Some(told(tokens, place, &format!("{what} {most}"))),
            _ => {}
        }
    }
    None
}
