//! Why the clause of a FERP line is no resolvent of the parents that the line
//! names.

use crate::facts::{Derived, Facts};
use crate::text::{first_list, lists, number, shown, Line};
use std::collections::BTreeSet;

/// A clause is shown up to so many bytes.
const SHOWN: usize = 200;

fn missing(line: &Line, index: i64) -> String {
    if number(line.tokens[0]) == Some(index) {
        return format!("{index} is the line's own index, and its parents come before it");
    }
    format!("no line before it has the index {index}")
}

fn named(index: i64, parent: &Derived) -> String {
    let literals: String = parent.literals.iter().map(|literal| format!("{literal} ")).collect();
    format!("{index} is the index of line {}, the clause {}", parent.line, shown(format!("{literals}0").as_bytes(), SHOWN))
}

/// Where the clause differs from the parents' resolvent on the first copy that
/// has one.
fn differences(clause: &[i64], parents: [&Derived; 2]) -> Vec<String> {
    let set = |literals: &[i64]| literals.iter().copied().collect::<BTreeSet<i64>>();
    let (clause, mut one, mut other) = (set(clause), set(&parents[0].literals), set(&parents[1].literals));
    let Some(pivot) = parents[0].literals.iter().find(|literal| other.contains(&-**literal)) else {
        return vec!["they have no resolvent: neither has the negation of a literal of the other".to_string()];
    };
    one.remove(pivot);
    other.remove(&-pivot);
    let (resolvent, copy) = (&one | &other, pivot.abs());
    let more = clause.difference(&resolvent).take(1).map(|literal| format!("their resolvent on copy {copy} has no {literal}"));
    let fewer = resolvent.difference(&clause).take(1).map(|literal| format!("their resolvent on copy {copy} has {literal} too"));
    more.chain(fewer).collect()
}

/// What can be said of a line that is refused 16.
pub fn reasons(line: &Line, before: &Facts) -> Vec<String> {
    let parents = lists(&line.tokens[1..]).into_iter().nth(1).unwrap_or_default();
    let told = |index: &i64| match before.derived.get(index) {
        Some(parent) => named(*index, parent),
        None => missing(line, *index),
    };
    let mut reasons: Vec<String> = parents.iter().map(told).collect();
    reasons.dedup();
    let found: Vec<&Derived> = parents.iter().filter_map(|index| before.derived.get(index)).collect();
    if let [one, other] = found[..] {
        reasons.extend(differences(&first_list(&line.tokens[1..]), [one, other]));
    }
    reasons
}
