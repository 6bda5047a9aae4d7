//! What a refusal's number, file and line say of the files, in words: which
//! token, which limit, which table. Worked out from the files once more, after
//! the check. Not proved, and no part of any verdict.

use crate::facts::Facts;
use crate::text::{first_list, lines, lists, number, shown, Line};
use crate::{limits, line_ends, malformed, parents, FERP, LONGEST};
use std::collections::HashSet;

const TABLES: [&str; 6] = ["prefix", "matrix", "map", "proof", "marks", "values"];

/// A line is shown up to so many bytes.
const SHOWN: usize = 200;

fn part(files: [&[u8]; 2], file: u32, line: usize) -> &[u8] {
    let [start, end] = line_ends(files[0], files[1], file, line);
    &files[if file == 1 { 0 } else { 1 }][start..end]
}

/// A line for a message: its quotes, backslashes and bytes other than
/// printable ASCII are escaped, and of a long one the start and the length
/// are given.
pub fn shown_line(files: [&[u8]; 2], file: u32, line: usize) -> String {
    shown(part(files, file, line), SHOWN)
}

fn bound_twice(line: &Line, before: &Facts) -> Option<String> {
    let mut met = HashSet::new();
    let variables = lists(&line.tokens[1..]).concat();
    let again = variables.iter().find(|v| before.bound.contains_key(v) || !met.insert(**v))?;
    Some(format!("variable {again} is in the prefix already"))
}

fn unbound(line: &Line, before: &Facts) -> Option<String> {
    let literals = lists(&line.tokens).concat();
    let free = literals.iter().map(|l| l.abs()).find(|v| !before.bound.contains_key(v))?;
    Some(format!("variable {free} is not in the prefix"))
}

fn clause_count(line: Option<&Line>, before: &Facts) -> String {
    let (c, clauses) = (before.counts()[1], before.clauses.len());
    match line {
        Some(_) => format!("this is clause line {}, and the formula's C is {c}", clauses + 1),
        None => format!("there are {clauses} clause lines, and the formula's C is {c}"),
    }
}

fn mapped_twice(line: &Line, before: &Facts) -> Option<String> {
    let mut met = HashSet::new();
    let copies = first_list(&line.tokens[1..]);
    let again = copies.iter().find(|copy| before.mapped.contains_key(copy) || !met.insert(**copy))?;
    Some(match before.mapped.get(again) {
        Some(number) => format!("copy {again} is mapped in line {number}"),
        None => format!("copy {again} comes twice in this line"),
    })
}

fn bad_annotation(line: &Line, before: &Facts) -> Option<String> {
    let mut all = lists(&line.tokens[1..]).into_iter().skip(1);
    let (existentials, annotation) = (all.next()?, all.next()?);
    let existential = |v: &i64| before.bound.get(v).is_some_and(|bound| !bound.universal);
    if let Some(v) = existentials.iter().find(|v| !existential(v)) {
        return Some(format!("variable {v} is not existential"));
    }
    let mut met = HashSet::new();
    for u in annotation.iter().map(|l| l.abs()) {
        let Some(bound) = before.bound.get(&u).filter(|bound| bound.universal) else {
            return Some(format!("variable {u} is not universal"));
        };
        if !met.insert(u) {
            return Some(format!("variable {u} comes twice in the annotation"));
        }
        if let Some(v) = existentials.iter().find(|v| before.bound[v].place < bound.place) {
            return Some(format!("variable {u} is not left of {v}"));
        }
    }
    None
}

fn unmapped(line: &Line, before: &Facts) -> Option<String> {
    let literals = first_list(&line.tokens[1..]);
    let copy = literals.iter().map(|l| l.abs()).find(|copy| !before.mapped.contains_key(copy))?;
    Some(format!("copy {copy} is in no mapping line"))
}

fn hint_count(line: Option<&Line>, before: &Facts) -> String {
    let (hints, expansions) = (before.hints.as_ref().map_or(0, Vec::len), before.expansions);
    match line {
        Some(line) if line.tokens[0] == b"e" => format!("this is e line {}, and the number of hints is {hints}", expansions + 1),
        _ => format!("the number of hints is {hints}, and that of e lines {expansions}"),
    }
}

/// The clause that a FERP line names, or the hint of an `e` line.
fn no_expansion(files: [&[u8]; 2], line: &Line, before: &Facts) -> Option<String> {
    let hint = match (before.kind, &before.hints) {
        (FERP, _) => *lists(&line.tokens[1..]).get(1)?.first()?,
        (_, Some(hints)) => *hints.get(before.expansions)?,
        (_, None) => return Some("no clause of the formula has this expansion".to_string()),
    };
    let line = *before.clauses.get((hint as usize).wrapping_sub(1))?;
    Some(format!("clause {hint} (line {line} of the formula) has no such expansion: {}", shown_line(files, 1, line)))
}

fn not_implied(line: &Line) -> String {
    match lists(&line.tokens).concat().first() {
        Some(first) => format!("it is not RUP, and not RAT on its first literal, {first}"),
        None => "propagation from the standing clauses alone has no conflict".to_string(),
    }
}

fn not_closed(kind: u32) -> &'static str {
    match kind {
        FERP => "the certificate derives no empty clause",
        _ => "no empty clause stands at the end of the certificate",
    }
}

fn index_used(line: &Line, before: &Facts) -> Option<String> {
    let index = number(line.tokens[0])?;
    Some(format!("{index} is the index of line {}", before.derived.get(&index)?.line))
}

/// Each table that the lines so far, this one included, need more places of
/// than it has.
fn table_full(file: u32, line: &Line, mut before: Facts, lengths: &[usize; 6]) -> Vec<String> {
    match file {
        1 => before.formula_line(line),
        _ => before.certificate_line(line),
    }
    let full = (0..6).filter(|table| before.needs[*table] > lengths[*table]);
    full.map(|table| format!("the {} table has {} places, and {} are needed so far", TABLES[table], lengths[table], before.needs[table])).collect()
}

/// What can be said of a refusal beyond its word, a line of text each, for a
/// check of two files in tables of these lengths, the certificate's kind being
/// `FERAT` or `FERP`.
pub fn reasons(kind: u32, files: [&[u8]; 2], lengths: &[usize; 6], seven: &[u32; 7]) -> Vec<String> {
    let [_, refusal, file, line, ..] = *seven;
    if refusal == 0 {
        return Vec::new();
    }
    if refusal == 1 {
        return vec![format!("a file may have at most {LONGEST} bytes")];
    }
    let before = Facts::before(kind, files, file, line as usize);
    let start = line_ends(files[0], files[1], file, line as usize)[0];
    let bytes = part(files, file, line as usize);
    let found = lines(bytes).next();
    let line = found.as_ref();
    let told = match (refusal, line) {
        (2, _) => return malformed::reasons(files, file, start, line, &before),
        (3, Some(line)) => limits::reason(file, &line.tokens, &before),
        (4, Some(line)) => bound_twice(line, &before),
        (5, Some(line)) => unbound(line, &before),
        (6, _) => Some(clause_count(line, &before)),
        (7, Some(line)) => mapped_twice(line, &before),
        (8, Some(line)) => bad_annotation(line, &before),
        (9, Some(line)) => unmapped(line, &before),
        (10, _) => Some(hint_count(line, &before)),
        (11, Some(line)) => no_expansion(files, line, &before),
        (12, Some(line)) => Some(not_implied(line)),
        (13, Some(_)) => Some("no standing clause has exactly these literals".to_string()),
        (14, _) => Some(not_closed(kind).to_string()),
        (15, Some(line)) => return table_full(file, line, before, lengths),
        (16, Some(line)) => return parents::reasons(line, &before),
        (17, Some(line)) => index_used(line, &before),
        _ => None,
    };
    told.into_iter().collect()
}
