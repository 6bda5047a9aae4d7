//! Pairs of files from a fixed seed: right ones, and right ones damaged;
//! those with a FERAT certificate (`ferp_corpus` has those with a FERP one),
//! and the stored pairs.
//!
//! `case(seed, index)` is a function of its two arguments, so that a case
//! can be made again from the name a comparison prints.

use crate::boundary::Files;
use crate::reference::{self, Standing, FILE_LIMIT};
use crate::{ferp_corpus, Kind};
use std::collections::{BTreeMap, BTreeSet};
use std::path::Path;

// ------------------------------------------------------------------ dice

/// xorshift64*, seeded through one round of splitmix64.
#[derive(Clone, Debug)]
pub struct Rng(u64);

impl Rng {
    pub fn new(seed: u64) -> Rng {
        let mut z = seed.wrapping_add(0x9e37_79b9_7f4a_7c15);
        z = (z ^ (z >> 30)).wrapping_mul(0xbf58_476d_1ce4_e5b9);
        z = (z ^ (z >> 27)).wrapping_mul(0x94d0_49bb_1331_11eb);
        Rng((z ^ (z >> 31)) | 1)
    }

    /// The dice of a case.
    pub(crate) fn of_case(seed: u64, index: u64) -> Rng {
        let mut rng = Rng::new(seed.wrapping_mul(0x1_0000_0001).wrapping_add(index.wrapping_mul(0x9e37_79b9)));
        for _ in 0..3 {
            rng.next();
        }
        rng
    }

    pub fn next(&mut self) -> u64 {
        self.0 ^= self.0 >> 12;
        self.0 ^= self.0 << 25;
        self.0 ^= self.0 >> 27;
        self.0.wrapping_mul(0x2545_f491_4f6c_dd1d)
    }

    /// 0 to `count` - 1; 0 if there is nothing to choose from.
    pub fn below(&mut self, count: usize) -> usize {
        if count == 0 {
            return 0;
        }
        ((self.next() >> 33) % count as u64) as usize
    }

    pub fn between(&mut self, low: i64, high: i64) -> i64 {
        low + self.below((high - low + 1) as usize) as i64
    }

    pub fn chance(&mut self, part: usize, whole: usize) -> bool {
        self.below(whole) < part
    }

    pub fn pick<'a, T>(&mut self, list: &'a [T]) -> &'a T {
        &list[self.below(list.len())]
    }

    /// The same for what can be copied.
    pub fn one<T: Copy>(&mut self, list: &[T]) -> T {
        list[self.below(list.len())]
    }

    pub fn shuffle<T>(&mut self, list: &mut [T]) {
        for last in (1..list.len()).rev() {
            list.swap(last, self.below(last + 1));
        }
    }

    pub(crate) fn sign(&mut self, variable: i64) -> i64 {
        if self.chance(1, 2) {
            -variable
        } else {
            variable
        }
    }
}

// ----------------------------------------------------------------- files

pub(crate) type Line = Vec<String>;

pub(crate) fn numbers(head: &str, list: &[i64]) -> Line {
    let mut line: Line = Vec::new();
    if !head.is_empty() {
        line.push(head.to_string());
    }
    line.extend(list.iter().map(|n| n.to_string()));
    line.push("0".to_string());
    line
}

/// How tokens become bytes.
pub(crate) fn render(rng: &mut Rng, file: &[Line]) -> Vec<u8> {
    let style = rng.below(8);
    let mut bytes = Vec::new();
    let blanks = |rng: &mut Rng, least: usize, bytes: &mut Vec<u8>| {
        for _ in 0..least + rng.below(3) {
            bytes.push(*rng.pick(&[32u8, 32, 9, 13]));
        }
    };
    for line in file {
        if style == 7 && rng.chance(1, 4) {
            match rng.below(6) {
                0 => bytes.extend(b"\n"),
                1 => bytes.extend(b" \t\r\n"),
                2 => bytes.extend(b"c\n"),
                3 => bytes.extend(b"\t c p cnf 4 4 \x00\xff\n"),
                4 => bytes.extend(b"c0 1 2 0\n"),
                _ => bytes.extend(b"comment 0\r\n"),
            }
        }
        if style >= 6 {
            blanks(rng, 0, &mut bytes);
        }
        for (place, token) in line.iter().enumerate() {
            if place > 0 {
                if style >= 5 {
                    blanks(rng, 1, &mut bytes);
                } else {
                    bytes.push(32);
                }
            }
            bytes.extend(token.as_bytes());
        }
        if style >= 6 {
            blanks(rng, 0, &mut bytes);
        }
        if style == 4 {
            bytes.push(13);
        }
        bytes.push(10);
    }
    if rng.chance(1, 5) {
        bytes.pop();
    }
    bytes
}

#[derive(Clone, Debug)]
pub struct Case {
    pub kind: Kind,
    /// In which way it was damaged.
    pub damage: &'static str,
    pub formula: Vec<u8>,
    pub certificate: Vec<u8>,
    pub lengths: [usize; 6],
}

impl Case {
    /// The case of this kind, seed and index.
    pub fn of(kind: Kind, seed: u64, index: u64) -> Case {
        match kind {
            Kind::Ferat => case(seed, index),
            Kind::Ferp => ferp_corpus::case(seed, index),
        }
    }

    pub fn files(&self) -> Files<'_> {
        Files { kind: self.kind, formula: &self.formula, certificate: &self.certificate }
    }
}

// -------------------------------------------------------------- formulas

#[derive(Clone, Debug)]
pub(crate) struct Qbf {
    highest: i64,
    /// Universal or not, and the variables of the line.
    blocks: Vec<(bool, Vec<i64>)>,
    clauses: Vec<Vec<i64>>,
}

impl Qbf {
    pub(crate) fn lines(&self) -> Vec<Line> {
        let mut file =
            vec![vec!["p".into(), "cnf".into(), self.highest.to_string(), self.clauses.len().to_string()]];
        for (universal, variables) in &self.blocks {
            file.push(numbers(if *universal { "a" } else { "e" }, variables));
        }
        for clause in &self.clauses {
            file.push(numbers("", clause));
        }
        file
    }

    fn order(&self) -> Vec<(bool, i64)> {
        self.blocks.iter().flat_map(|(universal, list)| list.iter().map(move |v| (*universal, *v))).collect()
    }

    fn is_false(&self) -> bool {
        let mut bytes = Vec::new();
        for line in self.lines() {
            bytes.extend(line.join(" ").as_bytes());
            bytes.push(10);
        }
        reference::is_false(&bytes).unwrap_or(false)
    }
}

fn random_qbf(rng: &mut Rng) -> Qbf {
    let highest = rng.between(1, 8);
    let mut variables: Vec<i64> = (1..=highest).collect();
    rng.shuffle(&mut variables);
    if rng.chance(1, 6) {
        variables.pop();
    }
    let highest = if rng.chance(1, 8) { highest + rng.between(1, 5) } else { highest };
    let mut blocks: Vec<(bool, Vec<i64>)> = Vec::new();
    let mut universals = 0;
    for (place, variable) in variables.iter().enumerate() {
        let fresh = place == 0 || rng.chance(1, 2);
        if fresh {
            let universal = rng.chance(2, 5) && universals < 3;
            blocks.push((universal, Vec::new()));
        }
        if blocks.last().unwrap().0 {
            universals += 1;
            if universals > 3 {
                blocks.push((false, Vec::new()));
            }
        }
        blocks.last_mut().unwrap().1.push(*variable);
    }
    let order: Vec<(bool, i64)> = blocks.iter().flat_map(|(u, list)| list.iter().map(move |v| (*u, *v))).collect();
    let existentials: Vec<i64> = order.iter().filter(|(u, _)| !*u).map(|(_, v)| *v).collect();
    // Easy ones have units and universal clauses; hard ones need a search.
    let hard = existentials.len() > 2 && rng.chance(2, 3);
    let count = if hard { order.len() + rng.below(4 * order.len()) } else { rng.below(2 + 3 * order.len()) };
    let mut clauses = Vec::new();
    for _ in 0..count {
        let size = if hard { rng.one(&[2, 3, 3, 3, 3, 4, 4]) } else { rng.one(&[0, 1, 2, 2, 2, 3, 3, 3, 4, 5]) };
        if size == 0 && rng.chance(5, 6) {
            continue;
        }
        let mut clause: Vec<i64> = Vec::new();
        for _ in 0..size {
            let more = if hard { 3 } else { 2 };
            let variable = if !existentials.is_empty() && rng.chance(more, 4) {
                *rng.pick(&existentials)
            } else if !order.is_empty() {
                rng.pick(&order).1
            } else {
                continue;
            };
            let literal = rng.sign(variable);
            // Repeats and both signs occur, though seldom.
            if clause.contains(&-literal) && rng.chance(9, 10) || clause.contains(&literal) && rng.chance(2, 3) {
                continue;
            }
            clause.push(literal);
        }
        if hard && clause.iter().filter(|l| existentials.contains(&l.abs())).count() < 2 && rng.chance(7, 8) {
            continue;
        }
        clauses.push(clause);
    }
    Qbf { highest, blocks, clauses }
}

/// A formula that is false nine times of ten.
pub(crate) fn mostly_false(rng: &mut Rng) -> Qbf {
    let mut qbf = random_qbf(rng);
    let wanted = rng.chance(9, 10);
    for _ in 0..8 {
        if qbf.is_false() == wanted {
            break;
        }
        qbf = random_qbf(rng);
    }
    qbf
}

// ---------------------------------------------------------- certificates

#[derive(Clone, Debug, Default)]
pub(crate) struct Expansion {
    /// Copies by existential and annotation.
    copies: BTreeMap<(i64, Vec<i64>), i64>,
    /// Clauses, and the number of the matrix clause that each is of.
    pub(crate) clauses: Vec<(Vec<i64>, usize)>,
    pub(crate) used: BTreeSet<i64>,
    sparse: bool,
}

impl Expansion {
    fn fresh(&mut self, rng: &mut Rng) -> i64 {
        loop {
            let copy = if self.sparse {
                *rng.pick(&[rng.clone().between(1, 16_384), 16_384, 16_383, rng.clone().between(1, 300)])
            } else {
                self.used.len() as i64 + 1
            };
            rng.next();
            if self.used.insert(copy) {
                return copy;
            }
        }
    }
}

/// The expansion by all assignments of the universals, or by partial ones.
pub(crate) fn expand(rng: &mut Rng, qbf: &Qbf) -> Expansion {
    let order = qbf.order();
    let universals: Vec<i64> = order.iter().filter(|(u, _)| *u).map(|(_, v)| *v).collect();
    let mut expansion = Expansion { sparse: rng.chance(1, 6), ..Expansion::default() };
    let partial = rng.chance(1, 8);
    for bits in 0..1usize << universals.len() {
        let mut whole: BTreeSet<i64> = BTreeSet::new();
        for (place, variable) in universals.iter().enumerate() {
            whole.insert(if bits >> place & 1 == 1 { *variable } else { -*variable });
        }
        for (n, clause) in qbf.clauses.iter().enumerate() {
            let mut t = whole.clone();
            if partial {
                t.retain(|l| clause.contains(&-*l) || rng.chance(1, 2));
            }
            let due: Vec<i64> = clause.iter().copied().filter(|l| universals.contains(&l.abs())).collect();
            if due.iter().any(|l| !t.contains(&-*l)) {
                continue;
            }
            let mut line: Vec<i64> = Vec::new();
            for literal in clause.iter().filter(|l| !universals.contains(&l.abs())) {
                let place = order.iter().position(|(_, v)| *v == literal.abs()).unwrap();
                let left: Vec<i64> =
                    order[..place].iter().flat_map(|(_, v)| [*v, -*v]).filter(|l| t.contains(l)).collect();
                let key = (literal.abs(), left);
                let copy = match expansion.copies.get(&key) {
                    Some(copy) => *copy,
                    None => {
                        let copy = expansion.fresh(rng);
                        expansion.copies.insert(key, copy);
                        copy
                    }
                };
                let written = if *literal < 0 { -copy } else { copy };
                if !line.contains(&written) || rng.chance(1, 6) {
                    line.push(written);
                }
            }
            if rng.chance(1, 5) {
                rng.shuffle(&mut line);
            }
            let known = expansion.clauses.iter().any(|(c, m)| *c == line && *m == n + 1);
            if !known || rng.chance(1, 20) {
                expansion.clauses.push((line, n + 1));
            }
        }
    }
    expansion
}

/// Propagation on a plain list, for the search below.
fn falsified(clauses: &[Vec<i64>], truth: &mut BTreeSet<i64>) -> bool {
    loop {
        let mut changed = false;
        for clause in clauses {
            let mut open: Vec<i64> = clause.iter().copied().filter(|l| !truth.contains(&-*l)).collect();
            open.dedup();
            match open.len() {
                0 => return true,
                1 if truth.insert(open[0]) => changed = true,
                _ => {}
            }
        }
        if !changed {
            return false;
        }
    }
}

/// A search by decisions: each clause it writes is RUP where it stands.
fn refute(
    rng: &mut Rng,
    clauses: &[Vec<i64>],
    decisions: &mut Vec<i64>,
    budget: &mut usize,
    written: &mut Vec<Vec<i64>>,
) -> bool {
    if *budget == 0 {
        return false;
    }
    *budget -= 1;
    let mut truth: BTreeSet<i64> = decisions.iter().copied().collect();
    if !falsified(clauses, &mut truth) {
        let open: Vec<i64> = clauses
            .iter()
            .filter(|clause| !clause.iter().any(|l| truth.contains(l)))
            .flatten()
            .copied()
            .filter(|l| !truth.contains(&-*l))
            .collect();
        if open.is_empty() {
            return false;
        }
        let choice = *rng.pick(&open);
        for literal in [choice, -choice] {
            decisions.push(literal);
            let done = refute(rng, clauses, decisions, budget, written);
            decisions.pop();
            if !done {
                return false;
            }
        }
    }
    written.push(decisions.iter().rev().map(|l| -*l).collect());
    true
}

struct Certificate {
    mapping: Vec<MappingLine>,
    hints: Option<Vec<i64>>,
    expansions: Vec<Vec<i64>>,
    /// Deletion or not, literals.
    steps: Vec<(bool, Vec<i64>)>,
}

impl Certificate {
    fn lines(&self) -> Vec<Line> {
        let mut file = mapping_lines(&self.mapping);
        if let Some(hints) = &self.hints {
            file.push(numbers("o", hints));
        }
        for clause in &self.expansions {
            file.push(numbers("e", clause));
        }
        for (deletion, clause) in &self.steps {
            file.push(numbers(if *deletion { "d" } else { "" }, clause));
        }
        file
    }
}

/// Writes steps and keeps what stands after them.
struct Writer {
    standing: Standing,
    list: Vec<Vec<i64>>,
    steps: Vec<(bool, Vec<i64>)>,
}

impl Writer {
    fn add(&mut self, rng: &mut Rng, mut clause: Vec<i64>) {
        if !clause.is_empty() && rng.chance(1, 8) {
            let again = *rng.pick(&clause);
            clause.push(again);
        }
        self.standing.insert(&clause);
        self.list.push(clause.clone());
        self.steps.push((false, clause));
    }

    /// Only if the rules allow it.
    fn try_add(&mut self, rng: &mut Rng, clause: Vec<i64>) -> bool {
        let allowed = self.standing.allows(&clause);
        if allowed {
            self.add(rng, clause);
        }
        allowed
    }

    fn delete(&mut self, rng: &mut Rng, place: usize) {
        let mut clause = self.list.remove(place);
        if rng.chance(1, 3) {
            rng.shuffle(&mut clause);
        }
        if !clause.is_empty() && rng.chance(1, 6) {
            let again = *rng.pick(&clause);
            clause.push(again);
        }
        self.standing.remove(&clause);
        self.steps.push((true, clause));
    }
}

fn subsumes(small: &[i64], large: &[i64]) -> bool {
    small.iter().all(|l| large.contains(l))
}

pub(crate) fn random_clause(rng: &mut Rng, copies: &[i64], most: usize) -> Vec<i64> {
    let mut clause: Vec<i64> = Vec::new();
    for _ in 0..1 + rng.below(most) {
        let variable = if copies.is_empty() || rng.chance(1, 12) { rng.between(1, 30) } else { *rng.pick(copies) };
        let literal = rng.sign(variable);
        if !clause.contains(&-literal) || rng.chance(1, 10) {
            clause.push(literal);
        }
    }
    clause
}

/// Copies, existentials, annotation.
type MappingLine = (Vec<i64>, Vec<i64>, Vec<i64>);

pub(crate) fn mapping_lines(mapping: &[MappingLine]) -> Vec<Line> {
    let line = |(copies, existentials, annotation): &MappingLine| {
        let mut line = numbers("x", copies);
        line.extend(numbers("", existentials));
        line.extend(numbers("", annotation));
        line
    };
    mapping.iter().map(line).collect()
}

/// Mapping lines: copies of one annotation may share a line. Some pairs get
/// more copies than one.
pub(crate) fn mapping_for(rng: &mut Rng, expansion: &mut Expansion) -> Vec<MappingLine> {
    let mut mapping: Vec<MappingLine> = Vec::new();
    let share = rng.chance(1, 2);
    for ((existential, annotation), copy) in &expansion.copies {
        let mut written = annotation.clone();
        rng.shuffle(&mut written);
        let found = mapping.iter_mut().find(|(_, _, l)| {
            let (mut a, mut b) = (l.clone(), annotation.clone());
            a.sort();
            b.sort();
            a == b
        });
        match found {
            Some((copies, existentials, _)) if share => {
                copies.push(*copy);
                existentials.push(*existential);
            }
            _ => mapping.push((vec![*copy], vec![*existential], written)),
        }
    }
    rng.shuffle(&mut mapping);
    // More copies of a pair that has one, and lines of no copies.
    for _ in 0..2 {
        if !mapping.is_empty() && rng.chance(1, 6) {
            let (copies, existentials, annotation) = rng.pick(&mapping).clone();
            let fresh: Vec<i64> = copies.iter().map(|_| expansion.fresh(rng)).collect();
            let pair = rng.below(copies.len());
            if let Some(place) = expansion.clauses.iter().position(|(c, _)| c.iter().any(|l| l.abs() == copies[pair]))
            {
                if rng.chance(1, 2) {
                    // Both copies of one pair occur in an `e` line.
                    let (mut clause, n) = expansion.clauses[place].clone();
                    let twin = *clause.iter().find(|l| l.abs() == copies[pair]).unwrap();
                    clause.push(twin.signum() * fresh[pair]);
                    expansion.clauses.push((clause, n));
                }
            }
            mapping.push((fresh, existentials, annotation));
        }
    }
    if rng.chance(1, 12) {
        mapping.push((vec![], vec![], vec![]));
    }
    mapping
}

/// A certificate that breaks no rule; it closes if the formula is false and
/// the search came to an end.
fn right_certificate(rng: &mut Rng, qbf: &Qbf) -> Certificate {
    let mut expansion = expand(rng, qbf);
    if rng.chance(1, 4) {
        rng.shuffle(&mut expansion.clauses);
    }
    let mapping = mapping_for(rng, &mut expansion);
    let expansions: Vec<Vec<i64>> = expansion.clauses.iter().map(|(c, _)| c.clone()).collect();
    let hints = rng.chance(1, 2).then(|| expansion.clauses.iter().map(|(_, n)| *n as i64).collect());

    // Steps.
    let mut writer = Writer { standing: Standing::new(), list: expansions.clone(), steps: Vec::new() };
    for clause in &expansions {
        writer.standing.insert(clause);
    }
    let copies: Vec<i64> = expansion.used.iter().copied().collect();
    if rng.chance(1, 3) {
        // Clauses that are RUP or RAT as they stand.
        for _ in 0..6 {
            let clause = random_clause(rng, &copies, 3);
            writer.try_add(rng, clause);
        }
    }
    if rng.chance(1, 3) && copies.len() > 1 {
        // A definition, RAT on the new copy.
        let z = expansion.fresh(rng);
        let a = *rng.pick(&copies);
        let a = rng.sign(a);
        let b = *rng.pick(&copies);
        let b = rng.sign(b);
        for clause in [vec![z, -a, -b], vec![-z, a], vec![-z, b]] {
            writer.try_add(rng, clause);
        }
    }
    let mut written = Vec::new();
    let mut budget = 120;
    let base: Vec<Vec<i64>> = writer.list.clone();
    if refute(rng, &base, &mut Vec::new(), &mut budget, &mut written) {
        let deleting = rng.chance(1, 2);
        for clause in written {
            let parent = clause.clone();
            writer.add(rng, clause);
            if rng.chance(1, 12) {
                writer.add(rng, parent.clone());
            }
            if deleting {
                // What the new clause makes needless may go.
                let last = writer.list.len() - 1;
                for place in (0..last).rev() {
                    if subsumes(&parent, &writer.list[place]) && rng.chance(1, 2) {
                        writer.delete(rng, place);
                    }
                }
            }
            if rng.chance(1, 16) {
                let clause = random_clause(rng, &copies, 3);
                writer.try_add(rng, clause);
            }
        }
        if rng.chance(1, 8) {
            // After the empty clause everything is implied.
            let clause = random_clause(rng, &copies, 3);
            writer.add(rng, clause);
            let place = rng.below(writer.list.len());
            if !writer.list[place].is_empty() {
                writer.delete(rng, place);
            }
        }
    }
    Certificate { mapping, hints, expansions, steps: writer.steps }
}

// ---------------------------------------------------------------- damage

const ODD: &[&str] = &[
    "-0",
    "+3",
    "07",
    "00",
    "-",
    "--1",
    "1-",
    "1.0",
    "x",
    "o",
    "e",
    "a",
    "d",
    "p",
    "cnf",
    "c",
    "C",
    "E",
    "0",
    "-01",
    "1c",
    "0x1",
    "4096",
    "4097",
    "8192",
    "8193",
    "16384",
    "16385",
    "-16384",
    "-16385",
    "65536",
    "2147483647",
    "2147483648",
    "-2147483648",
    "4294967296",
    "4294967297",
    "-4294967297",
    "9223372036854775808",
    "18446744073709551616",
    "18446744073709551617",
    "100000000000000000000000000001",
    "-100000000000000000000000000001",
    "340282366920938463463374607431768211457",
    "000000000000000000000000000001",
    "1\u{b}2",
    "1\u{c}",
    "\u{0}",
    "1\u{0}",
];

pub(crate) fn is_number(token: &str) -> bool {
    token.parse::<i64>().is_ok()
}

pub(crate) fn with_head(file: &[Line], heads: &[&str]) -> Vec<usize> {
    (0..file.len()).filter(|i| heads.contains(&file[*i].first().map_or("", |t| t.as_str()))).collect()
}

pub(crate) fn clause_lines(file: &[Line]) -> Vec<usize> {
    (0..file.len()).filter(|i| file[*i].first().is_some_and(|t| is_number(t))).collect()
}

/// A place in a line between its head and its end.
pub(crate) fn number_place(rng: &mut Rng, line: &Line) -> Option<usize> {
    let places: Vec<usize> = (0..line.len()).filter(|i| is_number(&line[*i]) && line[*i] != "0").collect();
    (!places.is_empty()).then(|| *rng.pick(&places))
}

pub(crate) fn damage_tokens(rng: &mut Rng, file: &mut Vec<Line>) {
    if file.is_empty() {
        file.push(vec!["0".into()]);
        return;
    }
    let at = rng.below(file.len());
    let place = rng.below(file[at].len());
    match rng.below(9) {
        0 => file[at][place] = rng.pick(ODD).to_string(),
        1 => file[at].insert(place, rng.pick(ODD).to_string()),
        2 => {
            file[at].remove(place);
            if file[at].is_empty() {
                file.remove(at);
            }
        }
        3 => {
            let token = file[at][place].clone();
            file[at].insert(place, token);
        }
        4 => {
            let other = rng.below(file[at].len());
            file[at].swap(place, other);
        }
        5 => {
            let other = rng.below(file.len());
            if let Some(token) = file[other].first().cloned() {
                file[at][place] = token;
            }
        }
        6 => file[at].push(rng.pick(&["0", "1", "-1", "c", "2"]).to_string()),
        _ => {
            if let Some(place) = number_place(rng, &file[at]) {
                let value: i128 = file[at][place].parse().unwrap();
                let other = match rng.below(5) {
                    0 => -value,
                    1 => value + 1,
                    2 => value - 1,
                    3 => value.signum() * rng.between(1, 20) as i128,
                    _ => value * 1000,
                };
                file[at][place] = other.to_string();
            }
        }
    }
}

pub(crate) fn damage_lines(rng: &mut Rng, file: &mut Vec<Line>) {
    if file.is_empty() {
        return;
    }
    let at = rng.below(file.len());
    let other = rng.below(file.len());
    match rng.below(6) {
        0 => {
            file.remove(at);
        }
        1 => {
            let line = file[at].clone();
            file.insert(other, line);
        }
        2 => file.swap(at, other),
        3 => {
            let line = file.remove(at);
            file.insert(other.min(file.len()), line);
        }
        4 => file.truncate(at),
        _ => {
            let text =
                *rng.pick(&["x 0 0 0", "o 0", "e 0", "d 0", "0", "p cnf 1 1", "a 1 0", "o 1 0", "d 1 0", "1 0", "x 0 0 0 0"]);
            file.insert(at, text.split(' ').map(|t| t.to_string()).collect());
        }
    }
}

pub(crate) fn damage_bytes(rng: &mut Rng, bytes: &mut Vec<u8>) {
    for _ in 0..1 + rng.below(2) {
        let at = rng.below(bytes.len() + 1);
        let new = match rng.below(3) {
            0 => *rng.pick(&[0u8, 9, 10, 11, 12, 13, 32, 127, 128, 160, 255]),
            1 => *rng.pick(b"0123456789-+caexodpCNF."),
            _ => rng.next() as u8,
        };
        match rng.below(4) {
            0 if at < bytes.len() => bytes[at] = new,
            1 if at < bytes.len() => {
                bytes.remove(at);
            }
            2 if rng.chance(1, 3) => bytes.truncate(at),
            _ => bytes.insert(at, new),
        }
    }
}

/// Damage aimed at one number. `None` if the files offer no place for it.
pub(crate) fn aim(rng: &mut Rng, number: usize, formula: &mut Vec<Line>, certificate: &mut Vec<Line>) -> Option<()> {
    let e_lines = with_head(certificate, &["e"]);
    let x_lines = with_head(certificate, &["x"]);
    let o_lines = with_head(certificate, &["o"]);
    let d_lines = with_head(certificate, &["d"]);
    let steps = clause_lines(certificate);
    let prefix = with_head(formula, &["a", "e"]);
    let clauses = clause_lines(formula);
    let v: i64 = formula[0][2].parse().ok()?;
    let c: i64 = formula[0][3].parse().ok()?;
    match number {
        2 => match rng.below(2) {
            0 => damage_tokens(rng, certificate),
            _ => damage_tokens(rng, formula),
        },
        3 => match rng.below(9) {
            0 => formula[0][2] = rng.pick(&["4096", "4097", "99999999999999999999", "4294967298"]).to_string(),
            1 => formula[0][3] = rng.pick(&["8192", "8193", "4294967297", "123456789012345678901234567890"]).to_string(),
            2 => {
                let list = [prefix, clauses].concat();
                if list.is_empty() {
                    return None;
                }
                let at = rng.one(&list);
                let place = number_place(rng, &formula[at])?;
                formula[at][place] = (v + rng.between(0, 1)).to_string();
            }
            3 if !o_lines.is_empty() => {
                let at = o_lines[0];
                let place = number_place(rng, &certificate[at])?;
                certificate[at][place] = (c + rng.between(0, 1)).to_string();
            }
            4 | 5 if !x_lines.is_empty() => {
                let at = *rng.pick(&x_lines);
                let place = number_place(rng, &certificate[at])?;
                certificate[at][place] =
                    (*rng.pick(&[v, v + 1, 4096, 4097, 16_384, 16_385, -v, -v - 1, -4_294_967_297])).to_string();
            }
            _ => {
                let list = [e_lines, steps, d_lines].concat();
                if list.is_empty() {
                    return None;
                }
                let at = *rng.pick(&list);
                let place = number_place(rng, &certificate[at])?;
                certificate[at][place] =
                    (*rng.pick(&[16_384i64, 16_385, -16_384, -16_385, 4_294_967_297, -4_294_967_297])).to_string();
            }
        },
        4 => {
            if prefix.is_empty() {
                return None;
            }
            let from = *rng.pick(&prefix);
            let place = number_place(rng, &formula[from])?;
            let token = formula[from][place].clone();
            let to = *rng.pick(&prefix);
            if rng.chance(1, 4) {
                formula.insert(to + 1, vec![rng.pick(&["a", "e"]).to_string(), token, "0".into()]);
            } else {
                let place = 1 + rng.below(formula[to].len() - 1);
                formula[to].insert(place, token);
            }
        }
        5 => {
            if prefix.is_empty() || clauses.is_empty() {
                return None;
            }
            let at = *rng.pick(&prefix);
            if formula[at].len() == 3 {
                formula.remove(at);
            } else {
                let place = number_place(rng, &formula[at])?;
                formula[at].remove(place);
            }
        }
        6 => match rng.below(4) {
            0 => formula[0][3] = (c + 1).to_string(),
            1 if c > 0 => formula[0][3] = (c - 1).to_string(),
            2 if !clauses.is_empty() => {
                formula.remove(*rng.pick(&clauses));
            }
            _ => {
                let line = if clauses.is_empty() { vec!["0".to_string()] } else { formula[*rng.pick(&clauses)].clone() };
                formula.push(line);
            }
        },
        7 => {
            if x_lines.is_empty() {
                return None;
            }
            let from = *rng.pick(&x_lines);
            if rng.chance(1, 3) {
                let line = certificate[from].clone();
                certificate.insert(*rng.pick(&x_lines), line);
            } else {
                let zero = certificate[from].iter().position(|t| t == "0")?;
                let second = zero + 1;
                if zero == 1 {
                    return None;
                }
                let (copy, existential) = (certificate[from][1].clone(), certificate[from][second].clone());
                let to = *rng.pick(&x_lines);
                let zero = certificate[to].iter().position(|t| t == "0")?;
                certificate[to].insert(zero + 1, existential);
                certificate[to].insert(1, copy);
            }
        }
        8 => {
            if x_lines.is_empty() {
                return None;
            }
            let at = *rng.pick(&x_lines);
            let zeros: Vec<usize> = (0..certificate[at].len()).filter(|i| certificate[at][*i] == "0").collect();
            if zeros.len() < 3 {
                return None;
            }
            let any = rng.between(1, v.max(1));
            match rng.below(4) {
                0 if zeros[0] > 1 => certificate[at][zeros[0] + 1] = any.to_string(),
                1 if zeros[2] > zeros[1] + 1 => {
                    let token = certificate[at][zeros[1] + 1].clone();
                    let again = if rng.chance(1, 2) { token } else { (-token.parse::<i64>().ok()?).to_string() };
                    certificate[at].insert(zeros[2], again);
                }
                _ => {
                    let literal = rng.sign(any).to_string();
                    certificate[at].insert(zeros[2], literal);
                }
            }
        }
        9 => {
            if x_lines.is_empty() || e_lines.is_empty() {
                return None;
            }
            if rng.chance(1, 2) {
                certificate.remove(*rng.pick(&x_lines));
            } else {
                let at = *rng.pick(&e_lines);
                let place = 1 + rng.below(certificate[at].len() - 1);
                let copy = rng.between(1, 60);
                certificate[at].insert(place, rng.sign(copy).to_string());
            }
        }
        10 => {
            if o_lines.is_empty() {
                let at = e_lines.first().copied().or(steps.first().copied()).unwrap_or(certificate.len());
                let count = (e_lines.len() + rng.below(4)).saturating_sub(2);
                let list: Vec<i64> = (0..count).map(|_| rng.between(1, c.max(1))).collect();
                certificate.insert(at, numbers("o", &list));
            } else {
                let at = o_lines[0];
                match rng.below(4) {
                    0 if certificate[at].len() > 2 => {
                        let last = certificate[at].len() - 1;
                        certificate[at].remove(last - 1);
                    }
                    1 if !e_lines.is_empty() => {
                        certificate.remove(*e_lines.last()?);
                    }
                    2 if !e_lines.is_empty() && certificate.len() > e_lines[e_lines.len() - 1] + 1 => {
                        // Left over at the end of the file.
                        certificate.truncate(e_lines[rng.below(e_lines.len())]);
                    }
                    _ => certificate[at].insert(1, rng.between(1, c.max(1)).to_string()),
                }
            }
        }
        11 => {
            let flip = |token: &str| match token.strip_prefix('-') {
                Some(rest) => rest.to_string(),
                None => format!("-{token}"),
            };
            match rng.below(5) {
                0 if !o_lines.is_empty() => {
                    let place = number_place(rng, &certificate[o_lines[0]])?;
                    certificate[o_lines[0]][place] = rng.between(1, c.max(1)).to_string();
                }
                1 if !x_lines.is_empty() => {
                    let at = *rng.pick(&x_lines);
                    let last = certificate[at].len() - 2;
                    if certificate[at][last] == "0" {
                        return None;
                    }
                    if rng.chance(1, 2) {
                        certificate[at][last] = flip(&certificate[at][last].clone());
                    } else {
                        certificate[at].remove(last);
                    }
                }
                _ => {
                    if e_lines.is_empty() {
                        return None;
                    }
                    let at = *rng.pick(&e_lines);
                    let place = number_place(rng, &certificate[at])?;
                    match rng.below(3) {
                        0 => certificate[at][place] = flip(&certificate[at][place].clone()),
                        1 => {
                            certificate[at].remove(place);
                        }
                        _ => {
                            let from = *rng.pick(&e_lines);
                            let other = number_place(rng, &certificate[from])?;
                            let token = certificate[from][other].clone();
                            certificate[at].insert(1, token);
                        }
                    }
                }
            }
        }
        12 => match rng.below(6) {
            4 if steps.len() > 2 => {
                // All steps but the last are left out.
                let last = *steps.last()?;
                certificate.drain(steps[0]..last);
            }
            5 if !e_lines.is_empty() && o_lines.is_empty() => {
                // Too few expansions, and then the same steps.
                for _ in 0..1 + e_lines.len() / 3 {
                    certificate.remove(e_lines[0]);
                }
            }
            0 if !e_lines.is_empty() && o_lines.is_empty() => {
                certificate.remove(*rng.pick(&e_lines));
            }
            1 if steps.len() > 1 => {
                certificate.remove(*rng.pick(&steps[..steps.len() - 1]));
            }
            2 if steps.len() > 1 => {
                // Another first literal.
                let at = *rng.pick(&steps);
                if certificate[at].len() > 2 {
                    let place = rng.below(certificate[at].len() - 1);
                    certificate[at].swap(0, place);
                }
            }
            _ => {
                let copies: Vec<i64> = certificate
                    .iter()
                    .filter(|line| line[0] != "o" && line[0] != "x")
                    .flatten()
                    .filter_map(|t| t.parse::<i64>().ok())
                    .filter(|n| *n != 0)
                    .map(|n| n.abs())
                    .collect();
                let first = steps.first().or(d_lines.first()).copied().unwrap_or(certificate.len());
                let at = first + if rng.chance(1, 2) { 0 } else { rng.below(certificate.len() - first + 1) };
                for _ in 0..1 + rng.below(3) {
                    certificate.insert(at, numbers("", &random_clause(rng, &copies, 2)));
                }
            }
        },
        13 => {
            let first = steps.first().or(d_lines.first()).copied().unwrap_or(certificate.len());
            if !d_lines.is_empty() && rng.chance(1, 3) {
                let line = certificate[*rng.pick(&d_lines)].clone();
                certificate.push(line);
            } else {
                let list = [e_lines, steps].concat();
                let at = first + rng.below(certificate.len() - first + 1);
                if list.is_empty() {
                    certificate.push(numbers("d", &[1]));
                } else {
                    let mut line = certificate[*rng.pick(&list)].clone();
                    if line[0] == "e" {
                        line.remove(0);
                    }
                    match rng.below(3) {
                        0 if line.len() > 1 => {
                            line.remove(0);
                        }
                        1 => line.insert(0, "9".into()),
                        _ => {}
                    }
                    line.insert(0, "d".into());
                    certificate.insert(at, line);
                }
            }
        }
        14 => match rng.below(3) {
            0 => {
                let last = *steps.last()?;
                certificate.remove(last);
            }
            1 => certificate.push(numbers("d", &[])),
            _ => {
                if certificate.is_empty() {
                    return None;
                }
                let at = steps.first().copied().unwrap_or(0);
                let keep = at + rng.below(certificate.len() - at);
                certificate.truncate(keep);
            }
        },
        _ => return None,
    }
    Some(())
}

/// Two faults in one line, for the order of refusals within a line.
pub(crate) fn twofold(rng: &mut Rng, formula: &mut Vec<Line>, certificate: &mut Vec<Line>) -> Option<()> {
    let e_lines = with_head(certificate, &["e"]);
    let x_lines = with_head(certificate, &["x"]);
    let o_lines = with_head(certificate, &["o"]);
    let v: i64 = formula[0][2].parse().ok()?;
    let c: i64 = formula[0][3].parse().ok()?;
    match rng.below(8) {
        0 | 6 | 7 => {
            // 7 and 8, perhaps with 3.
            if x_lines.is_empty() {
                return None;
            }
            let at = rng.one(&x_lines);
            let zeros: Vec<usize> = (0..certificate[at].len()).filter(|i| certificate[at][*i] == "0").collect();
            if zeros.len() != 3 || zeros[0] == 1 {
                return None;
            }
            let most = v + i64::from(rng.chance(1, 4));
            let literal = rng.between(1, most);
            certificate[at].insert(zeros[2], rng.sign(literal).to_string());
            if rng.chance(1, 2) {
                // A universal for E, if there is one.
                let universals = with_head(formula, &["a"]);
                let any = rng.between(1, v);
                certificate[at][zeros[0] + 1] = match universals.first() {
                    Some(line) => formula[*line][1].clone(),
                    None => any.to_string(),
                };
            }
            let existential = certificate[at][zeros[0] + 1].clone();
            certificate[at].insert(zeros[0] + 1, existential);
            let copy = certificate[at][1].clone();
            certificate[at].insert(1, copy);
        }
        1 | 2 => {
            // 10 with 9, 10 with 11, perhaps with 3.
            if e_lines.is_empty() {
                return None;
            }
            let which = rng.below(e_lines.len());
            let at = e_lines[which];
            if rng.chance(1, 2) {
                let copy = rng.one(&[rng.clone().between(1, 90), 16_384, 16_385]);
                certificate[at].insert(1, rng.sign(copy).to_string());
            } else {
                let place = number_place(rng, &certificate[at])?;
                certificate[at].remove(place);
            }
            match o_lines.first() {
                Some(o) => {
                    certificate[*o].truncate(1 + which);
                    certificate[*o].push("0".into());
                }
                None => certificate.insert(e_lines[0], numbers("o", &vec![c.max(1); which])),
            }
        }
        3 => {
            // 6 with 5, with 3, with 2.
            let literal = v + rng.between(0, 1);
            if rng.chance(2, 3) {
                formula[0][2] = (v + 1).to_string();
            }
            formula.push(numbers("", &[rng.sign(literal + 1)]));
            if rng.chance(1, 6) {
                formula.last_mut()?.pop();
            }
        }
        4 => {
            // Lists of unequal length, perhaps with 3 or 7.
            if x_lines.is_empty() {
                return None;
            }
            let at = rng.one(&x_lines);
            let zero = certificate[at].iter().position(|t| t == "0")?;
            let place = rng.one(&[1, zero + 1]);
            let number = rng.one(&[1, v, v + 1, 16_384, 16_385, 7]);
            certificate[at].insert(place, number.to_string());
        }
        _ => {
            // Hints left over, and a bad line behind the `e` lines.
            let first = e_lines.first().copied().unwrap_or(certificate.len());
            match o_lines.first() {
                Some(o) => certificate[*o].insert(1, c.max(1).to_string()),
                None => certificate.insert(first, numbers("o", &vec![c.max(1); e_lines.len() + 1])),
            }
            let behind = with_head(certificate, &["e", "o"]).last().copied()? + 1;
            let text = rng.one(&["d 77 0", "77 -78 0", "0", "16385 0", "d 16385 0", "16384 0", "d 0", "x 0 0 0", "o 0", "1 0 0", "c"]);
            certificate.insert(behind, text.split(' ').map(|t| t.to_string()).collect());
        }
    }
    Some(())
}

/// Files at their limit: padding before, behind or between.
fn pad(rng: &mut Rng, bytes: &mut Vec<u8>) {
    let target = FILE_LIMIT + *rng.pick(&[0, 0, 1, 1, 2]);
    if bytes.len() >= target {
        return;
    }
    let missing = target - bytes.len();
    let fill = *rng.pick(&[32u8, 10, 10, 9, 13, b'c', b'c', b'0', 0]);
    let filling = vec![fill; missing];
    if rng.chance(1, 3) {
        bytes.splice(0..0, filling);
    } else {
        bytes.extend(filling);
    }
}

/// One of the files at its limit, or both.
pub(crate) fn pad_one(rng: &mut Rng, formula: &mut Vec<u8>, certificate: &mut Vec<u8>) {
    let which = rng.below(5);
    if which < 3 {
        pad(rng, formula);
    }
    if which > 1 {
        pad(rng, certificate);
    }
}

/// Forms at the limits that no random formula reaches.
fn limit_case(rng: &mut Rng) -> (Vec<u8>, Vec<u8>) {
    let mut formula = String::new();
    let mut certificate = String::new();
    match rng.below(7) {
        0 => {
            // V at its limit, with a prefix of all variables.
            let v = 4_096;
            formula.push_str(&format!("p cnf {v} 2\na"));
            for variable in 1..v {
                formula.push_str(&format!(" {variable}"));
            }
            formula.push_str(&format!(" 0\ne {v} 0\n1 {v} 0\n1 -{v} 0\n"));
            let mut annotation = String::new();
            if rng.chance(3, 4) {
                annotation.push_str(" -1");
            }
            if rng.chance(1, 2) {
                annotation.push_str(" 4095");
            }
            if rng.chance(1, 4) {
                annotation.push_str(rng.one(&[" 4096", " 4097", " 4095"]));
            }
            let copy = rng.one(&["1", "16384", "16385"]);
            certificate.push_str(&format!("x {copy} 0 {v} 0{annotation} 0\ne {copy} 0\ne -{copy} 0\n0\n"));
        }
        1 => {
            // C at its limit.
            let count = 8_192 + rng.between(-1, 1);
            formula.push_str(&format!("p cnf 1 {}\ne 1 0\n", 8_192 + rng.between(-1, 1).min(0)));
            for n in 0..count {
                formula.push_str(if n % 3 == 0 { "1 0\n" } else { "-1 0\n" });
            }
            let last = rng.one(&["8191", "8192", "8193"]);
            certificate.push_str(&format!("x 1 0 1 0 0\no 1 {last} 0\ne 1 0\ne -1 0\n0\n"));
        }
        2 => {
            // Many copies, and one line that maps them all.
            let count = rng.between(2, 900);
            formula.push_str("p cnf 2 2\ne 1 0\na 2 0\n1 0\n-1 0\n");
            certificate.push('x');
            for copy in 0..count {
                certificate.push_str(&format!(" {}", 16_384 - copy));
            }
            certificate.push_str(" 0");
            for _ in 0..count {
                certificate.push_str(" 1");
            }
            certificate.push_str(" 0 0\ne");
            for copy in 0..count {
                certificate.push_str(&format!(" {}", 16_384 - copy));
            }
            certificate.push_str(" 0\n");
            for copy in 0..count {
                certificate.push_str(&format!("e -{} 0\n", 16_384 - copy));
            }
            certificate.push_str("0\n");
        }
        3 => {
            // A chain of units, written against its order.
            let length = rng.between(2, 400);
            formula.push_str(&format!("p cnf {length} {}\ne", length + 1));
            for variable in 1..=length {
                formula.push_str(&format!(" {variable}"));
            }
            formula.push_str(" 0\n");
            certificate.push('x');
            for _ in 0..2 {
                for variable in 1..=length {
                    certificate.push_str(&format!(" {variable}"));
                }
                certificate.push_str(" 0");
            }
            certificate.push_str(" 0\n");
            let mut clauses = vec![format!("-{length} 0\n"), "1 0\n".to_string()];
            for variable in (1..length).rev() {
                clauses.push(format!("-{variable} {} 0\n", variable + 1));
            }
            for clause in clauses {
                formula.push_str(&clause);
                certificate.push_str("e ");
                certificate.push_str(&clause);
            }
            certificate.push_str(rng.one(&["0\n", "0", "d 1 0\n0\n", "d 1 0\n1 0\n0\n", "-1 0\n1 0\n0\n"]));
        }
        4 => {
            // Many equal clauses, some of them taken back.
            let count = rng.between(1, 60);
            formula.push_str("p cnf 0 0\n");
            for _ in 0..count {
                certificate.push_str(rng.one(&["5 6 0\n", "6 5 0\n", "5 5 6 0\n"]));
            }
            for _ in 0..rng.between(0, count + 1) {
                certificate.push_str(rng.one(&["d 6 5 0\n", "d 5 6 0\n", "d 6 6 5 6 0\n"]));
            }
            certificate.push_str(rng.one(&["-5 0\n", "-6 -5 0\n", "5 0\n", "d 5 0\n"]));
            certificate.push_str(rng.one(&["-6 0\n", "5 0\n", "0\n", "-5 6 0\n"]));
        }
        5 => {
            // Small unconstrained DRAT play over few copies: RAT and 12.
            formula.push_str("p cnf 0 0\n");
            for _ in 0..rng.between(2, 14) {
                let mut clause = random_clause(rng, &[1, 2, 3, 4], 3);
                if rng.chance(1, 12) {
                    clause.clear();
                }
                let head = if rng.chance(1, 7) { "d" } else { "" };
                certificate.push_str(&numbers(head, &clause).join(" "));
                certificate.push('\n');
            }
        }
        _ => {
            // Nothing, next to nothing, and files of skipped lines.
            formula.push_str(rng.one(&[
                "",
                "\n",
                "c",
                "c x\n \t\r\n",
                "p cnf 0 0",
                "p cnf 0 0\r\n",
                "p cnf 0 1\n0",
                "\n\np cnf 0 1\n0\n",
                "p cnf 1 0\n",
                "p cnf 0 2\n0\n",
                "0\n",
                "e 1 0\n",
                "c\n\n1 0",
                "p cnf 1 1\ne 1 0\n0\n0\n",
            ]));
            certificate.push_str(rng.one(&[
                "",
                "0",
                "e 0",
                "e 0\nd 0\n0\n",
                "o 0\n",
                "o 1 0\n",
                "o 1 0\ne 0\n",
                "o 1 0\n\nc\nd 0\n",
                "o 0\ne 0\n",
                "x 0 0 0\ne 0\n",
                "x 0 0 0\nx 0 0 0\no 1 0\ne 0\n0\n0\nd 0",
                "\n\n\n5 0\n",
                "e 1 0\n",
                "d 0\n",
                "1 -1 0\n0\n",
            ]));
        }
    }
    (formula.into_bytes(), certificate.into_bytes())
}

// ----------------------------------------------------------------- cases

pub(crate) fn lengths_for(rng: &mut Rng, kind: Kind, formula: &[u8], certificate: &[u8], tight: bool) -> [usize; 6] {
    let needs = kind.check(formula, certificate, reference::ENDLESS).needs;
    let mut lengths = needs.map(|need| need + 64);
    if !tight {
        return match rng.below(3) {
            0 => [16_384; 6],
            1 => lengths,
            _ => needs,
        };
    }
    match rng.below(7) {
        0 => {
            // One table, near its need.
            let table = rng.below(6);
            lengths[table] = (needs[table] + rng.below(3)).saturating_sub(rng.below(3));
        }
        1 | 5 | 6 => {
            // One table, one short: full at the last line that raised its need.
            let used: Vec<usize> = (0..6).filter(|table| needs[*table] > 0).collect();
            lengths = needs;
            if !used.is_empty() {
                lengths[rng.one(&used)] -= 1;
            }
        }
        2 => {
            // One table, anything up to its need.
            let table = rng.below(6);
            lengths[table] = rng.below(needs[table] + 2);
        }
        3 => {
            for table in 0..6 {
                lengths[table] = (needs[table] + rng.below(3)).saturating_sub(rng.below(2));
            }
        }
        _ => {
            for table in 0..6 {
                lengths[table] = rng.below(2 * needs[table] + 2);
            }
        }
    }
    lengths
}

/// The case of this seed and index.
pub fn case(seed: u64, index: u64) -> Case {
    let rng = &mut Rng::of_case(seed, index);
    if rng.chance(1, 14) {
        let (mut formula, mut certificate) = limit_case(rng);
        if rng.chance(1, 6) {
            damage_bytes(rng, &mut formula);
        }
        if rng.chance(1, 6) {
            damage_bytes(rng, &mut certificate);
        }
        let tight = rng.chance(1, 5);
        let lengths = lengths_for(rng, Kind::Ferat, &formula, &certificate, tight);
        return Case { kind: Kind::Ferat, damage: "limit", formula, certificate, lengths };
    }

    let qbf = mostly_false(rng);
    let certificate = right_certificate(rng, &qbf);
    let mut formula_lines = qbf.lines();
    let mut certificate_lines = certificate.lines();

    let mut damage = "right";
    let mut tight = false;
    let mut padded = false;
    let mut bytes = false;
    match rng.below(28) {
        0..=2 => {}
        3 => padded = rng.chance(2, 3),
        4 | 5 => tight = true,
        6 => {
            damage = "lines";
            damage_lines(rng, &mut certificate_lines);
        }
        7 => {
            damage = "formula lines";
            damage_lines(rng, &mut formula_lines);
        }
        8 => {
            damage = "tokens";
            damage_tokens(rng, &mut certificate_lines);
        }
        9 => {
            damage = "formula tokens";
            damage_tokens(rng, &mut formula_lines);
        }
        10 | 11 => bytes = true,
        which => {
            damage = "aimed";
            let number = rng.one(&[2, 3, 3, 4, 5, 6, 7, 7, 8, 8, 9, 10, 10, 11, 12, 12, 12, 12, 13, 14]);
            for _ in 0..4 {
                if aim(rng, number, &mut formula_lines, &mut certificate_lines).is_some() {
                    break;
                }
            }
            tight = rng.chance(1, 10);
            if which == 25 || which == 26 {
                damage = "twofold";
                formula_lines = qbf.lines();
                certificate_lines = certificate.lines();
                for _ in 0..4 {
                    if twofold(rng, &mut formula_lines, &mut certificate_lines).is_some() {
                        break;
                    }
                }
                tight = rng.chance(1, 3);
            }
            if which == 27 {
                // A second damage, for the order of refusals.
                damage = "aimed twice";
                let number = *rng.pick(&[2, 3, 4, 5, 6, 7, 8, 9, 10, 11, 12, 13, 14]);
                if formula_lines.first().is_some_and(|line| line.len() == 4) {
                    aim(rng, number, &mut formula_lines, &mut certificate_lines);
                }
                tight = rng.chance(1, 4);
            }
        }
    }
    let mut formula = render(rng, &formula_lines);
    let mut certificate = render(rng, &certificate_lines);
    if bytes {
        damage = "bytes";
        damage_bytes(rng, if rng.clone().chance(1, 3) { &mut formula } else { &mut certificate });
    }
    if padded {
        damage = "padded";
        pad_one(rng, &mut formula, &mut certificate);
    }
    if tight {
        damage = match damage {
            "right" => "tight",
            "twofold" => "twofold tight",
            _ => "aimed tight",
        };
    }
    let lengths = lengths_for(rng, Kind::Ferat, &formula, &certificate, tight);
    Case { kind: Kind::Ferat, damage, formula, certificate, lengths }
}

/// The tokens of a file's lines; comments and empty lines are left out.
pub(crate) fn tokens(file: &[u8]) -> Vec<Line> {
    let text = String::from_utf8_lossy(file).into_owned();
    let lines = text.lines().map(|line| line.split_whitespace().map(str::to_string).collect::<Line>());
    lines.filter(|line| line.first().is_some_and(|word| !word.starts_with('c'))).collect()
}

/// A right pair, damaged: tokens, lines or bytes of either file.
pub fn damaged(rng: &mut Rng, formula: &[u8], certificate: &[u8]) -> (Vec<u8>, Vec<u8>) {
    let (mut formula_lines, mut certificate_lines) = (tokens(formula), tokens(certificate));
    let mut bytes = false;
    match rng.below(10) {
        0 => damage_tokens(rng, &mut formula_lines),
        1 => damage_lines(rng, &mut formula_lines),
        2 | 3 => damage_tokens(rng, &mut certificate_lines),
        4 | 5 => damage_lines(rng, &mut certificate_lines),
        6 => bytes = true,
        _ => loop {
            let number = 2 + rng.below(13);
            if aim(rng, number, &mut formula_lines, &mut certificate_lines).is_some() {
                break;
            }
        },
    }
    let (mut formula, mut certificate) = (render(rng, &formula_lines), render(rng, &certificate_lines));
    if bytes {
        damage_bytes(rng, if rng.clone().chance(1, 3) { &mut formula } else { &mut certificate });
    }
    (formula, certificate)
}

/// A stored pair with the verdict that is due.
pub struct Stored {
    pub kind: Kind,
    /// That of the certificate's file.
    pub name: String,
    pub formula: Vec<u8>,
    pub certificate: Vec<u8>,
    pub expected: String,
}

impl Stored {
    pub fn files(&self) -> Files<'_> {
        Files { kind: self.kind, formula: &self.formula, certificate: &self.certificate }
    }

    /// The same, damaged.
    pub fn damaged(&self, rng: &mut Rng) -> (Vec<u8>, Vec<u8>) {
        match self.kind {
            Kind::Ferat => damaged(rng, &self.formula, &self.certificate),
            Kind::Ferp => ferp_corpus::damaged(rng, &self.formula, &self.certificate),
        }
    }
}

/// The stored pairs. The file `EXPECTED` has a certificate's name, a blank
/// and a verdict on each line; `NAME.qdimacs` is the formula of `NAME.ferat`
/// and of `NAME.ferp`.
pub fn data(folder: &Path) -> Result<Vec<Stored>, String> {
    let read = |name: &str| std::fs::read(folder.join(name)).map_err(|error| format!("{name}: {error}"));
    let list = String::from_utf8(read("EXPECTED")?).map_err(|error| error.to_string())?;
    let mut pairs = Vec::new();
    for line in list.lines().filter(|line| !line.is_empty() && !line.starts_with('#')) {
        let wrong = || format!("EXPECTED: {line}");
        let (name, expected) = line.split_once(' ').ok_or_else(wrong)?;
        let (stem, ending) = name.rsplit_once('.').ok_or_else(wrong)?;
        let kind = Kind::ALL.into_iter().find(|kind| kind.name() == ending).ok_or_else(wrong)?;
        let formula = read(&format!("{stem}.qdimacs"))?;
        let (name, expected) = (name.to_string(), expected.trim().to_string());
        pairs.push(Stored { kind, certificate: read(&name)?, name, formula, expected });
    }
    Ok(pairs)
}
