//! Pairs of files with a FERP certificate from a fixed seed: right ones, and
//! right ones damaged. `case(seed, index)` is a function of its arguments.

use crate::corpus::{
    self, clause_lines, damage_bytes, damage_lines, damage_tokens, expand, is_number, lengths_for, mapping_for,
    mapping_lines, mostly_false, numbers, pad_one, random_clause, render, tokens, with_head, Case, Expansion,
    Line, Rng,
};
use crate::Kind;
use std::collections::{BTreeMap, BTreeSet};

// ---------------------------------------------------------------- proofs

#[derive(Clone, Copy, Debug)]
enum Reason {
    /// The number of the matrix clause.
    Expansion(usize),
    /// The places of two other steps.
    Resolution(usize, usize),
}

/// A clause and where it comes from.
#[derive(Clone, Debug)]
struct Step {
    literals: Vec<i64>,
    reason: Reason,
}

impl Step {
    fn parents(&self) -> Vec<usize> {
        match self.reason {
            Reason::Expansion(_) => Vec::new(),
            Reason::Resolution(one, other) => vec![one, other],
        }
    }
}

/// The resolvent on the literal that `one` holds and `other` holds negated.
fn resolvent(one: &[i64], other: &[i64], literal: i64) -> Vec<i64> {
    let mut joined: Vec<i64> = Vec::new();
    let kept = one.iter().filter(|l| **l != literal).chain(other.iter().filter(|l| **l != -literal));
    for l in kept {
        if !joined.contains(l) {
            joined.push(*l);
        }
    }
    joined
}

/// A search for the empty clause by decisions.
struct Search {
    steps: Vec<Step>,
    /// The steps that are expansions come first.
    expansions: usize,
    budget: usize,
}

impl Search {
    fn new(expansion: &Expansion, budget: usize) -> Search {
        let step = |(literals, n): &(Vec<i64>, usize)| Step { literals: literals.clone(), reason: Reason::Expansion(*n) };
        let steps: Vec<Step> = expansion.clauses.iter().map(step).collect();
        Search { expansions: steps.len(), steps, budget }
    }

    fn resolve(&mut self, one: usize, other: usize, literal: i64) -> usize {
        let literals = resolvent(&self.steps[one].literals, &self.steps[other].literals, literal);
        self.steps.push(Step { literals, reason: Reason::Resolution(one, other) });
        self.steps.len() - 1
    }

    /// The literals of a step that are not false.
    fn open(&self, place: usize, truth: &BTreeSet<i64>) -> BTreeSet<i64> {
        self.steps[place].literals.iter().copied().filter(|l| !truth.contains(&-*l)).collect()
    }

    /// Propagates over the expansions. At a conflict, the place of a step
    /// whose literals are false by the decisions alone; else what is true.
    fn propagate(&mut self, decisions: &[i64]) -> Result<usize, BTreeSet<i64>> {
        let mut truth: BTreeSet<i64> = decisions.iter().copied().collect();
        let mut trail: Vec<(i64, usize)> = Vec::new();
        loop {
            let before = trail.len();
            for place in 0..self.expansions {
                let open = self.open(place, &truth);
                match (open.first(), open.len()) {
                    (None, _) => return Ok(self.unfold(place, &trail)),
                    (Some(literal), 1) if truth.insert(*literal) => trail.push((*literal, place)),
                    _ => {}
                }
            }
            if trail.len() == before {
                return Err(truth);
            }
        }
    }

    /// Resolves a false clause backward along the trail.
    fn unfold(&mut self, conflict: usize, trail: &[(i64, usize)]) -> usize {
        let mut place = conflict;
        for (literal, reason) in trail.iter().rev() {
            if self.steps[place].literals.contains(&-*literal) {
                place = self.resolve(place, *reason, -*literal);
            }
        }
        place
    }

    /// The place of a step whose literals are false by these decisions.
    fn refute(&mut self, rng: &mut Rng, decisions: &mut Vec<i64>) -> Option<usize> {
        self.budget = self.budget.checked_sub(1)?;
        let truth = match self.propagate(decisions) {
            Ok(place) => return Some(place),
            Err(truth) => truth,
        };
        let unsatisfied = (0..self.expansions).filter(|place| !self.steps[*place].literals.iter().any(|l| truth.contains(l)));
        let choices: Vec<i64> = unsatisfied.flat_map(|place| self.open(place, &truth)).collect();
        if choices.is_empty() {
            return None;
        }
        let choice = rng.one(&choices);
        let mut found = Vec::new();
        for literal in [choice, -choice] {
            decisions.push(literal);
            let place = self.refute(rng, decisions);
            decisions.pop();
            found.push(place?);
            if !self.steps[place?].literals.contains(&-literal) {
                return place;
            }
        }
        Some(self.resolve(found[0], found[1], -choice))
    }

    /// Resolvents that nothing needs: of any two steps that clash, tautologies
    /// and a step with itself among them.
    fn wander(&mut self, rng: &mut Rng, count: usize) {
        for _ in 0..count {
            let (one, other) = (rng.below(self.steps.len()), rng.below(self.steps.len()));
            let clashing: Vec<i64> =
                self.steps[one].literals.iter().copied().filter(|l| self.steps[other].literals.contains(&-*l)).collect();
            if !clashing.is_empty() {
                self.resolve(one, other, rng.one(&clashing));
            }
        }
    }
}

/// The places that this step rests on, and itself.
fn needed(steps: &[Step], last: usize) -> BTreeSet<usize> {
    let mut found = BTreeSet::from([last]);
    let mut open = vec![last];
    while let Some(place) = open.pop() {
        for parent in steps[place].parents() {
            if found.insert(parent) {
                open.push(parent);
            }
        }
    }
    found
}

/// An order of these places in which parents come first: as they are; each
/// expansion directly before its first use; any.
fn schedule(rng: &mut Rng, steps: &[Step], kept: &BTreeSet<usize>) -> Vec<usize> {
    let style = rng.below(4);
    let mut order: Vec<usize> = Vec::new();
    let mut waiting: Vec<usize> = kept.iter().copied().collect();
    if style == 1 {
        waiting.retain(|place| matches!(steps[*place].reason, Reason::Resolution(..)));
        for place in waiting {
            for step in [steps[place].parents(), vec![place]].concat() {
                if !order.contains(&step) {
                    order.push(step);
                }
            }
        }
        return if order.is_empty() { kept.iter().copied().collect() } else { order };
    }
    while style == 2 && !waiting.is_empty() {
        let ready: Vec<usize> =
            (0..waiting.len()).filter(|i| steps[waiting[*i]].parents().iter().all(|parent| order.contains(parent))).collect();
        order.push(waiting.remove(rng.one(&ready)));
    }
    order.extend(waiting);
    order
}

/// As many different indexes: 1, 2, 3; with gaps; anywhere; falling; 1, 2, 3
/// in another order.
fn indexes(rng: &mut Rng, count: usize) -> Vec<i64> {
    let mut list: Vec<i64> = (1..=count as i64).collect();
    match rng.below(6) {
        0 => list.iter_mut().fold(0, |last, index| {
            *index = last + rng.between(1, 40);
            *index
        }),
        1 => {
            let mut used = BTreeSet::from([65_536]);
            while used.len() < count {
                used.insert(rng.between(1, 65_536));
            }
            list = used.into_iter().take(count).collect();
            rng.shuffle(&mut list);
            0
        }
        2 => list.iter_mut().fold(65_537, |last, index| {
            *index = last - 1;
            *index
        }),
        3 => {
            rng.shuffle(&mut list);
            0
        }
        _ => 0,
    };
    list
}

/// Literals in another order, one of them twice.
fn rewritten(rng: &mut Rng, literals: &[i64]) -> Vec<i64> {
    let mut written = literals.to_vec();
    if rng.chance(1, 4) {
        rng.shuffle(&mut written);
    }
    if !written.is_empty() && rng.chance(1, 10) {
        let again = rng.one(&written);
        written.insert(rng.below(written.len() + 1), again);
    }
    written
}

fn clause_line(index: i64, literals: &[i64], reason: &[i64]) -> Line {
    let mut line = vec![index.to_string()];
    line.extend(numbers("", literals));
    line.extend(numbers("", reason));
    line
}

/// The steps of this order as lines.
fn proof_lines(rng: &mut Rng, steps: &[Step], order: &[usize]) -> Vec<Line> {
    let given = indexes(rng, order.len());
    let index: BTreeMap<usize, i64> = order.iter().copied().zip(given).collect();
    let mut lines = Vec::new();
    for place in order {
        let reason = match steps[*place].reason {
            Reason::Expansion(n) => vec![n as i64],
            Reason::Resolution(one, other) if rng.chance(1, 2) => vec![index[&other], index[&one]],
            Reason::Resolution(one, other) => vec![index[&one], index[&other]],
        };
        lines.push(clause_line(index[place], &rewritten(rng, &steps[*place].literals), &reason));
    }
    lines
}

/// A certificate that breaks no rule; it closes if the formula is false and
/// the search came to an end.
fn right_certificate(rng: &mut Rng, qbf: &corpus::Qbf) -> Vec<Line> {
    let mut expansion = expand(rng, qbf);
    if rng.chance(1, 4) {
        rng.shuffle(&mut expansion.clauses);
    }
    let mut file = mapping_lines(&mapping_for(rng, &mut expansion));
    let mut search = Search::new(&expansion, 40);
    let end = search.refute(rng, &mut Vec::new());
    if !search.steps.is_empty() && rng.chance(1, 3) {
        let count = 1 + rng.below(6);
        search.wander(rng, count);
    }
    let kept = match end {
        Some(place) if rng.chance(1, 3) => needed(&search.steps, place),
        _ => (0..search.steps.len()).collect(),
    };
    let order = schedule(rng, &search.steps, &kept);
    file.extend(proof_lines(rng, &search.steps, &order));
    file
}

// ---------------------------------------------------------------- damage

/// The place of the zero behind the literals, if this is a clause line with
/// so many numbers behind it.
fn zero_of(line: &Line, count: usize) -> Option<usize> {
    let zero = line.iter().position(|token| token == "0")?;
    (is_number(&line[0]) && line.len() == zero + count + 2).then_some(zero)
}

fn lines_with(file: &[Line], count: usize) -> Vec<usize> {
    (0..file.len()).filter(|at| zero_of(&file[*at], count).is_some()).collect()
}

/// One of these lines and its zero.
fn pick_line(rng: &mut Rng, file: &[Line], count: usize) -> Option<(usize, usize)> {
    let list = lines_with(file, count);
    let at = *list.get(rng.below(list.len()))?;
    Some((at, zero_of(&file[at], count)?))
}

/// The literals of a clause line.
fn literals_of(line: &Line) -> Vec<i64> {
    line.iter().skip(1).take_while(|token| *token != "0").filter_map(|token| token.parse().ok()).collect()
}

fn flipped(token: &str) -> String {
    match token.strip_prefix('-') {
        Some(rest) => rest.to_string(),
        None => format!("-{token}"),
    }
}

/// A literal dropped, turned, or put in from another line of its kind.
fn damage_literals(rng: &mut Rng, file: &mut [Line], count: usize) -> Option<()> {
    let (at, zero) = pick_line(rng, file, count)?;
    let place = 1 + rng.below(zero - 1);
    match rng.below(4) {
        0 if zero > 1 => {
            file[at].remove(place);
        }
        1 if zero > 1 => file[at][place] = flipped(&file[at][place].clone()),
        2 => {
            let copy = rng.between(1, 60);
            file[at].insert(place.min(zero), rng.sign(copy).to_string());
        }
        _ => {
            let lines = clause_lines(file);
            let other = literals_of(&file[rng.one(&lines)]);
            let literal = *other.get(rng.below(other.len()))?;
            file[at].insert(1, literal.to_string());
        }
    }
    Some(())
}

/// A parent that is another line, a later one, its own or none.
fn damage_parent(rng: &mut Rng, file: &mut [Line]) -> Option<()> {
    let (at, zero) = pick_line(rng, file, 2)?;
    let lines = clause_lines(file);
    let later: Vec<usize> = lines.iter().copied().filter(|other| *other > at).collect();
    let parent = match rng.below(6) {
        0 => file[at][0].clone(),
        1 if !later.is_empty() => file[rng.one(&later)][0].clone(),
        2 => rng.between(1, 65_536).to_string(),
        3 => {
            let parents = [file[at][zero + 1].clone(), file[at][zero + 2].clone()];
            let one = rng.pick(&parents).clone();
            file[at][zero + 1] = one.clone();
            one
        }
        _ => file[rng.one(&lines)][0].clone(),
    };
    let place = zero + 1 + rng.below(2);
    file[at][place] = parent;
    Some(())
}

/// The line of this index.
fn line_of(file: &[Line], index: &str) -> Option<usize> {
    clause_lines(file).into_iter().find(|at| file[*at][0] == index)
}

/// A clause that is nearly the resolvent: all literals of both parents, some
/// copies taken out.
fn damage_resolvent(rng: &mut Rng, file: &mut [Line]) -> Option<()> {
    let (at, zero) = pick_line(rng, file, 2)?;
    let parents = [line_of(file, &file[at][zero + 1])?, line_of(file, &file[at][zero + 2])?];
    let mut joined: Vec<i64> = parents.iter().flat_map(|parent| literals_of(&file[*parent])).collect();
    let clashing: Vec<i64> = joined.iter().copied().filter(|l| joined.contains(&-*l)).collect();
    let copy = clashing.get(rng.below(clashing.len())).copied().unwrap_or(0);
    match rng.below(5) {
        0 => joined.retain(|l| *l != copy),
        1 => joined.retain(|l| !clashing.contains(l)),
        2 => joined.retain(|l| l.abs() != copy.abs()),
        3 => joined = literals_of(&file[rng.one(&parents)]),
        _ => {}
    }
    let reason: Vec<i64> = file[at][zero + 1..zero + 3].iter().filter_map(|token| token.parse().ok()).collect();
    file[at] = clause_line(file[at][0].parse().ok()?, &joined, &reason);
    Some(())
}

/// 16: no such parent, or no resolvent.
fn aim_parent(rng: &mut Rng, file: &mut Vec<Line>) -> Option<()> {
    match rng.below(10) {
        0..=2 => damage_parent(rng, file),
        3 | 4 => damage_literals(rng, file, 2),
        5..=7 => damage_resolvent(rng, file),
        8 => {
            // Before its parents.
            let (at, _) = pick_line(rng, file, 2)?;
            let line = file.remove(at);
            let first = *clause_lines(file).first()?;
            file.insert(first + rng.below(at + 1 - first), line);
            Some(())
        }
        _ => {
            // A parent's line is gone.
            let (at, zero) = pick_line(rng, file, 2)?;
            let parent = line_of(file, &file[at][zero + 1 + rng.below(2)])?;
            file.remove(parent);
            Some(())
        }
    }
}

/// 17: an index of an earlier line, with or without another fault.
fn aim_used(rng: &mut Rng, file: &mut Vec<Line>) -> Option<()> {
    let lines = clause_lines(file);
    if lines.len() < 2 {
        return None;
    }
    let (one, other) = (rng.one(&lines), rng.one(&lines));
    match rng.below(3) {
        0 => {
            let line = file[one].clone();
            file.insert(other + rng.below(2), line);
        }
        1 => {
            let line = file[one].clone();
            file.push(line);
        }
        _ => file[one.max(other)][0] = file[one.min(other)][0].clone(),
    }
    Some(())
}

/// 11: another number, another literal, another annotation.
fn aim_expansion(rng: &mut Rng, c: i64, file: &mut [Line]) -> Option<()> {
    match rng.below(5) {
        0 | 1 => {
            let (at, zero) = pick_line(rng, file, 1)?;
            let n: i64 = file[at][zero + 1].parse().ok()?;
            let any = rng.between(1, c.max(1));
            let other = rng.one(&[n + 1, n - 1, any]).clamp(1, c.max(1));
            file[at][zero + 1] = other.to_string();
        }
        2 | 3 => {
            let mapping = with_head(file, &["x"]);
            let at = *mapping.get(rng.below(mapping.len()))?;
            let last = file[at].len() - 2;
            if file[at][last] == "0" {
                return None;
            }
            let literal = file[at].remove(last);
            if rng.chance(1, 3) {
                file[at].insert(last, flipped(&literal));
            }
        }
        _ => damage_literals(rng, file, 1)?,
    }
    Some(())
}

/// 9: an expansion with an unmapped copy.
fn aim_unmapped(rng: &mut Rng, file: &mut Vec<Line>) -> Option<()> {
    let mapping = with_head(file, &["x"]);
    if !mapping.is_empty() && rng.chance(1, 2) {
        file.remove(rng.one(&mapping));
        return Some(());
    }
    let count = 1 + rng.below(6) / 5;
    let (at, zero) = pick_line(rng, file, count)?;
    let copy = rng.between(1, 90);
    let place = 1 + rng.below(zero);
    file[at].insert(place, rng.sign(copy).to_string());
    Some(())
}

/// 3: an index, a copy, a number or a parent at its limit or above.
fn aim_range(rng: &mut Rng, c: i64, file: &mut [Line]) -> Option<()> {
    let count = 1 + rng.below(2);
    let (at, zero) = pick_line(rng, file, count)?;
    let beyond = rng.one(&[65_536i64, 65_537, 65_537, 65_538, 131_072, 4_294_967_297]);
    let (place, number) = match rng.below(3) {
        0 => (0, beyond),
        1 if zero > 1 => {
            let copy = rng.one(&[16_384i64, 16_385, 16_385, 65_537, 4_294_967_297]);
            (1 + rng.below(zero - 1), rng.sign(copy))
        }
        _ if count == 1 => (zero + 1, c + rng.between(0, 1)),
        _ => (zero + 1 + rng.below(2), beyond),
    };
    file[at][place] = number.to_string();
    Some(())
}

/// 8: a mapping line with one more pair, of any variable, or with no pair and
/// any annotation.
fn aim_annotation(rng: &mut Rng, v: i64, file: &mut Vec<Line>) -> Option<()> {
    if rng.chance(1, 3) {
        let annotation: Vec<i64> = (0..1 + rng.below(2)).map(|_| rng.between(1, v.max(1))).collect();
        file.splice(0..0, mapping_lines(&[(vec![], vec![], annotation)]));
        return Some(());
    }
    let mapping = with_head(file, &["x"]);
    let at = *mapping.get(rng.below(mapping.len()))?;
    let zero = file[at].iter().position(|token| token == "0")?;
    file[at].insert(zero + 1, rng.between(1, v.max(1)).to_string());
    file[at].insert(1, rng.between(9_000, 9_999).to_string());
    Some(())
}

/// 2: another count of numbers, zeros, lines of FERAT, lines out of sequence.
fn aim_form(rng: &mut Rng, file: &mut Vec<Line>) -> Option<()> {
    let count = 1 + rng.below(2);
    let (at, zero) = pick_line(rng, file, count)?;
    match rng.below(9) {
        0 => {
            file[at].drain(zero + 1..zero + 1 + count);
        }
        1 => {
            let more = rng.one(&["0", "-1", "1", "1", "2", "-0", "c", "65537"]);
            file[at].insert(zero + 1 + rng.below(count + 2), more.to_string());
        }
        8 => {
            let lines = clause_lines(file);
            let index = file[rng.one(&lines)][0].clone();
            file[at].insert(zero + 1 + count, index);
        }
        2 => {
            file[at].pop();
        }
        3 => file[at][0] = rng.one(&["0", "-1", "00", "e", "d", "o", "a", "01", "x"]).to_string(),
        4 => {
            file[at].remove(0);
        }
        5 => {
            let text = rng.one(&["o 0", "o 1 0", "e 0", "d 0", "0", "1 0", "d 1 0", "1 2 0", "1 d 1 0", "x 0 0 0", "p cnf 0 0"]);
            file.insert(at, text.split(' ').map(str::to_string).collect());
        }
        6 => {
            let mapping = with_head(file, &["x"]);
            let from = *mapping.last()?;
            let line = file.remove(from);
            file.insert(at, line);
        }
        _ => damage_tokens(rng, file),
    }
    Some(())
}

/// 14: the end is missing.
fn aim_open(rng: &mut Rng, file: &mut Vec<Line>) -> Option<()> {
    let lines = clause_lines(file);
    let last = *lines.last()?;
    if rng.chance(1, 2) {
        file.remove(last);
    } else {
        file.truncate(rng.one(&lines));
    }
    Some(())
}

/// Damage aimed at one number. `None` if the files offer no place for it.
fn aim(rng: &mut Rng, number: usize, formula: &mut Vec<Line>, certificate: &mut Vec<Line>) -> Option<()> {
    let (v, c): (i64, i64) = (formula[0][2].parse().ok()?, formula[0][3].parse().ok()?);
    match number {
        2 if rng.chance(2, 3) => aim_form(rng, certificate),
        3 if rng.chance(1, 2) => aim_range(rng, c, certificate),
        8 if rng.chance(1, 3) => aim_annotation(rng, v, certificate),
        2..=8 => corpus::aim(rng, number, formula, certificate),
        9 => aim_unmapped(rng, certificate),
        11 => aim_expansion(rng, c, certificate),
        14 => aim_open(rng, certificate),
        16 => aim_parent(rng, certificate),
        17 => aim_used(rng, certificate),
        _ => None,
    }
}

/// Two faults in one clause line, for the order of refusals within a line.
fn twofold(rng: &mut Rng, c: i64, file: &mut [Line]) -> Option<()> {
    let count = 1 + rng.below(2);
    let (at, _) = pick_line(rng, file, count)?;
    let first = rng.below(5);
    let second = (first + 1 + rng.below(4)) % 5;
    for which in [first, second] {
        fault(rng, c, file, (at, count), which)?;
    }
    if rng.chance(1, 12) {
        damage_form(rng, &mut file[at]);
    }
    Some(())
}

/// One of five faults in a line with so many numbers.
fn fault(rng: &mut Rng, c: i64, file: &mut [Line], (at, count): (usize, usize), which: usize) -> Option<()> {
    let zero = zero_of(&file[at], count)?;
    match which {
        // Used.
        0 => {
            let lines: Vec<usize> = clause_lines(file).into_iter().filter(|other| *other < at).collect();
            let earlier = *lines.get(rng.below(lines.len()))?;
            file[at][0] = file[earlier][0].clone();
        }
        // Out of range.
        1 => {
            let literal = rng.one(&["16385", "-16385", "16384"]);
            file[at].insert(1, literal.to_string());
        }
        // Another number, perhaps above a limit.
        2 => {
            let any = rng.between(1, c.max(1));
            let number = if count == 1 { rng.one(&[c, c + 1, any, any]) } else { rng.one(&[65_536, 65_537, any]) };
            file[at][zero + 1] = number.max(1).to_string();
        }
        // Unmapped, or no literal of this clause.
        3 => {
            let copy = rng.between(1, 90);
            file[at].insert(1, rng.sign(copy).to_string());
        }
        // Its own index for a parent, or the other sign.
        _ if count == 2 => file[at][zero + 2] = file[at][0].clone(),
        _ if zero > 1 => file[at][1] = flipped(&file[at][1].clone()),
        _ => return None,
    }
    Some(())
}

/// A fault of form beside the others.
fn damage_form(rng: &mut Rng, line: &mut Line) {
    if rng.chance(1, 2) {
        line.pop();
    } else {
        line.push("0".to_string());
    }
}

// ----------------------------------------------------------------- cases

/// Lines of tokens parted by blanks, `/` for the ends of lines.
fn split(text: &str) -> Vec<Line> {
    text.split('/').filter(|line| !line.is_empty()).map(|line| line.split(' ').map(str::to_string).collect()).collect()
}

/// A purely existential formula with the identity for its mapping, and its
/// expansions with the indexes from 1.
fn existential(highest: i64, clauses: &[Vec<i64>]) -> (Vec<Line>, Vec<Line>) {
    let variables: Vec<i64> = (1..=highest).collect();
    let mut formula = split(&format!("p cnf {highest} {}", clauses.len()));
    formula.push(numbers("e", &variables));
    formula.extend(clauses.iter().map(|clause| numbers("", clause)));
    let mut certificate = mapping_lines(&[(variables.clone(), variables, Vec::new())]);
    for (place, clause) in clauses.iter().enumerate() {
        certificate.push(clause_line(place as i64 + 1, clause, &[place as i64 + 1]));
    }
    (formula, certificate)
}

/// Resolutions over few copies, right and nearly right.
fn play(rng: &mut Rng) -> (Vec<Line>, Vec<Line>) {
    let highest = rng.between(1, 4);
    let variables: Vec<i64> = (1..=highest).collect();
    let mut clauses: Vec<Vec<i64>> = Vec::new();
    for _ in 0..rng.between(2, 7) {
        let count = rng.between(1, 4);
        let signs = [1, -1];
        clauses.push((0..count).map(|_| rng.one(&variables) * rng.one(&signs)).collect());
    }
    let (formula, mut certificate) = existential(highest, &clauses);
    for _ in 0..rng.between(1, 9) {
        let (one, other) = (rng.below(clauses.len()), rng.below(clauses.len()));
        let clashing: Vec<i64> = clauses[one].iter().copied().filter(|l| clauses[other].contains(&-*l)).collect();
        if clashing.is_empty() && rng.chance(9, 10) {
            continue;
        }
        let literal = clashing.get(rng.below(clashing.len())).copied().unwrap_or(1);
        let mut clause = resolvent(&clauses[one], &clauses[other], literal);
        if rng.chance(1, 8) {
            nearly(rng, &variables, &mut clause);
        }
        clauses.push(clause.clone());
        let index = clauses.len() as i64;
        certificate.push(clause_line(index, &rewritten(rng, &clause), &[one as i64 + 1, other as i64 + 1]));
    }
    if rng.chance(1, 8) {
        // Both signs of a copy, with itself for parents.
        let (own, variable) = (clauses.len() as i64 + 1, rng.one(&variables));
        certificate.push(clause_line(own, &[variable, -variable], &[own, own]));
    }
    (formula, certificate)
}

/// One literal more or less, or a copy gone.
fn nearly(rng: &mut Rng, variables: &[i64], clause: &mut Vec<i64>) {
    let variable = rng.one(variables);
    match rng.below(4) {
        0 => clause.push(rng.sign(variable)),
        1 => clause.retain(|l| l.abs() != variable),
        2 if !clause.is_empty() => {
            clause.remove(rng.below(clause.len()));
        }
        _ => *clause = random_clause(rng, variables, 3),
    }
}

/// A chain of units, or one clause of many copies and their units.
fn chain(rng: &mut Rng) -> (Vec<Line>, Vec<Line>) {
    let length = rng.between(2, 300);
    let mut clauses: Vec<Vec<i64>> = vec![vec![-length], vec![1]];
    clauses.extend((1..length).map(|v| vec![-v, v + 1]));
    let (formula, mut certificate) = existential(length, &clauses);
    // The unit of each variable by that of the one before.
    for v in 1..length {
        let parent = if v == 1 { 2 } else { length + v };
        certificate.push(clause_line(length + 1 + v, &[v + 1], &[parent, v + 2]));
    }
    certificate.push(clause_line(2 * length + 1, &[], &[2 * length, 1]));
    (formula, certificate)
}

/// One existential with many copies: a clause of all, and a unit of each.
fn many_copies(rng: &mut Rng) -> (Vec<Line>, Vec<Line>) {
    let count = rng.between(2, 300);
    let copies: Vec<i64> = (0..count).map(|copy| 16_384 - copy).collect();
    let formula = split("p cnf 2 2/e 1 0/a 2 0/1 0/-1 0");
    let mut certificate = mapping_lines(&[(copies.clone(), vec![1; count as usize], Vec::new())]);
    certificate.push(clause_line(65_536, &copies, &[1]));
    for (place, copy) in copies.iter().enumerate() {
        let unit = 2 * place as i64 + 1;
        let parent = if place == 0 { 65_536 } else { unit - 1 };
        certificate.push(clause_line(unit, &[-copy], &[2]));
        certificate.push(clause_line(unit + 1, &copies[place + 1..], &[unit, parent]));
    }
    (formula, certificate)
}

/// V and C at their limits.
fn large_formula(rng: &mut Rng) -> (Vec<Line>, Vec<Line>) {
    if rng.chance(1, 2) {
        let universals: Vec<i64> = (1..4_096).collect();
        let mut formula = vec![split("p cnf 4096 2").remove(0), numbers("a", &universals)];
        formula.extend(split("e 4096 0/1 4096 0/1 -4096 0"));
        let copy = rng.one(&["1", "16384", "16385"]);
        let annotation = rng.one(&["-1 ", "-1 4095 ", "4095 ", "-1 4096 ", "-1 4097 ", ""]);
        let proof = format!("x {copy} 0 4096 0 {annotation}0/1 {copy} 0 1 0/2 -{copy} 0 2 0/3 0 2 1 0");
        return (formula, split(&proof));
    }
    let count = 8_192 + rng.between(-1, 1);
    let mut formula = split(&format!("p cnf 1 {}/e 1 0", 8_192 + rng.between(-1, 1)));
    formula.extend((0..count).map(|n| numbers("", &[if n % 3 == 0 { 1 } else { -1 }])));
    let last = rng.one(&["8191", "8192", "8193"]);
    (formula, split(&format!("x 1 0 1 0 0/1 1 0 1 0/8192 -1 0 {last} 0/65536 0 1 8192 0")))
}

/// Indexes at their limit, used before, or missing.
fn index_play(rng: &mut Rng) -> (Vec<Line>, Vec<Line>) {
    let mut certificate = split("x 1 0 1 0 0");
    let index = |rng: &mut Rng| rng.one(&[1i64, 2, 3, 4, 5, 6, 7, 65_535, 65_536, 65_537]);
    for n in 1..=rng.between(2, 8) {
        let own = if rng.chance(3, 4) { n } else { index(rng) };
        match rng.below(5) {
            0 | 1 => certificate.push(clause_line(own, &[1], &[1])),
            2 | 3 => certificate.push(clause_line(own, &[-1], &[2])),
            _ => certificate.push(clause_line(own, &[], &[index(rng), index(rng)])),
        }
    }
    (split("p cnf 1 2/e 1 0/1 0/-1 0"), certificate)
}

/// Nothing, next to nothing, and files of skipped lines.
fn next_to_nothing(rng: &mut Rng) -> (Vec<Line>, Vec<Line>) {
    let formula = rng.one(&[
        "", "c", "p cnf 0 0", "p cnf 0 1/0", "c/p cnf 0 1/0", "p cnf 1 0", "p cnf 0 2/0", "0", "e 1 0", "p cnf 1 1/e 1 0/0/0", "p cnf 1 1/a 1 0/1 0",
    ]);
    let certificate = rng.one(&[
        "", "c", "0", "1 0 1 0", "1 0 1 0/2 0 1 0", "1 0 1 0/1 0 1 0", "1 0 1 0/2 0 1 1 0", "x 0 0 0/1 0 1 0", "1 0 1 0/x 0 0 0",
        "1 0 2 0", "1 0 1 1 0", "1 0", "1 0 0", "e 0", "o 1 0/e 0", "d 0", "65536 0 1 0", "65537 0 1 0", "1 1 0 1 0", "c/1 0 1 0",
    ]);
    (split(formula), split(certificate))
}

fn limit_case(rng: &mut Rng) -> (Vec<Line>, Vec<Line>) {
    match rng.below(11) {
        0 => chain(rng),
        1 => many_copies(rng),
        2 => large_formula(rng),
        3 | 4 => index_play(rng),
        5 => next_to_nothing(rng),
        _ => play(rng),
    }
}

/// A FERAT certificate where a FERP one is due.
fn crossed(seed: u64, index: u64) -> (Vec<Line>, Vec<Line>) {
    let case = corpus::case(seed, index);
    (tokens(&case.formula), tokens(&case.certificate))
}

/// Damages a right pair's lines; answers how, whether its bytes are to be
/// damaged too, and whether its tables are to be tight.
fn damage(rng: &mut Rng, formula: &mut Vec<Line>, certificate: &mut Vec<Line>) -> (&'static str, bool, bool) {
    let c: i64 = formula[0][3].parse().unwrap_or(1);
    match rng.below(30) {
        0..=2 => ("right", false, false),
        3..=5 => ("tight", false, true),
        6 | 7 => {
            damage_lines(rng, certificate);
            ("lines", false, false)
        }
        8 => {
            damage_lines(rng, formula);
            ("formula lines", false, false)
        }
        9 => {
            damage_tokens(rng, certificate);
            ("tokens", false, false)
        }
        10 => {
            damage_tokens(rng, formula);
            ("formula tokens", false, false)
        }
        11 => ("bytes", true, false),
        12..=14 => {
            let done = (0..4).any(|_| match rng.below(3) {
                0 => corpus::twofold(rng, formula, certificate).is_some(),
                _ => twofold(rng, c, certificate).is_some(),
            });
            let tight = done && rng.chance(1, 4);
            (if tight { "twofold tight" } else { "twofold" }, false, tight)
        }
        _ => {
            let number = rng.one(&[2, 2, 2, 3, 3, 4, 4, 5, 5, 6, 6, 7, 7, 8, 8, 9, 9, 11, 11, 11, 14, 16, 16, 16, 16, 17, 17]);
            let done = (0..4).any(|_| aim(rng, number, formula, certificate).is_some());
            let tight = done && rng.chance(1, 10);
            (if tight { "aimed tight" } else { "aimed" }, false, tight)
        }
    }
}

/// The case of this seed and index.
pub fn case(seed: u64, index: u64) -> Case {
    let rng = &mut Rng::of_case(seed ^ 0x4645_5250, index);
    let (mut formula_lines, mut certificate_lines, mut found) = match rng.below(24) {
        0..=2 => {
            let (formula, certificate) = limit_case(rng);
            (formula, certificate, ("limit", rng.chance(1, 12), rng.chance(1, 6)))
        }
        3 if rng.chance(1, 3) => {
            let (formula, certificate) = crossed(seed, index);
            (formula, certificate, ("crossed", false, false))
        }
        _ => {
            let qbf = mostly_false(rng);
            (qbf.lines(), right_certificate(rng, &qbf), ("", false, false))
        }
    };
    if found.0.is_empty() {
        found = damage(rng, &mut formula_lines, &mut certificate_lines);
    }
    let (mut damage, bytes, tight) = found;
    let (mut formula, mut certificate) = (render(rng, &formula_lines), render(rng, &certificate_lines));
    if bytes {
        damage_bytes(rng, if rng.clone().chance(1, 4) { &mut formula } else { &mut certificate });
    }
    if damage == "right" && rng.chance(1, 6) {
        damage = "padded";
        pad_one(rng, &mut formula, &mut certificate);
    }
    let lengths = lengths_for(rng, Kind::Ferp, &formula, &certificate, tight);
    Case { kind: Kind::Ferp, damage, formula, certificate, lengths }
}

/// A right pair, damaged: tokens, lines or bytes of either file.
pub fn damaged(rng: &mut Rng, formula: &[u8], certificate: &[u8]) -> (Vec<u8>, Vec<u8>) {
    let (mut formula_lines, mut certificate_lines) = (tokens(formula), tokens(certificate));
    let mut bytes = false;
    match rng.below(10) {
        0 => damage_tokens(rng, &mut formula_lines),
        1 => damage_tokens(rng, &mut certificate_lines),
        2 | 3 => damage_lines(rng, &mut certificate_lines),
        4 => bytes = true,
        _ => loop {
            let number = rng.one(&[2, 3, 4, 5, 6, 7, 8, 9, 11, 11, 14, 16, 16, 16, 16, 17, 17]);
            if aim(rng, number, &mut formula_lines, &mut certificate_lines).is_some() {
                break;
            }
        },
    }
    let (mut formula, mut certificate) = (render(rng, &formula_lines), render(rng, &certificate_lines));
    if bytes {
        damage_bytes(rng, if rng.clone().chance(1, 4) { &mut formula } else { &mut certificate });
    }
    (formula, certificate)
}
