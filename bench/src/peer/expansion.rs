//! Copies, annotations and expansions: rules 7, 8, 9 and 11.

use super::formula::Formula;

pub const HIGHEST_COPY: u32 = 16_384;

/// What a copy stands for: an existential, 0 if the copy is not mapped, and an
/// annotation, by the number of its mapping line.
#[derive(Clone, Copy, Default)]
struct Copy {
    existential: u32,
    annotation: u32,
}

pub struct Copies<'a> {
    formula: &'a Formula,
    copies: Vec<Copy>,
    /// Where each annotation ends in `literals`; it starts where the one before
    /// ends. Its literals stand in the order of the prefix.
    ends: Vec<usize>,
    literals: Vec<u32>,
    /// For each literal of the formula, when it was seen last.
    seen: Vec<u32>,
    now: u32,
}

impl<'a> Copies<'a> {
    pub fn new(formula: &'a Formula) -> Copies<'a> {
        Copies {
            formula,
            copies: vec![Copy::default(); HIGHEST_COPY as usize + 1],
            ends: vec![0],
            literals: Vec::new(),
            seen: vec![0; 2 * formula.highest as usize + 2],
            now: 0,
        }
    }

    fn place(&self, literal: u32) -> u32 {
        self.formula.bound(literal / 2).place
    }

    fn annotation(&self, number: u32) -> &[u32] {
        &self.literals[self.ends[number as usize - 1]..self.ends[number as usize]]
    }

    /// A mapping line whose numbers are in range.
    pub fn map(&mut self, copies: &[u32], existentials: &[u32], annotation: &mut [u32]) -> Result<(), u32> {
        let number = self.ends.len() as u32;
        for (&copy, &existential) in copies.iter().zip(existentials) {
            if self.copies[copy as usize].existential != 0 {
                return Err(7);
            }
            self.copies[copy as usize] = Copy { existential, annotation: number };
        }
        let mut leftmost = u32::MAX;
        for &e in existentials {
            let bound = self.formula.bound(e);
            if bound.place == 0 || bound.universal {
                return Err(8);
            }
            leftmost = leftmost.min(bound.place);
        }
        annotation.sort_unstable_by_key(|&l| self.place(l));
        let mut last = 0;
        for &l in annotation.iter() {
            let bound = self.formula.bound(l / 2);
            if !bound.universal || bound.place == last || bound.place > leftmost {
                return Err(8);
            }
            last = bound.place;
        }
        self.literals.extend_from_slice(annotation);
        self.ends.push(self.literals.len());
        Ok(())
    }

    /// 9 or 11, if the line is no expansion of matrix clause n.
    pub fn expands(&mut self, line: &[u32], n: u32) -> Result<(), u32> {
        if line.iter().any(|&l| self.copies[l as usize / 2].existential == 0) {
            return Err(9);
        }
        if self.has_literals(line, n) && self.has_assignment(line, n) {
            Ok(())
        } else {
            Err(11)
        }
    }

    /// Whether the line's literals stand for the clause's existential ones.
    fn has_literals(&mut self, line: &[u32], n: u32) -> bool {
        self.now += 2;
        let wanted = self.formula.existentials(self.formula.clause(n));
        for &l in wanted {
            self.seen[l as usize] = self.now;
        }
        let mut found = 0;
        for &l in line {
            let image = 2 * self.copies[l as usize / 2].existential + l % 2;
            let mark = &mut self.seen[image as usize];
            if *mark == self.now {
                *mark = self.now + 1;
                found += 1;
            } else if *mark != self.now + 1 {
                return false;
            }
        }
        found == wanted.len()
    }

    /// Whether an assignment t exists. The copy of the rightmost existential
    /// says what t is over the universals left of that; the other universals
    /// of the clause are free.
    fn has_assignment(&self, line: &[u32], n: u32) -> bool {
        let clause = self.formula.clause(n);
        let place = |l: u32| self.formula.bound(self.copies[l as usize / 2].existential).place;
        let Some(&rightmost) = line.iter().max_by_key(|&&l| place(l)) else { return !clause.both_signs };
        let (end, all) = (place(rightmost), self.copies[rightmost as usize / 2].annotation);
        let t = self.annotation(all);
        let falsified = |&u: &u32| match t.binary_search_by_key(&self.place(u), |&l| self.place(l)) {
            Ok(i) => t[i] == u ^ 1,
            Err(_) => self.place(u) > end,
        };
        let is_part = |&l: &u32| {
            let own = self.copies[l as usize / 2].annotation;
            own == all || self.is_part(self.annotation(own), t, place(l))
        };
        !clause.both_signs && line.iter().all(is_part) && self.formula.universals(clause).iter().all(falsified)
    }

    /// Whether an annotation is the part of t left of a place.
    fn is_part(&self, annotation: &[u32], t: &[u32], place: u32) -> bool {
        t.starts_with(annotation) && t.get(annotation.len()).is_none_or(|&l| self.place(l) > place)
    }
}
