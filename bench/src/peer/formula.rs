//! The formula, and what its lines need.

use super::text::{lines, Text, MALFORMED};
use super::{Needs, OUT_OF_RANGE, TABLE_FULL};
use std::ops::Range;

const HIGHEST: u32 = 4_096;
const MOST_CLAUSES: u32 = 8_192;

/// The place in the prefix, from 1; 0 for a variable that is not in it.
#[derive(Clone, Copy, Default)]
pub struct Bound {
    pub place: u32,
    pub universal: bool,
}

/// A matrix clause without repeats, its existential and its universal literals.
pub struct Clause {
    existentials: Range<usize>,
    universals: Range<usize>,
    /// Whether it has both signs of a universal.
    pub both_signs: bool,
}

#[derive(Default)]
pub struct Formula {
    pub highest: u32,
    pub count: u32,
    bounds: Vec<Bound>,
    clauses: Vec<Clause>,
    existentials: Vec<u32>,
    universals: Vec<u32>,
}

impl Formula {
    pub fn bound(&self, variable: u32) -> Bound {
        self.bounds[variable as usize]
    }

    /// Matrix clause n, counted from 1.
    pub fn clause(&self, n: u32) -> &Clause {
        &self.clauses[n as usize - 1]
    }

    pub fn existentials(&self, clause: &Clause) -> &[u32] {
        &self.existentials[clause.existentials.clone()]
    }

    pub fn universals(&self, clause: &Clause) -> &[u32] {
        &self.universals[clause.universals.clone()]
    }
}

struct Reader<'a> {
    lengths: &'a Needs,
    needs: Needs,
    formula: Formula,
    problem_read: bool,
    places: u32,
    numbers: Vec<u32>,
    /// For each literal, the last clause that it was seen in.
    seen: Vec<u32>,
}

impl Reader<'_> {
    fn problem(&mut self, text: &mut Text) -> Result<(), u32> {
        text.word(b"p")?;
        text.word(b"cnf")?;
        let highest = text.natural()?;
        let count = text.natural()?;
        text.end_line()?;
        if self.problem_read {
            return Err(MALFORMED);
        }
        if highest > HIGHEST || count > MOST_CLAUSES {
            return Err(OUT_OF_RANGE);
        }
        self.needs[0] = highest as usize;
        if self.needs[0] > self.lengths[0] {
            return Err(TABLE_FULL);
        }
        self.problem_read = true;
        self.formula.highest = highest;
        self.formula.count = count;
        self.formula.bounds = vec![Bound::default(); highest as usize + 1];
        self.seen = vec![0; 2 * highest as usize + 2];
        Ok(())
    }

    fn binding(&mut self, text: &mut Text, letter: &[u8]) -> Result<(), u32> {
        text.word(letter)?;
        text.naturals(&mut self.numbers)?;
        text.end_line()?;
        if !self.problem_read || !self.formula.clauses.is_empty() || self.numbers.is_empty() {
            return Err(MALFORMED);
        }
        if self.numbers.iter().any(|&v| v > self.formula.highest) {
            return Err(OUT_OF_RANGE);
        }
        for &variable in &self.numbers {
            let bound = &mut self.formula.bounds[variable as usize];
            if bound.place != 0 {
                return Err(4);
            }
            self.places += 1;
            *bound = Bound { place: self.places, universal: letter == b"a" };
        }
        Ok(())
    }

    fn clause(&mut self, text: &mut Text) -> Result<(), u32> {
        self.numbers.clear();
        text.literals(&mut self.numbers)?;
        text.end_line()?;
        if !self.problem_read {
            return Err(MALFORMED);
        }
        if self.numbers.iter().any(|&l| l / 2 > self.formula.highest) {
            return Err(OUT_OF_RANGE);
        }
        self.needs[1] += self.numbers.len() + 1;
        if self.needs[1] > self.lengths[1] {
            return Err(TABLE_FULL);
        }
        if self.numbers.iter().any(|&l| self.formula.bound(l / 2).place == 0) {
            return Err(5);
        }
        if self.formula.clauses.len() == self.formula.count as usize {
            return Err(6);
        }
        self.store();
        Ok(())
    }

    fn store(&mut self) {
        let f = &mut self.formula;
        let number = f.clauses.len() as u32 + 1;
        let (first, second) = (f.existentials.len(), f.universals.len());
        let mut both_signs = false;
        for &l in &self.numbers {
            if self.seen[l as usize] == number {
                continue;
            }
            self.seen[l as usize] = number;
            if f.bounds[l as usize / 2].universal {
                both_signs |= self.seen[l as usize ^ 1] == number;
                f.universals.push(l);
            } else {
                f.existentials.push(l);
            }
        }
        f.clauses.push(Clause {
            existentials: first..f.existentials.len(),
            universals: second..f.universals.len(),
            both_signs,
        });
    }

    fn end(&self) -> Result<(), u32> {
        if !self.problem_read {
            return Err(MALFORMED);
        }
        if self.formula.clauses.len() < self.formula.count as usize {
            return Err(6);
        }
        Ok(())
    }
}

/// The formula, or the number and the line of its refusal; and its needs.
pub fn read(bytes: &[u8], lengths: &Needs) -> (Result<Formula, (u32, u32)>, Needs) {
    let mut reader = Reader {
        lengths,
        needs: [0; 6],
        formula: Formula::default(),
        problem_read: false,
        places: 0,
        numbers: Vec::new(),
        seen: Vec::new(),
    };
    let read = lines(bytes, |text, first| match first {
        b'p' => reader.problem(text),
        b'a' => reader.binding(text, b"a"),
        b'e' => reader.binding(text, b"e"),
        _ => reader.clause(text),
    });
    let read = read.and_then(|()| reader.end().map_err(|number| (number, 0)));
    (read.map(|()| reader.formula), reader.needs)
}
