//! What the lines before a refused one say; all of them are accepted, so
//! they are well formed and within the limits.

use crate::text::{first_list, lines, lists, number, Line};
use crate::FERP;
use std::collections::HashMap;

/// The parts of a certificate, in their order: mapping lines, then those of
/// FERAT, or FERP's clause lines.
#[derive(Clone, Copy, PartialEq)]
pub enum Part {
    Mapping,
    Hints,
    Expansions,
    Additions,
    Derivations,
}

/// The quantifier of a variable, and its place in the prefix.
pub struct Bound {
    pub universal: bool,
    pub place: usize,
}

/// A clause of a FERP certificate, and its line.
pub struct Derived {
    pub line: usize,
    pub literals: Vec<i64>,
}

pub struct Facts {
    /// The certificate's kind, `FERAT` or `FERP`.
    pub kind: u32,
    /// V and C of the `p` line, once there was one.
    pub problem: Option<[i64; 2]>,
    pub bound: HashMap<i64, Bound>,
    /// The line of each clause.
    pub clauses: Vec<usize>,
    pub part: Part,
    pub hints: Option<Vec<i64>>,
    pub expansions: usize,
    /// The line that maps each copy.
    pub mapped: HashMap<i64, usize>,
    /// The clauses of a FERP certificate by their index.
    pub derived: HashMap<i64, Derived>,
    /// The places needed: prefix, matrix, map, proof, marks, values.
    pub needs: [usize; 6],
}

impl Facts {
    /// Of the lines before a line of a file; before line 0, of all lines.
    pub fn before(kind: u32, files: [&[u8]; 2], file: u32, line: usize) -> Facts {
        let mut facts = Facts {
            kind,
            problem: None,
            bound: HashMap::new(),
            clauses: Vec::new(),
            part: Part::Mapping,
            hints: None,
            expansions: 0,
            mapped: HashMap::new(),
            derived: HashMap::new(),
            needs: [0; 6],
        };
        let earlier = |other: &Line| line == 0 || other.number < line;
        lines(files[0]).take_while(|line| file != 1 || earlier(line)).for_each(|line| facts.formula_line(&line));
        if file != 1 {
            lines(files[1]).take_while(earlier).for_each(|line| facts.certificate_line(&line));
        }
        facts
    }

    /// V and C; 0 where there is no `p` line yet.
    pub fn counts(&self) -> [i64; 2] {
        self.problem.unwrap_or([0, 0])
    }

    pub fn formula_line(&mut self, line: &Line) {
        match line.tokens[0] {
            b"p" => {
                let count = |index: usize| line.tokens.get(index).and_then(|token| number(token)).unwrap_or(0);
                self.problem = Some([count(2), count(3)]);
                self.needs[0] = count(2) as usize;
            }
            letter @ (b"a" | b"e") => {
                for variable in lists(&line.tokens[1..]).concat() {
                    let bound = Bound { universal: letter == b"a", place: self.bound.len() };
                    self.bound.insert(variable, bound);
                }
            }
            _ => {
                self.clauses.push(line.number);
                self.needs[1] += line.tokens.len();
            }
        }
    }

    pub fn certificate_line(&mut self, line: &Line) {
        let (letter, rest) = (line.tokens[0], &line.tokens[1..]);
        match letter {
            b"x" => {
                let copies = first_list(rest);
                self.needs[2] += rest.len();
                self.name_copies(&copies);
                self.mapped.extend(copies.iter().map(|copy| (*copy, line.number)));
            }
            _ if self.kind == FERP => self.derivation(line),
            b"o" => {
                self.part = Part::Hints;
                self.needs[3] += rest.len();
                self.hints = Some(lists(rest).concat());
            }
            b"e" => {
                self.part = Part::Expansions;
                self.expansions += 1;
                self.clause(&first_list(rest), 1);
            }
            _ => {
                self.part = Part::Additions;
                if letter != b"d" {
                    self.clause(&first_list(&line.tokens), 1);
                }
            }
        }
    }

    /// A clause line of a FERP certificate.
    fn derivation(&mut self, line: &Line) {
        self.part = Part::Derivations;
        let literals = first_list(&line.tokens[1..]);
        self.clause(&literals, 2);
        if let Some(index) = number(line.tokens[0]) {
            self.derived.insert(index, Derived { line: line.number, literals });
        }
    }

    /// A clause that is stored, with so many places beside its literals.
    fn clause(&mut self, literals: &[i64], more: usize) {
        self.needs[3] += literals.len() + more;
        self.needs[4] += 1;
        self.name_copies(literals);
    }

    fn name_copies(&mut self, copies: &[i64]) {
        let most = copies.iter().map(|copy| copy.unsigned_abs() as usize).max();
        self.needs[5] = self.needs[5].max(most.unwrap_or(0));
    }
}
