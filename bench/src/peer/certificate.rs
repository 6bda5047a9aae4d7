//! The certificate, line by line.

use super::expansion::{Copies, HIGHEST_COPY};
use super::formula::Formula;
use super::resolvent::Marks;
use super::text::{lines, Text, MALFORMED};
use super::{Needs, OUT_OF_RANGE, TABLE_FULL};

const HIGHEST_INDEX: u32 = 65_536;

struct Reader<'a> {
    formula: &'a Formula,
    lengths: &'a Needs,
    needs: Needs,
    copies: Copies<'a>,
    /// The literals of all clause lines, from place 1 on.
    literals: Vec<u32>,
    /// For each index, where the literals of its line start and end; (0, 0) if
    /// it was not used.
    indexes: Vec<(u32, u32)>,
    marks: Marks,
    expansions: u32,
    resolutions: u32,
    closed: bool,
    /// The lists of a mapping line.
    lists: [Vec<u32>; 3],
}

impl Reader<'_> {
    fn has_room(&self) -> Result<(), u32> {
        if self.needs.iter().zip(self.lengths).all(|(need, length)| need <= length) {
            Ok(())
        } else {
            Err(TABLE_FULL)
        }
    }

    fn mapping(&mut self, text: &mut Text) -> Result<(), u32> {
        let [copies, existentials, annotation] = &mut self.lists;
        text.word(b"x")?;
        text.naturals(copies)?;
        text.naturals(existentials)?;
        annotation.clear();
        text.literals(annotation)?;
        text.end_line()?;
        if copies.len() != existentials.len() || self.expansions + self.resolutions > 0 {
            return Err(MALFORMED);
        }
        let highest = self.formula.highest;
        let in_range = copies.iter().all(|&p| p <= HIGHEST_COPY)
            && existentials.iter().all(|&e| e <= highest)
            && annotation.iter().all(|&l| l / 2 <= highest);
        if !in_range {
            return Err(OUT_OF_RANGE);
        }
        self.needs[2] += copies.len() + existentials.len() + annotation.len() + 3;
        let largest = copies.iter().copied().max().unwrap_or(0);
        self.needs[5] = self.needs[5].max(largest as usize);
        self.has_room()?;
        let [copies, existentials, annotation] = &mut self.lists;
        self.copies.map(copies, existentials, annotation)
    }

    fn clause(&mut self, text: &mut Text) -> Result<(), u32> {
        let index = text.natural()?;
        let start = self.literals.len();
        text.literals(&mut self.literals)?;
        let first = text.natural()?;
        if index == 0 || first == 0 {
            return Err(MALFORMED);
        }
        let second = text.natural()?;
        if second != 0 && text.natural()? != 0 {
            return Err(MALFORMED);
        }
        text.end_line()?;
        let largest = self.literals[start..].iter().copied().max().unwrap_or(0) / 2;
        let reason_in_range = match second {
            0 => first <= self.formula.count,
            _ => first <= HIGHEST_INDEX && second <= HIGHEST_INDEX,
        };
        if index > HIGHEST_INDEX || largest > HIGHEST_COPY || !reason_in_range {
            return Err(OUT_OF_RANGE);
        }
        self.needs[3] += self.literals.len() - start + 2;
        self.needs[4] += 1;
        self.needs[5] = self.needs[5].max(largest as usize);
        self.has_room()?;
        self.derive(index, start, first, second)
    }

    /// Rules 17, 16, 9 and 11 of the clause whose literals begin at `start`.
    fn derive(&mut self, index: u32, start: usize, first: u32, second: u32) -> Result<(), u32> {
        if self.indexes[index as usize].1 != 0 {
            return Err(17);
        }
        let clause = &self.literals[start..];
        if second == 0 {
            self.copies.expands(clause, first)?;
            self.expansions += 1;
        } else {
            let (a, b) = (self.indexes[first as usize], self.indexes[second as usize]);
            let (d, e) = (&self.literals[a.0 as usize..a.1 as usize], &self.literals[b.0 as usize..b.1 as usize]);
            if a.1 == 0 || b.1 == 0 || !self.marks.resolves(clause, d, e) {
                return Err(16);
            }
            self.resolutions += 1;
        }
        self.closed |= clause.is_empty();
        self.indexes[index as usize] = (start as u32, self.literals.len() as u32);
        Ok(())
    }
}

/// Accepted, or the number and the line of the refusal; the expansions and
/// resolutions accepted; the needs.
pub fn read(
    bytes: &[u8],
    formula: &Formula,
    lengths: &Needs,
    needs: Needs,
) -> (Result<(), (u32, u32)>, [u32; 2], Needs) {
    // a literal takes a byte and the one that parts it from the next
    let mut literals = Vec::with_capacity(bytes.len() / 2 + 1);
    literals.push(0);
    let mut reader = Reader {
        formula,
        lengths,
        needs,
        copies: Copies::new(formula),
        literals,
        indexes: vec![(0, 0); HIGHEST_INDEX as usize + 1],
        marks: Marks::new(2 * HIGHEST_COPY as usize + 2),
        expansions: 0,
        resolutions: 0,
        closed: false,
        lists: Default::default(),
    };
    let read = lines(bytes, |text, first| match first {
        b'x' => reader.mapping(text),
        _ => reader.clause(text),
    });
    let read = read.and(if reader.closed { Ok(()) } else { Err((14, 0)) });
    (read, [reader.expansions, reader.resolutions], reader.needs)
}
