//! An unproved checker of FERP certificates, of the same rules, for
//! comparison: one pass over the bytes, a table of indexes, all literals in
//! one vector, marks for sets.

mod certificate;
mod expansion;
mod formula;
mod resolvent;
mod text;

const OUT_OF_RANGE: u32 = 3;
const TABLE_FULL: u32 = 15;

/// The places of the six tables: prefix, matrix, map, proof, marks, values.
pub type Needs = [usize; 6];

/// The seven fields, as the library has them, and the places needed up to the
/// line where the check ended.
pub struct Report {
    pub seven: [u32; 7],
    pub needs: Needs,
}

fn refused(number: u32, file: u32, line: u32, counts: [u32; 2], needs: Needs) -> Report {
    Report { seven: [hutsvida::REFUSED, number, file, line, counts[0], counts[1], 0], needs }
}

pub fn check(formula: &[u8], certificate: &[u8], lengths: &Needs) -> Report {
    if formula.len() > hutsvida::LONGEST {
        return refused(1, 1, 0, [0; 2], [0; 6]);
    }
    if certificate.len() > hutsvida::LONGEST {
        return refused(1, 2, 0, [0; 2], [0; 6]);
    }
    let (read, needs) = formula::read(formula, lengths);
    let formula = match read {
        Ok(formula) => formula,
        Err((number, line)) => return refused(number, 1, line, [0; 2], needs),
    };
    let (read, counts, needs) = certificate::read(certificate, &formula, lengths, needs);
    match read {
        Ok(()) => Report { seven: [hutsvida::ACCEPTED, 0, 0, 0, counts[0], counts[1], 0], needs },
        Err((number, line)) => refused(number, 2, line, counts, needs),
    }
}
