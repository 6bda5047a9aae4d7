//! The independent checker of FERP certificates: request #101 of document 02
//! and source document 001, in the manner of `reference`.

// `super`, since mutants.py puts copies of both files into a module.
use super::reference::{
    above, check_within, closed_list, full, is_expansion, lines, literal, looked_up, map_copies, mapping_form,
    need_clause, positive, tokens, Counts, Formula, Map, Mapping, Refusal, Report, COPY_LIMIT, FILE_LIMIT,
};
use std::collections::{BTreeSet, HashMap};

/// "an index above 65,536, is refused 3"
pub const INDEX_LIMIT: i64 = 65_536;

/// A clause is a set of literals.
pub type Clause = BTreeSet<i64>;

/// Where a clause comes from.
enum Reason {
    /// "One number n means an expansion of matrix clause n."
    Expansion(i64),
    /// "Two name earlier lines by index."
    Resolution([i64; 2]),
}

/// "a positive index, literals, `0`, one or two numbers, `0`"
struct ClauseLine {
    index: i64,
    literals: Vec<i64>,
    reason: Reason,
}

enum Line {
    Mapping(Mapping),
    Clause(ClauseLine),
}

/// The form of a line, or `None` if it has no allowed form.
fn form(line: &[&[u8]]) -> Option<Line> {
    if line[0] == b"x" {
        return mapping_form(line).map(Line::Mapping);
    }
    let index = positive(line[0])?;
    let zero = line.iter().position(|token| *token == b"0")?;
    let literals = closed_list(&line[1..=zero], literal)?;
    let reason = match closed_list(&line[zero + 1..], positive)?[..] {
        [n] => Reason::Expansion(n),
        [one, other] => Reason::Resolution([one, other]),
        _ => return None,
    };
    Some(Line::Clause(ClauseLine { index, literals, reason }))
}

/// The resolvents on the copies that `one` holds positive and `other` negative.
fn resolvents<'a>(one: &'a Clause, other: &'a Clause) -> impl Iterator<Item = Clause> + 'a {
    let copies = one.iter().copied().filter(|v| *v > 0 && other.contains(&-*v));
    copies.map(|v| {
        let rest = one.iter().copied().filter(|l| *l != v);
        rest.chain(other.iter().copied().filter(|l| *l != -v)).collect()
    })
}

/// "the clause equals, as a set, their resolvent on some copy, whichever
/// parent holds it positive"
pub fn is_resolvent(clause: &Clause, one: &Clause, other: &Clause) -> bool {
    resolvents(one, other).chain(resolvents(other, one)).any(|resolvent| resolvent == *clause)
}

/// What the lines so far have made.
struct Proof<'a> {
    formula: &'a Formula,
    map: Map,
    /// By index.
    clauses: HashMap<i64, Clause>,
}

impl Proof<'_> {
    /// 3: the index, the copies and the numbers.
    fn out_of_range(&self, line: &ClauseLine) -> bool {
        let numbers = match line.reason {
            Reason::Expansion(n) => n > self.formula.matrix.len() as i64,
            Reason::Resolution(parents) => above(&parents, INDEX_LIMIT),
        };
        line.index > INDEX_LIMIT || above(&line.literals, COPY_LIMIT) || numbers
    }

    /// 16: "a missing parent or a clause that is no resolvent"
    fn resolve(&self, literals: &[i64], parents: [i64; 2]) -> Result<(), u64> {
        let [Some(one), Some(other)] = parents.map(|parent| self.clauses.get(&parent)) else { return Err(16) };
        if is_resolvent(&literals.iter().copied().collect(), one, other) {
            Ok(())
        } else {
            Err(16)
        }
    }

    /// "judged as an `e` line with hint n"
    fn expand(&self, literals: &[i64], n: i64) -> Result<(), u64> {
        let mapped = looked_up(&self.map, literals).ok_or(9u64)?;
        if is_expansion(self.formula, &mapped, &self.formula.matrix[n as usize - 1]) {
            Ok(())
        } else {
            Err(11)
        }
    }

    /// A clause line of the right form: the number of its refusal, or its
    /// clause can be a parent from now on.
    fn clause_line(
        &mut self,
        line: ClauseLine,
        lengths: &[usize; 6],
        needs: &mut [usize; 6],
        counts: &mut Counts,
    ) -> Result<(), u64> {
        if self.out_of_range(&line) {
            return Err(3);
        }
        need_clause(needs, &line.literals, 2);
        if full(needs, lengths) {
            return Err(15);
        }
        if self.clauses.contains_key(&line.index) {
            return Err(17);
        }
        match line.reason {
            Reason::Expansion(n) => {
                self.expand(&line.literals, n)?;
                counts.expansions += 1;
            }
            Reason::Resolution(parents) => {
                self.resolve(&line.literals, parents)?;
                counts.additions += 1;
            }
        }
        self.clauses.insert(line.index, line.literals.into_iter().collect());
        Ok(())
    }
}

fn certificate_lines(
    formula: &Formula,
    file: &[u8],
    lengths: &[usize; 6],
    needs: &mut [usize; 6],
    counts: &mut Counts,
) -> Result<(), Refusal> {
    let mut proof = Proof { formula, map: Map::new(), clauses: HashMap::new() };
    for (index, line) in lines(file).into_iter().enumerate() {
        let Some(line) = tokens(line) else { continue };
        let judged = match form(&line) {
            None => Err(2),
            // "the same mapping lines, then clause lines"
            Some(Line::Mapping(_)) if !proof.clauses.is_empty() => Err(2),
            Some(Line::Mapping(mapping)) => map_copies(formula, mapping, lengths, needs, &mut proof.map),
            Some(Line::Clause(line)) => proof.clause_line(line, lengths, needs, counts),
        };
        judged.map_err(|number| Refusal { number, line: index as u64 + 1 })?;
    }
    // "Acceptance means that an empty clause was derived."
    if proof.clauses.values().any(|clause| clause.is_empty()) {
        Ok(())
    } else {
        Err(Refusal { number: 14, line: 0 })
    }
}

/// The check of a FERP certificate.
pub fn check(formula: &[u8], certificate: &[u8], lengths: [usize; 6]) -> Report {
    check_within([formula, certificate], lengths, [FILE_LIMIT; 2], certificate_lines)
}
