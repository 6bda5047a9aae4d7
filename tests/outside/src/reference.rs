//! The independent checker of FERAT certificates. Written from document 01
//! alone: plain data structures, one function for each paragraph of the
//! document, no tables. `ferp` shares its reading of formulas, its mapping
//! lines and its judge of an expansion.
//!
//! Nothing here is fast on purpose. What is a set in the document is a
//! `BTreeSet` here, and what is a total there is an addition here.

use std::collections::{BTreeSet, HashMap, VecDeque};

/// "Each file at most 1,048,576 bytes."
pub const FILE_LIMIT: usize = 1_048_576;
/// "the program below holds 16,384 bytes of formula and 65,536 of certificate"
pub const PROGRAM_FORMULA_LIMIT: usize = 16_384;
pub const PROGRAM_CERTIFICATE_LIMIT: usize = 65_536;
/// "uses tables of 16,384 zeros each"
pub const PROGRAM_TABLE: usize = 16_384;
/// "V 0 to 4,096. C 0 to 8,192." Copies "1 to 16,384".
pub const VARIABLE_LIMIT: i64 = 4_096;
pub const CLAUSE_LIMIT: i64 = 8_192;
pub const COPY_LIMIT: i64 = 16_384;

/// The six tables, in the order in which the document names them.
pub const PREFIX: usize = 0;
pub const MATRIX: usize = 1;
pub const MAP: usize = 2;
pub const PROOF: usize = 3;
pub const MARKS: usize = 4;
pub const VALUES: usize = 5;

/// Tables that are never full.
pub const ENDLESS: [usize; 6] = [usize::MAX; 6];

#[derive(Clone, Copy, Debug, PartialEq, Eq)]
pub enum Word {
    Accepted,
    Refused,
}

#[derive(Clone, Copy, Debug, PartialEq, Eq)]
pub struct Verdict {
    pub word: Word,
    pub number: u64,
    pub file: u64,
    pub line: u64,
    pub expansions: u64,
    /// Of a FERP file the resolutions.
    pub additions: u64,
    /// Of a FERP file 0.
    pub deletions: u64,
}

impl Verdict {
    /// Word (accepted 1, refused 2), number, file, line, expansions,
    /// additions, deletions.
    pub fn fields(&self) -> [u64; 7] {
        let word = match self.word {
            Word::Accepted => 1,
            Word::Refused => 2,
        };
        [word, self.number, self.file, self.line, self.expansions, self.additions, self.deletions]
    }

    /// The seven fields parted by commas, without byte 10.
    pub fn text(&self) -> String {
        let word = match self.word {
            Word::Accepted => "accepted",
            Word::Refused => "refused",
        };
        format!(
            "{},{},{},{},{},{},{}",
            word, self.number, self.file, self.line, self.expansions, self.additions, self.deletions
        )
    }
}

#[derive(Clone, Copy, Debug, PartialEq, Eq)]
pub struct Report {
    pub verdict: Verdict,
    /// Places needed of each table up to and including the line where the
    /// check ended; a line refused 2 or 3 adds nothing.
    pub needs: [usize; 6],
}

/// A refusal: its number and its line.
#[derive(Clone, Copy, Debug, PartialEq, Eq)]
pub(crate) struct Refusal {
    pub(crate) number: u64,
    pub(crate) line: u64,
}

// ---------------------------------------------------------------- lines

/// The lines of a file: one more than there are bytes 10.
pub(crate) fn lines(file: &[u8]) -> Vec<&[u8]> {
    file.split(|byte| *byte == 10).collect()
}

fn is_blank(byte: u8) -> bool {
    byte == 32 || byte == 9 || byte == 13
}

/// The tokens of a line, or `None` if the line is skipped.
pub(crate) fn tokens(line: &[u8]) -> Option<Vec<&[u8]>> {
    let found: Vec<&[u8]> = line.split(|byte| is_blank(*byte)).filter(|part| !part.is_empty()).collect();
    if found.is_empty() || found[0][0] == b'c' {
        None
    } else {
        Some(found)
    }
}

/// A number above every limit of the document; longer numbers stand as this.
const BEYOND: i64 = 1_000_000_000_000_000;

/// "A number is `0`, or a digit 1 to 9 and further digits."
fn natural(token: &[u8]) -> Option<i64> {
    if token.is_empty() || !token.iter().all(|byte| byte.is_ascii_digit()) {
        return None;
    }
    if token[0] == b'0' {
        return if token.len() == 1 { Some(0) } else { None };
    }
    if token.len() > 15 {
        return Some(BEYOND);
    }
    let mut value = 0i64;
    for byte in token {
        value = value * 10 + i64::from(byte - b'0');
    }
    Some(value)
}

/// A number above 0.
pub(crate) fn positive(token: &[u8]) -> Option<i64> {
    natural(token).filter(|value| *value > 0)
}

/// "A literal is a variable or its negative."
pub(crate) fn literal(token: &[u8]) -> Option<i64> {
    match token.strip_prefix(b"-") {
        Some(rest) => positive(rest).map(|value| -value),
        None => positive(token),
    }
}

/// Items up to a closing `0`, which must be the only zero and the last token.
pub(crate) fn closed_list(list: &[&[u8]], item: fn(&[u8]) -> Option<i64>) -> Option<Vec<i64>> {
    let (last, items) = list.split_last()?;
    if *last != b"0" {
        return None;
    }
    items.iter().map(|token| item(token)).collect()
}

// -------------------------------------------------------------- formula

#[derive(Clone, Debug, Default)]
pub struct Formula {
    /// V of the `p` line.
    pub highest: i64,
    /// The prefix from left to right: universal or not, variable.
    pub prefix: Vec<(bool, i64)>,
    /// For each variable of the prefix: universal or not, and its place there.
    bound: HashMap<i64, (bool, usize)>,
    /// The matrix, as sets.
    pub matrix: Vec<BTreeSet<i64>>,
}

impl Formula {
    /// Binds a variable on the right; `false` if it is bound already.
    fn bind(&mut self, universal: bool, variable: i64) -> bool {
        let place = self.prefix.len();
        self.prefix.push((universal, variable));
        self.bound.insert(variable, (universal, place)).is_none()
    }

    pub fn is_bound(&self, variable: i64) -> bool {
        self.bound.contains_key(&variable)
    }

    pub fn is_universal(&self, variable: i64) -> bool {
        self.bound.get(&variable).is_some_and(|(universal, _)| *universal)
    }

    pub fn is_existential(&self, variable: i64) -> bool {
        self.bound.get(&variable).is_some_and(|(universal, _)| !*universal)
    }

    /// "Variable u is left of v if it stands earlier in the prefix."
    pub fn is_left(&self, u: i64, v: i64) -> bool {
        match (self.bound.get(&u), self.bound.get(&v)) {
            (Some((_, first)), Some((_, second))) => first < second,
            _ => false,
        }
    }
}

enum FormulaLine {
    Header { highest: i64, count: i64 },
    Prefix { universal: bool, variables: Vec<i64> },
    Clause { literals: Vec<i64> },
}

/// The form of a formula line, or `None` if it has no allowed form.
fn formula_line(line: &[&[u8]]) -> Option<FormulaLine> {
    match line[0] {
        b"p" => {
            if line.len() != 4 || line[1] != b"cnf" {
                return None;
            }
            Some(FormulaLine::Header { highest: natural(line[2])?, count: natural(line[3])? })
        }
        b"a" | b"e" => {
            let variables = closed_list(&line[1..], positive)?;
            if variables.is_empty() {
                return None;
            }
            Some(FormulaLine::Prefix { universal: line[0] == b"a", variables })
        }
        _ => Some(FormulaLine::Clause { literals: closed_list(line, literal)? }),
    }
}

/// All formula lines, and the end of the file.
fn formula_lines(file: &[u8], lengths: &[usize; 6], needs: &mut [usize; 6]) -> Result<Formula, Refusal> {
    let mut header: Option<i64> = None;
    let mut formula = Formula::default();
    for (index, line) in lines(file).into_iter().enumerate() {
        let refuse = |number: u64| Err(Refusal { number, line: index as u64 + 1 });
        let Some(line) = tokens(line) else { continue };
        let Some(form) = formula_line(&line) else { return refuse(2) };
        match form {
            FormulaLine::Header { highest, count } => {
                if header.is_some() {
                    return refuse(2);
                }
                if highest > VARIABLE_LIMIT || count > CLAUSE_LIMIT {
                    return refuse(3);
                }
                needs[PREFIX] = highest as usize;
                if needs[PREFIX] > lengths[PREFIX] {
                    return refuse(15);
                }
                header = Some(count);
                formula.highest = highest;
            }
            FormulaLine::Prefix { universal, variables } => {
                if header.is_none() || !formula.matrix.is_empty() {
                    return refuse(2);
                }
                if variables.iter().any(|variable| *variable > formula.highest) {
                    return refuse(3);
                }
                for variable in variables {
                    if !formula.bind(universal, variable) {
                        return refuse(4);
                    }
                }
            }
            FormulaLine::Clause { literals } => {
                let Some(count) = header else { return refuse(2) };
                if literals.iter().any(|literal| literal.abs() > formula.highest) {
                    return refuse(3);
                }
                needs[MATRIX] += literals.len() + 1;
                if needs[MATRIX] > lengths[MATRIX] {
                    return refuse(15);
                }
                if literals.iter().any(|literal| !formula.is_bound(literal.abs())) {
                    return refuse(5);
                }
                if formula.matrix.len() as i64 == count {
                    return refuse(6);
                }
                formula.matrix.push(literals.into_iter().collect());
            }
        }
    }
    match header {
        None => Err(Refusal { number: 2, line: 0 }),
        Some(count) if (formula.matrix.len() as i64) < count => Err(Refusal { number: 6, line: 0 }),
        Some(_) => Ok(formula),
    }
}

// ---------------------------------------------------------- certificate

/// `x P1..Pk 0 E1..Ek 0 L1..Lm 0`
pub(crate) struct Mapping {
    copies: Vec<i64>,
    existentials: Vec<i64>,
    annotation: Vec<i64>,
}

enum CertificateLine {
    Mapping(Mapping),
    Hints { clauses: Vec<i64> },
    Expansion { literals: Vec<i64> },
    Addition { literals: Vec<i64> },
    Deletion { literals: Vec<i64> },
}

/// The form of a line whose first token is `x`.
pub(crate) fn mapping_form(line: &[&[u8]]) -> Option<Mapping> {
    let zeros: Vec<usize> = (1..line.len()).filter(|index| line[*index] == b"0").collect();
    if zeros.len() != 3 {
        return None;
    }
    let copies = closed_list(&line[1..=zeros[0]], positive)?;
    let existentials = closed_list(&line[zeros[0] + 1..=zeros[1]], positive)?;
    let annotation = closed_list(&line[zeros[1] + 1..], literal)?;
    if copies.len() != existentials.len() {
        return None;
    }
    Some(Mapping { copies, existentials, annotation })
}

/// The form of a certificate line, or `None` if it has no allowed form.
fn certificate_line(line: &[&[u8]]) -> Option<CertificateLine> {
    match line[0] {
        b"x" => Some(CertificateLine::Mapping(mapping_form(line)?)),
        b"o" => Some(CertificateLine::Hints { clauses: closed_list(&line[1..], positive)? }),
        b"e" => Some(CertificateLine::Expansion { literals: closed_list(&line[1..], literal)? }),
        b"d" => Some(CertificateLine::Deletion { literals: closed_list(&line[1..], literal)? }),
        _ => Some(CertificateLine::Addition { literals: closed_list(line, literal)? }),
    }
}

/// What a copy stands for.
#[derive(Clone, Debug)]
pub struct Pair {
    pub existential: i64,
    pub annotation: BTreeSet<i64>,
}

/// The copies that are mapped, with what they stand for.
pub(crate) type Map = HashMap<i64, Pair>;

/// A mapping line of the right form and in its place: the number of its
/// refusal, or its copies are mapped.
pub(crate) fn map_copies(
    formula: &Formula,
    line: Mapping,
    lengths: &[usize; 6],
    needs: &mut [usize; 6],
    map: &mut Map,
) -> Result<(), u64> {
    let Mapping { copies, existentials, annotation } = line;
    if above(&copies, COPY_LIMIT) || above(&existentials, formula.highest) || above(&annotation, formula.highest) {
        return Err(3);
    }
    needs[MAP] += copies.len() + existentials.len() + annotation.len() + 3;
    raise(&mut needs[VALUES], &copies);
    if full(needs, lengths) {
        return Err(15);
    }
    let own: BTreeSet<i64> = copies.iter().copied().collect();
    if own.len() < copies.len() || own.iter().any(|copy| map.contains_key(copy)) {
        return Err(7);
    }
    let good_existentials = existentials.iter().all(|e| formula.is_existential(*e));
    let good_annotation = annotation
        .iter()
        .all(|l| formula.is_universal(l.abs()) && existentials.iter().all(|e| formula.is_left(l.abs(), *e)));
    let variables: BTreeSet<i64> = annotation.iter().map(|l| l.abs()).collect();
    if !good_existentials || !good_annotation || variables.len() < annotation.len() {
        return Err(8);
    }
    for (copy, existential) in copies.iter().zip(&existentials) {
        map.insert(*copy, Pair { existential: *existential, annotation: annotation.iter().copied().collect() });
    }
    Ok(())
}

/// What the copies of a line stand for, and whether they have a minus; `None`
/// if one is not mapped.
pub(crate) fn looked_up(map: &Map, literals: &[i64]) -> Option<Vec<(Pair, bool)>> {
    literals.iter().map(|l| map.get(&l.abs()).map(|pair| (pair.clone(), *l < 0))).collect()
}

/// Is the line an expansion of the clause?
///
/// The union of all that `t` must hold is the only candidate: every fit `t`
/// holds it, and what a fit `t` holds besides lies left of no existential of
/// the line, so that it may be left out.
pub fn is_expansion(formula: &Formula, mapped: &[(Pair, bool)], clause: &BTreeSet<i64>) -> bool {
    // "as a set exactly the clause's existential literals"
    let wanted: BTreeSet<i64> = clause.iter().copied().filter(|l| formula.is_existential(l.abs())).collect();
    let written: BTreeSet<i64> =
        mapped.iter().map(|(pair, negative)| if *negative { -pair.existential } else { pair.existential }).collect();
    if wanted != written {
        return false;
    }
    // "every universal literal of clause n is false in t"
    let mut t: BTreeSet<i64> = clause.iter().filter(|l| formula.is_universal(l.abs())).map(|l| -*l).collect();
    for (pair, _) in mapped {
        t.extend(pair.annotation.iter());
    }
    // "never both signs of one variable"
    if t.iter().any(|l| t.contains(&-*l)) {
        return false;
    }
    // "each copy's annotation equals the part of t over universals left of its existential"
    mapped.iter().all(|(pair, _)| {
        let part: BTreeSet<i64> = t.iter().copied().filter(|l| formula.is_left(l.abs(), pair.existential)).collect();
        part == pair.annotation
    })
}

// ------------------------------------------------------ standing clauses

/// "All clauses are sets: a literal written twice counts once."
fn as_set(literals: &[i64]) -> Vec<i64> {
    literals.iter().copied().collect::<BTreeSet<i64>>().into_iter().collect()
}

#[derive(Clone, Copy, Debug, PartialEq, Eq)]
pub enum Outcome {
    Conflict,
    Stable,
}

/// The standing clauses. A clause's id is the count of clauses accepted
/// before it; a deleted one leaves its id empty.
#[derive(Clone, Debug, Default)]
pub struct Standing {
    /// Sets, as sorted lists without repeats.
    clauses: Vec<Option<Vec<i64>>>,
    /// For each literal the standing clauses that hold it.
    holding: HashMap<i64, BTreeSet<usize>>,
    /// The standing clauses of no or one literal.
    short: BTreeSet<usize>,
    /// For each set the standing clauses of that set.
    equal: HashMap<Vec<i64>, BTreeSet<usize>>,
}

impl Standing {
    pub fn new() -> Standing {
        Standing::default()
    }

    pub fn clauses(&self) -> impl Iterator<Item = &Vec<i64>> {
        self.clauses.iter().flatten()
    }

    fn clause(&self, id: usize) -> &[i64] {
        self.clauses[id].as_deref().expect("a standing clause")
    }

    pub fn insert(&mut self, literals: &[i64]) {
        let id = self.clauses.len();
        let clause = as_set(literals);
        for literal in &clause {
            self.holding.entry(*literal).or_default().insert(id);
        }
        if clause.len() <= 1 {
            self.short.insert(id);
        }
        self.equal.entry(clause.clone()).or_default().insert(id);
        self.clauses.push(Some(clause));
    }

    /// Removes the earliest standing clause of the same set, if one stands.
    pub fn remove(&mut self, literals: &[i64]) -> bool {
        let clause = as_set(literals);
        let Some(id) = self.equal.get(&clause).and_then(|ids| ids.first().copied()) else { return false };
        self.equal.get_mut(&clause).unwrap().remove(&id);
        for literal in &clause {
            self.holding.get_mut(literal).unwrap().remove(&id);
        }
        self.short.remove(&id);
        self.clauses[id] = None;
        true
    }

    /// Does an empty clause stand?
    pub fn closed(&self) -> bool {
        self.equal.get(&Vec::new()).is_some_and(|ids| !ids.is_empty())
    }

    /// Propagation from a set of true literals.
    pub fn propagate(&self, start: &BTreeSet<i64>) -> Outcome {
        let place = |literal: i64| (literal + COPY_LIMIT) as usize;
        let mut truth = vec![false; 2 * COPY_LIMIT as usize + 1];
        let mut queue: VecDeque<i64> = start.iter().copied().collect();
        for id in &self.short {
            match self.clause(*id).first() {
                None => return Outcome::Conflict,
                Some(literal) => queue.push_back(*literal),
            }
        }
        // The queue holds literals to be made true.
        while let Some(literal) = queue.pop_front() {
            if truth[place(-literal)] {
                return Outcome::Conflict;
            }
            if truth[place(literal)] {
                continue;
            }
            truth[place(literal)] = true;
            let Some(touched) = self.holding.get(&-literal) else { continue };
            for id in touched {
                let mut open = self.clause(*id).iter().filter(|l| !truth[place(-**l)]);
                match (open.next(), open.next()) {
                    (None, _) => return Outcome::Conflict,
                    (Some(single), None) => queue.push_back(*single),
                    (Some(_), Some(_)) => {}
                }
            }
        }
        Outcome::Stable
    }

    /// The same by the words of the document alone, with no index at all:
    /// scan all standing clauses until a conflict or no change.
    pub fn propagate_by_scans(&self, start: &BTreeSet<i64>) -> Outcome {
        let mut truth = start.clone();
        loop {
            if truth.iter().any(|l| truth.contains(&-*l)) {
                return Outcome::Conflict;
            }
            let mut changed = false;
            for clause in self.clauses() {
                let open: Vec<i64> = clause.iter().copied().filter(|l| !truth.contains(&-*l)).collect();
                if open.is_empty() {
                    return Outcome::Conflict;
                }
                if open.len() == 1 && truth.insert(open[0]) {
                    changed = true;
                }
            }
            if !changed {
                return Outcome::Stable;
            }
        }
    }

    /// "A clause is RUP if propagation from the negations of its literals conflicts."
    pub fn is_rup(&self, clause: &BTreeSet<i64>) -> bool {
        self.propagate(&clause.iter().map(|l| -*l).collect()) == Outcome::Conflict
    }

    /// RUP, or not empty and RAT on the first written literal.
    pub fn allows(&self, literals: &[i64]) -> bool {
        let clause: BTreeSet<i64> = literals.iter().copied().collect();
        if self.is_rup(&clause) {
            return true;
        }
        let Some(first) = literals.first() else { return false };
        let Some(candidates) = self.holding.get(&-*first) else { return true };
        candidates.iter().all(|id| {
            let mut joined = clause.clone();
            joined.extend(self.clause(*id).iter().filter(|l| **l != -*first));
            self.is_rup(&joined)
        })
    }
}

// ------------------------------------------------------- certificate run

#[derive(Clone, Copy, Debug, PartialEq, Eq, PartialOrd, Ord)]
enum Part {
    Mapping,
    Hints,
    Expansions,
    Steps,
}

#[derive(Clone, Copy, Debug, Default)]
pub(crate) struct Counts {
    pub(crate) expansions: u64,
    pub(crate) additions: u64,
    pub(crate) deletions: u64,
}

fn raise(need: &mut usize, copies: &[i64]) {
    for copy in copies {
        *need = (*need).max(copy.unsigned_abs() as usize);
    }
}

/// A clause line's needs: its literals as written and so many places more.
pub(crate) fn need_clause(needs: &mut [usize; 6], literals: &[i64], more: usize) {
    needs[PROOF] += literals.len() + more;
    needs[MARKS] += 1;
    raise(&mut needs[VALUES], literals);
}

pub(crate) fn above(copies: &[i64], limit: i64) -> bool {
    copies.iter().any(|copy| copy.abs() > limit)
}

pub(crate) fn full(needs: &[usize; 6], lengths: &[usize; 6]) -> bool {
    (0..6).any(|table| needs[table] > lengths[table])
}

fn certificate_lines(
    formula: &Formula,
    file: &[u8],
    lengths: &[usize; 6],
    needs: &mut [usize; 6],
    counts: &mut Counts,
) -> Result<(), Refusal> {
    let mut part = Part::Mapping;
    let mut map = Map::new();
    let mut hints: Option<Vec<i64>> = None;
    let mut standing = Standing::new();

    for (index, line) in lines(file).into_iter().enumerate() {
        let refuse = |number: u64| Err(Refusal { number, line: index as u64 + 1 });
        let Some(line) = tokens(line) else { continue };
        let Some(form) = certificate_line(&line) else { return refuse(2) };
        match form {
            CertificateLine::Mapping(mapping) => {
                if part != Part::Mapping {
                    return refuse(2);
                }
                if let Err(number) = map_copies(formula, mapping, lengths, needs, &mut map) {
                    return refuse(number);
                }
            }
            CertificateLine::Hints { clauses } => {
                if part != Part::Mapping {
                    return refuse(2);
                }
                if above(&clauses, formula.matrix.len() as i64) {
                    return refuse(3);
                }
                needs[PROOF] += clauses.len() + 1;
                if full(needs, lengths) {
                    return refuse(15);
                }
                hints = Some(clauses);
                part = Part::Hints;
            }
            CertificateLine::Expansion { literals } => {
                if part == Part::Steps {
                    return refuse(2);
                }
                if above(&literals, COPY_LIMIT) {
                    return refuse(3);
                }
                need_clause(needs, &literals, 1);
                if full(needs, lengths) {
                    return refuse(15);
                }
                let Some(mapped) = looked_up(&map, &literals) else { return refuse(9) };
                let expands = match &hints {
                    Some(named) => match named.get(counts.expansions as usize) {
                        None => return refuse(10),
                        Some(n) => is_expansion(formula, &mapped, &formula.matrix[*n as usize - 1]),
                    },
                    None => formula.matrix.iter().any(|clause| is_expansion(formula, &mapped, clause)),
                };
                if !expands {
                    return refuse(11);
                }
                standing.insert(&literals);
                counts.expansions += 1;
                part = Part::Expansions;
            }
            CertificateLine::Addition { literals } => {
                if above(&literals, COPY_LIMIT) {
                    return refuse(3);
                }
                need_clause(needs, &literals, 1);
                if full(needs, lengths) {
                    return refuse(15);
                }
                if part != Part::Steps && hints_left_over(&hints, counts) {
                    return refuse(10);
                }
                part = Part::Steps;
                if !standing.allows(&literals) {
                    return refuse(12);
                }
                standing.insert(&literals);
                counts.additions += 1;
            }
            CertificateLine::Deletion { literals } => {
                if above(&literals, COPY_LIMIT) {
                    return refuse(3);
                }
                if part != Part::Steps && hints_left_over(&hints, counts) {
                    return refuse(10);
                }
                part = Part::Steps;
                if !standing.remove(&literals) {
                    return refuse(13);
                }
                counts.deletions += 1;
            }
        }
    }
    if part != Part::Steps && hints_left_over(&hints, counts) {
        return Err(Refusal { number: 10, line: 0 });
    }
    if !standing.closed() {
        return Err(Refusal { number: 14, line: 0 });
    }
    Ok(())
}

fn hints_left_over(hints: &Option<Vec<i64>>, counts: &Counts) -> bool {
    hints.as_ref().is_some_and(|named| named.len() as u64 > counts.expansions)
}

// ---------------------------------------------------------------- calls

fn report(file: u64, end: Result<(), Refusal>, counts: Counts, needs: [usize; 6]) -> Report {
    let (word, number, file, line) = match end {
        Ok(()) => (Word::Accepted, 0, 0, 0),
        Err(refusal) => (Word::Refused, refusal.number, file, refusal.line),
    };
    let Counts { expansions, additions, deletions } = counts;
    Report { verdict: Verdict { word, number, file, line, expansions, additions, deletions }, needs }
}

/// All lines of a certificate and its end, the formula being read.
pub(crate) type Certificate =
    fn(&Formula, &[u8], &[usize; 6], &mut [usize; 6], &mut Counts) -> Result<(), Refusal>;

/// A check, with limits on the lengths of the two files.
pub(crate) fn check_within(files: [&[u8]; 2], lengths: [usize; 6], limits: [usize; 2], certificate: Certificate) -> Report {
    let mut needs = [0; 6];
    let mut counts = Counts::default();
    let overlong = Err(Refusal { number: 1, line: 0 });
    if files[0].len() > limits[0] {
        return report(1, overlong, counts, needs);
    }
    if files[1].len() > limits[1] {
        return report(2, overlong, counts, needs);
    }
    let read = match formula_lines(files[0], &lengths, &mut needs) {
        Ok(read) => read,
        Err(refusal) => return report(1, Err(refusal), counts, needs),
    };
    let end = certificate(&read, files[1], &lengths, &mut needs, &mut counts);
    report(2, end, counts, needs)
}

/// The check of document 01.
pub fn check(formula: &[u8], certificate: &[u8], lengths: [usize; 6]) -> Report {
    check_within([formula, certificate], lengths, [FILE_LIMIT; 2], certificate_lines)
}

/// What the program `verdict` prints. A file that won't open is `None`.
pub fn program(formula: Option<&[u8]>, certificate: Option<&[u8]>) -> String {
    let files = [formula.unwrap_or(b""), certificate.unwrap_or(b"")];
    let limits = [PROGRAM_FORMULA_LIMIT, PROGRAM_CERTIFICATE_LIMIT];
    format!("{}\n", check_within(files, [PROGRAM_TABLE; 6], limits, certificate_lines).verdict.text())
}

/// The formula's part alone: refusal 1, then its lines and its end, with the
/// lengths of the prefix and matrix tables; answers the verdict (accepted if
/// the formula is refused nowhere) and the needs of these two tables.
pub fn read_formula(formula: &[u8], lengths: [usize; 2]) -> (Verdict, [usize; 2]) {
    let lengths = [lengths[0], lengths[1], usize::MAX, usize::MAX, usize::MAX, usize::MAX];
    let mut needs = [0; 6];
    let end = if formula.len() > FILE_LIMIT {
        Err(Refusal { number: 1, line: 0 })
    } else {
        formula_lines(formula, &lengths, &mut needs).map(|_| ())
    };
    (report(1, end, Counts::default(), needs).verdict, [needs[PREFIX], needs[MATRIX]])
}

/// The formula itself, if no formula line is refused in endless tables.
pub fn parse_formula(formula: &[u8]) -> Option<Formula> {
    if formula.len() > FILE_LIMIT {
        return None;
    }
    formula_lines(formula, &ENDLESS, &mut [0; 6]).ok()
}

/// The second call: which file (1 or 2) the part is of, its start, its end.
pub fn line_bytes(formula: &[u8], certificate: &[u8], file: i64, line: i64) -> (u8, usize, usize) {
    let (which, bytes) = if file == 1 { (1, formula) } else { (2, certificate) };
    let mut start = 0;
    let mut number = 1;
    for part in lines(bytes) {
        if number == line {
            return (which, start, start + part.len());
        }
        start += part.len() + 1;
        number += 1;
    }
    (which, bytes.len(), bytes.len())
}

/// The recursive reading of the quantifiers: `None` if the formula is
/// refused, or has more than 16 prefix variables.
pub fn is_false(formula: &[u8]) -> Option<bool> {
    let formula = parse_formula(formula)?;
    if formula.prefix.len() > 16 {
        return None;
    }
    Some(false_under(&formula, &mut Vec::new()))
}

fn false_under(formula: &Formula, values: &mut Vec<i64>) -> bool {
    if values.len() == formula.prefix.len() {
        return formula.matrix.iter().any(|clause| !clause.iter().any(|l| values.contains(l)));
    }
    let (universal, variable) = formula.prefix[values.len()];
    let mut with = |literal: i64| {
        values.push(literal);
        let answer = false_under(formula, values);
        values.pop();
        answer
    };
    if universal {
        with(variable) || with(-variable)
    } else {
        with(variable) && with(-variable)
    }
}
