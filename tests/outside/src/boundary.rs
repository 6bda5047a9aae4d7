//! The boundary to the checker under test. Implement [`Checker`] for it (for
//! instance over the C interface of a static library), then hand it to a
//! [`Comparison`].

use crate::corpus::{self, Case, Rng, Stored};
use crate::reference::{self, Report};
use crate::{ferp_fixed, fixed, Kind};
use std::path::Path;
use std::process::Command;

/// What a check is given besides the tables.
#[derive(Clone, Copy)]
pub struct Files<'a> {
    pub kind: Kind,
    pub formula: &'a [u8],
    pub certificate: &'a [u8],
}

impl Files<'_> {
    /// The reference's answer.
    pub fn report(self, lengths: [usize; 6]) -> Report {
        self.kind.check(self.formula, self.certificate, lengths)
    }
}

pub trait Checker {
    /// The check: both files and six lent tables (prefix, matrix, map,
    /// proof, marks, values). Answers word (accepted 1, refused 2), number,
    /// file, line, expansions, additions, deletions; of a FERP file
    /// expansions, resolutions, 0.
    fn check(&mut self, files: Files, tables: [&mut [i32]; 6]) -> [u64; 7];

    /// The list of checks: files one after the other, two ends and one kind
    /// for each check, seven numbers for each into `out` as far as it goes.
    /// An end below the one before it counts as that one, an end above the
    /// bytes' length as that length; an odd last end is left alone. With a
    /// number that names no kind, or none at all, no check is run and the
    /// seven numbers are 0.
    fn check_all(&mut self, list: List, tables: [&mut [i32]; 6], out: &mut [u32]);

    /// The call for a line's bytes: which file the part is of (1 formula, 2
    /// certificate), its start and its end there.
    fn line(&mut self, formula: &[u8], certificate: &[u8], file: i64, line: i64) -> (u8, usize, usize);
}

/// What a list of checks is given besides the tables.
#[derive(Clone, Copy)]
pub struct List<'a> {
    pub bytes: &'a [u8],
    pub ends: &'a [usize],
    pub kinds: &'a [u32],
}

impl<'a> List<'a> {
    /// The checks of the list, by the words at `Checker::check_all`; `None`
    /// where no check is run.
    pub fn checks(self) -> Vec<Option<Files<'a>>> {
        let mut checks = Vec::new();
        let mut from = 0;
        for (index, two) in self.ends.chunks_exact(2).enumerate() {
            let middle = two[0].max(from).min(self.bytes.len());
            let to = two[1].max(middle).min(self.bytes.len());
            let kind = self.kinds.get(index).and_then(|number| Kind::named(*number));
            let (formula, certificate) = (&self.bytes[from..middle], &self.bytes[middle..to]);
            checks.push(kind.map(|kind| Files { kind, formula, certificate }));
            from = to;
        }
        checks
    }
}

/// The reference behind the boundary. It writes rubbish to every place it
/// may write to, so that the harness itself is tried as well.
pub struct Reference;

impl Checker for Reference {
    fn check(&mut self, files: Files, tables: [&mut [i32]; 6]) -> [u64; 7] {
        let report = files.report(tables.each_ref().map(|table| table.len()));
        for (need, table) in report.needs.iter().zip(tables) {
            let end = table.len().min(*need);
            table[..end].fill(-7);
        }
        report.verdict.fields()
    }

    fn check_all(&mut self, list: List, mut tables: [&mut [i32]; 6], out: &mut [u32]) {
        for (index, files) in list.checks().into_iter().enumerate() {
            let lent = tables.each_mut().map(|table| &mut **table);
            let fields = files.map_or([0; 7], |files| self.check(files, lent));
            for (place, field) in out.iter_mut().skip(7 * index).zip(fields) {
                *place = field as u32;
            }
        }
    }

    fn line(&mut self, formula: &[u8], certificate: &[u8], file: i64, line: i64) -> (u8, usize, usize) {
        reference::line_bytes(formula, certificate, file, line)
    }
}

/// Places before and behind each table that are not lent.
const GUARD: usize = 4;

/// The six tables, each with its guards.
type Stores = [Vec<i32>; 6];

fn lend(stores: &mut Stores) -> [&mut [i32]; 6] {
    stores.each_mut().map(|store| {
        let end = store.len() - GUARD;
        &mut store[GUARD..end]
    })
}

fn zeros(lengths: [usize; 6]) -> Stores {
    lengths.map(|length| vec![0; length + 2 * GUARD])
}

/// Whether the guards, and the places beyond the needs, hold what they held.
fn unaltered(name: &str, needs: [usize; 6], before: &Stores, after: &Stores) -> Result<(), String> {
    for table in 0..6 {
        let (old, new) = (&before[table], &after[table]);
        let kept = GUARD + needs[table].min(old.len() - 2 * GUARD);
        if old[..GUARD] != new[..GUARD] || old[kept..] != new[kept..] {
            return Err(format!("{name}: table {table} altered beyond its need {}", needs[table]));
        }
    }
    Ok(())
}

/// What has been compared.
#[derive(Default)]
pub struct Tally {
    pub pairs: u64,
    pub checks: u64,
    /// How often each number was the verdict on a pair, in its own lengths,
    /// by kind.
    pub numbers: [[u64; 18]; 2],
    /// Accepted checks whose formula's recursive reading was evaluated, by
    /// kind.
    pub read_false: [u64; 2],
    pub lines: u64,
    pub lists: u64,
}

impl Tally {
    pub fn add(&mut self, other: &Tally) {
        self.pairs += other.pairs;
        self.checks += other.checks;
        self.lines += other.lines;
        self.lists += other.lists;
        for kind in Kind::ALL.map(|kind| kind as usize) {
            self.read_false[kind] += other.read_false[kind];
            for (count, more) in self.numbers[kind].iter_mut().zip(other.numbers[kind]) {
                *count += more;
            }
        }
    }
}

/// The tables that are handed on from pair to pair, never cleaned, the pair
/// that was checked last, short ones of both kinds, and the counts.
pub struct Comparison {
    stores: Stores,
    last: Case,
    short: Vec<Case>,
    /// The formula read recursively last, and the answer.
    read: (Vec<u8>, Option<bool>),
    rng: Rng,
    pub tally: Tally,
}

impl Comparison {
    pub fn new(seed: u64) -> Comparison {
        let cases = Kind::ALL.into_iter().flat_map(|kind| (0..200).map(move |index| Case::of(kind, seed, index)));
        let short: Vec<Case> = cases.filter(|case| case.formula.len() + case.certificate.len() < 2_000).collect();
        let (last, read) = (short[0].clone(), (Vec::new(), None));
        Comparison { stores: Default::default(), last, short, read, rng: Rng::new(seed), tally: Tally::default() }
    }

    fn rubbish(&mut self) -> i32 {
        match self.rng.below(6) {
            0 => 0,
            1 => i32::MIN,
            2 => i32::MAX,
            3 => self.rng.below(40) as i32 - 20,
            _ => self.rng.next() as i32,
        }
    }

    /// What earlier checks left, cut to these lengths or grown by rubbish.
    fn handed_on(&mut self, lengths: [usize; 6]) -> Stores {
        let mut stores = std::mem::take(&mut self.stores);
        for (store, length) in stores.iter_mut().zip(lengths) {
            store.truncate(length + 2 * GUARD);
            while store.len() < length + 2 * GUARD {
                store.push(self.rubbish());
            }
        }
        stores
    }

    /// Lengths near the needs, so that at times a table is full.
    fn random_lengths(&mut self, needs: [usize; 6]) -> [usize; 6] {
        let near = self.rng.chance(2, 3);
        needs.map(|need| match self.rng.below(12) {
            0 if near => need.saturating_sub(1),
            0 => self.rng.below(need + 2),
            1..=4 => need,
            5 => need + 1,
            _ => need + self.rng.below(60),
        })
    }

    fn in_rubbish(&mut self, lengths: [usize; 6]) -> Stores {
        lengths.map(|length| (0..length + 2 * GUARD).map(|_| self.rubbish()).collect())
    }

    /// The formula of an accepted check is false, if it is small enough to be
    /// read recursively.
    fn reads_false(&mut self, name: &str, files: Files, report: &Report) -> Result<(), String> {
        if report.verdict.number != 0 {
            return Ok(());
        }
        if self.read.0 != files.formula {
            self.read = (files.formula.to_vec(), reference::is_false(files.formula));
        }
        match self.read.1 {
            Some(false) => Err(format!("{name}: accepted, and its formula is true")),
            Some(true) => {
                self.tally.read_false[files.kind as usize] += 1;
                Ok(())
            }
            None => Ok(()),
        }
    }

    /// One check in these tables: all fields, all places and both files.
    fn compare_in(
        &mut self,
        checker: &mut dyn Checker,
        name: &str,
        files: Files,
        report: &Report,
        stores: &mut Stores,
    ) -> Result<(), String> {
        let before = stores.clone();
        let copies = [files.formula, files.certificate].map(<[u8]>::to_vec);
        let found = checker.check(files, lend(stores));
        let expected = report.verdict.fields();
        if found != expected {
            let lengths = before.map(|store| store.len() - 2 * GUARD);
            return Err(format!("{name}: verdict {found:?}, expected {expected:?}, lengths {lengths:?}"));
        }
        if [files.formula, files.certificate] != copies {
            return Err(format!("{name}: a file was altered"));
        }
        self.tally.checks += 1;
        self.reads_false(name, files, report)?;
        unaltered(name, report.needs, &before, stores)
    }

    /// One pair, three ways: in tables of zeros, straight after another
    /// certificate in the same tables, and in tables of random contents and
    /// lengths. Lines' bytes are compared as well.
    pub fn pair(
        &mut self,
        checker: &mut dyn Checker,
        name: &str,
        files: Files,
        lengths: [usize; 6],
    ) -> Result<Report, String> {
        let lengths = lengths.map(|length| length.min(1 << 20));
        let report = files.report(lengths);
        self.compare_in(checker, &format!("{name}, in zeros"), files, &report, &mut zeros(lengths))?;
        self.after_another(checker, name, files, lengths, &report)?;

        let others = self.random_lengths(report.needs);
        let other = files.report(others);
        let mut stores = self.in_rubbish(others);
        self.compare_in(checker, &format!("{name}, in rubbish"), files, &other, &mut stores)?;

        self.lines(checker, name, files, &report)?;
        self.tally.pairs += 1;
        self.tally.numbers[files.kind as usize][report.verdict.number as usize] += 1;
        Ok(report)
    }

    /// The pair before this one, or a short one of either kind, and then this
    /// one, in the same tables, which hold what earlier checks left: of this
    /// pair's lengths, or long enough for both.
    fn after_another(
        &mut self,
        checker: &mut dyn Checker,
        name: &str,
        files: Files,
        lengths: [usize; 6],
        report: &Report,
    ) -> Result<(), String> {
        let Files { kind, formula, certificate } = files;
        let own = Case { kind, damage: "", formula: formula.to_vec(), certificate: certificate.to_vec(), lengths };
        let last = std::mem::replace(&mut self.last, own);
        let before = if self.rng.chance(1, 2) { last } else { self.rng.pick(&self.short).clone() };
        let another = before.files();
        let mut lengths = lengths;
        if self.rng.chance(1, 2) {
            let needs = another.report(reference::ENDLESS).needs;
            lengths = std::array::from_fn(|table| lengths[table].max(needs[table]).max(report.needs[table]));
        }
        let mut stores = self.handed_on(lengths);
        for (name, files) in [(format!("before {name}"), another), (format!("{name}, after another"), files)] {
            let report = files.report(lengths);
            self.compare_in(checker, &name, files, &report, &mut stores)?;
        }
        self.stores = stores;
        Ok(())
    }

    fn lines(&mut self, checker: &mut dyn Checker, name: &str, files: Files, report: &Report) -> Result<(), String> {
        let Files { formula, certificate, .. } = files;
        let mut asked = vec![(report.verdict.file as i64, report.verdict.line as i64)];
        for _ in 0..3 {
            asked.push((self.rng.below(5) as i64 - 1, self.rng.below(14) as i64 - 2));
        }
        for (file, bytes) in [(1, formula), (2, certificate)] {
            let count = bytes.iter().filter(|byte| **byte == 10).count() as i64;
            asked.extend([(file, count), (file, count + 1), (file, count + 2)]);
        }
        for (file, line) in asked {
            let expected = reference::line_bytes(formula, certificate, file, line);
            let found = checker.line(formula, certificate, file, line);
            if found != expected {
                return Err(format!("{name}: file {file} line {line} is {found:?}, expected {expected:?}"));
            }
            self.tally.lines += 1;
        }
        Ok(())
    }

    /// The fixed cases of both kinds.
    pub fn fixed(&mut self, checker: &mut dyn Checker) -> Result<usize, String> {
        let mut cases = fixed::cases();
        cases.extend(ferp_fixed::cases());
        for case in &cases {
            let files = Files { kind: case.kind, formula: &case.formula, certificate: &case.certificate };
            let report = self.pair(checker, &case.name, files, case.lengths)?;
            if report.verdict.text() != case.expected {
                return Err(format!("{}: {}, expected {}", case.name, report.verdict.text(), case.expected));
            }
        }
        Ok(cases.len())
    }

    /// Cases `from..to` of this kind's corpus of this seed.
    pub fn corpus(&mut self, checker: &mut dyn Checker, kind: Kind, seed: u64, from: u64, to: u64) -> Result<(), String> {
        for index in from..to {
            let case = Case::of(kind, seed, index);
            let name = format!("{} corpus {seed}/{index} ({})", kind.name(), case.damage);
            let report = self.pair(checker, &name, case.files(), case.lengths)?;
            if report.verdict.number == 0 && case.certificate.len() <= 65_536 {
                self.without_a_line(checker, &name, case.files(), report.needs)?;
            }
        }
        Ok(())
    }

    /// The pairs stored under `data`, with the verdicts that the script which
    /// made them wrote down.
    pub fn data(&mut self, checker: &mut dyn Checker, folder: &Path) -> Result<usize, String> {
        let pairs = corpus::data(folder)?;
        for stored in &pairs {
            let (name, files) = (&stored.name, stored.files());
            let report = self.pair(checker, name, files, [1 << 19; 6])?;
            if report.verdict.text() != stored.expected {
                return Err(format!("{}: {}, expected {}", name, report.verdict.text(), stored.expected));
            }
            if files.certificate.len() <= 65_536 {
                self.in_exact_tables(checker, name, files, &report)?;
                for _ in 0..10 {
                    self.without_a_line(checker, name, files, report.needs)?;
                }
            }
        }
        Ok(pairs.len())
    }

    /// The pair, and in the same tables the pair without one of the
    /// certificate's lines: what the first check left of it may not be found.
    fn without_a_line(&mut self, checker: &mut dyn Checker, name: &str, files: Files, lengths: [usize; 6]) -> Result<(), String> {
        let mut lines: Vec<&[u8]> = files.certificate.split_inclusive(|byte| *byte == 10).collect();
        lines.remove(self.rng.below(lines.len()));
        let certificate = lines.concat();
        let cut = Files { certificate: &certificate, ..files };
        let mut stores = self.in_rubbish(lengths);
        for (name, files) in [(format!("{name}, whole"), files), (format!("{name}, without a line"), cut)] {
            let report = files.report(lengths);
            self.compare_in(checker, &name, files, &report, &mut stores)?;
        }
        Ok(())
    }

    /// The pair in tables that fit, and with one place too few.
    fn in_exact_tables(&mut self, checker: &mut dyn Checker, name: &str, files: Files, report: &Report) -> Result<(), String> {
        self.compare_in(checker, name, files, report, &mut zeros(report.needs))?;
        for table in (0..6).filter(|table| report.needs[*table] > 0) {
            let mut lengths = report.needs;
            lengths[table] -= 1;
            let short = files.report(lengths);
            self.compare_in(checker, name, files, &short, &mut zeros(lengths))?;
            if short.verdict.number != 15 {
                return Err(format!("{name}: table {table} one short gave {}", short.verdict.text()));
            }
        }
        Ok(())
    }

    /// The stored pairs again, `count` times each with a few bytes, tokens or
    /// lines damaged.
    pub fn damaged_data(&mut self, checker: &mut dyn Checker, folder: &Path, seed: u64, count: u64) -> Result<(), String> {
        let mut rng = Rng::new(seed);
        for stored in corpus::data(folder)? {
            if stored.certificate.len() > 65_536 {
                continue;
            }
            for index in 0..count {
                let (formula, certificate) = stored.damaged(&mut rng);
                let name = format!("{}, damaged {seed}/{index}", stored.name);
                let files = Files { kind: stored.kind, formula: &formula, certificate: &certificate };
                self.pair(checker, &name, files, [16_384; 6])?;
            }
        }
        Ok(())
    }

    /// `count` lists of up to five checks of both kinds, in tables that hold
    /// rubbish, some with ends that do not fit, kinds that name none or are
    /// missing, or results that do not all have a place.
    pub fn lists(&mut self, checker: &mut dyn Checker, seed: u64, count: u64) -> Result<(), String> {
        for index in 0..count {
            let mut rng = Rng::new(seed.wrapping_mul(1_000_003).wrapping_add(index));
            let (mut bytes, mut ends, mut kinds) = (Vec::new(), Vec::new(), Vec::new());
            let mut lengths = [400; 6];
            for _ in 0..rng.below(6) {
                let case = Case::of(rng.one(&Kind::ALL), seed, rng.next() >> 20);
                for file in [&case.formula, &case.certificate] {
                    bytes.extend(file);
                    ends.push(bytes.len());
                }
                kinds.push(case.kind.number());
                if rng.chance(1, 3) {
                    lengths = case.lengths.map(|length| length.min(16_384));
                }
            }
            damage_list(&mut rng, bytes.len(), &mut ends, &mut kinds);
            let results = (7 * (ends.len() / 2) + rng.below(3) * rng.below(9)).saturating_sub(rng.below(2) * rng.below(9));
            let list = List { bytes: &bytes, ends: &ends, kinds: &kinds };
            self.list(checker, &format!("list {seed}/{index}"), list, lengths, results)?;
        }
        Ok(())
    }

    /// The seven numbers that are due, those of a single check in zeros, and
    /// the needs.
    fn single(
        &mut self,
        checker: &mut dyn Checker,
        name: &str,
        files: Option<Files>,
        lengths: [usize; 6],
    ) -> Result<([u64; 7], [usize; 6]), String> {
        let Some(files) = files else { return Ok(([0; 7], [0; 6])) };
        let report = files.report(lengths);
        self.compare_in(checker, &format!("{name}, alone"), files, &report, &mut zeros(lengths))?;
        Ok((report.verdict.fields(), report.needs))
    }

    fn list(
        &mut self,
        checker: &mut dyn Checker,
        name: &str,
        list: List,
        lengths: [usize; 6],
        results: usize,
    ) -> Result<(), String> {
        let mut stores = self.in_rubbish(lengths);
        let before = stores.clone();
        let mut out: Vec<u32> = (0..results + 2 * GUARD).map(|_| self.rubbish() as u32).collect();
        let (mut expected, mut needs) = (out.clone(), [0; 6]);
        for (index, files) in list.checks().into_iter().enumerate() {
            let (fields, needed) = self.single(checker, name, files, lengths)?;
            for (place, field) in expected[GUARD..GUARD + results].iter_mut().skip(7 * index).zip(fields) {
                *place = field as u32;
            }
            for table in 0..6 {
                needs[table] = needs[table].max(needed[table]);
            }
        }
        checker.check_all(list, lend(&mut stores), &mut out[GUARD..GUARD + results]);
        if out != expected {
            return Err(format!("{name}, kinds {:?}: {out:?}, expected {expected:?}", list.kinds));
        }
        self.tally.lists += 1;
        unaltered(name, needs, &before, &stores)
    }
}

/// Ends that do not fit; kinds that name none, are missing or too many, or
/// are the other kind.
fn damage_list(rng: &mut Rng, length: usize, ends: &mut Vec<usize>, kinds: &mut Vec<u32>) {
    if rng.chance(1, 5) && !ends.is_empty() {
        let place = rng.below(ends.len());
        ends[place] = rng.one(&[0, 3, usize::MAX, length / 2, length + 1]);
    }
    if rng.chance(1, 5) {
        ends.pop();
    }
    if rng.chance(1, 3) && !kinds.is_empty() {
        let place = rng.below(kinds.len());
        kinds[place] = rng.one(&[0, 1, 2, 3, 4, 255, 257, 258, 65_537, 1 << 31, u32::MAX]);
    }
    match rng.below(8) {
        0 => {
            kinds.pop();
        }
        1 => kinds.truncate(rng.below(kinds.len() + 1)),
        2 => kinds.push(rng.one(&[0, 1, 2, 3])),
        _ => {}
    }
}

/// The program `verdict`, run in a folder with these two files. A file that
/// is `None` is not there.
pub fn compare_program(
    program: &Path,
    folder: &Path,
    name: &str,
    formula: Option<&[u8]>,
    certificate: Option<&[u8]>,
) -> Result<(), String> {
    for (file, bytes) in [("formula.qdimacs", formula), ("proof.ferat", certificate)] {
        let path = folder.join(file);
        match bytes {
            Some(bytes) => std::fs::write(&path, bytes).map_err(|error| error.to_string())?,
            None if path.exists() => std::fs::remove_file(&path).map_err(|error| error.to_string())?,
            None => {}
        }
    }
    let expected = reference::program(formula, certificate);
    let output = Command::new(program).current_dir(folder).output().map_err(|error| error.to_string())?;
    if output.stdout != expected.as_bytes() {
        let found = String::from_utf8_lossy(&output.stdout).into_owned();
        return Err(format!("{name}: printed {found:?}, expected {expected:?}"));
    }
    Ok(())
}

/// The program on the fixed cases, the stored pairs, files at its limits and
/// the first `count` corpus cases; answers how many runs there were.
pub fn compare_program_runs(
    program: &Path,
    folder: &Path,
    data: &Path,
    seed: u64,
    count: u64,
) -> Result<u64, String> {
    let mut runs = 0;
    let mut run = |name: &str, formula: Option<&[u8]>, certificate: Option<&[u8]>| {
        runs += 1;
        compare_program(program, folder, name, formula, certificate)
    };
    run("no files", None, None)?;
    run("no certificate", Some(b"p cnf 0 1\n0\n"), None)?;
    run("no formula", None, Some(b"0\n"))?;
    for formula in [16_383, 16_384, 16_385, 70_000] {
        for certificate in [65_535, 65_536, 65_537, 140_000] {
            let mut first = b"p cnf 0 1\n0\n".to_vec();
            first.resize(formula, b' ');
            let mut second = b"e 0\n".to_vec();
            second.resize(certificate, 10);
            run(&format!("lengths {formula} {certificate}"), Some(&first), Some(&second))?;
        }
    }
    for case in fixed::cases() {
        run(&case.name, Some(&case.formula), Some(&case.certificate))?;
    }
    for Stored { name, formula, certificate, .. } in corpus::data(data)?.into_iter().filter(|stored| stored.kind == Kind::Ferat) {
        run(&name, Some(&formula), Some(&certificate))?;
    }
    for index in 0..count {
        let case = corpus::case(seed, index);
        run(&format!("corpus {seed}/{index}"), Some(&case.formula), Some(&case.certificate))?;
    }
    Ok(runs)
}
