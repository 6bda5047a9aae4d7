//! The corpus and the reference against each other, and the harness.

use outside::boundary::{Checker, Comparison, Files, List, Reference};
use outside::corpus::{self, Case, Rng};
use outside::reference::{self, is_expansion, Outcome, Pair, Standing, Word, ENDLESS};
use outside::Kind;
use std::collections::BTreeSet;
use std::path::Path;

const SEED: u64 = 1;

/// So many cases of each kind.
fn cases(seed: u64, count: u64) -> impl Iterator<Item = (u64, Case)> {
    Kind::ALL.into_iter().flat_map(move |kind| (0..count).map(move |index| (index, Case::of(kind, seed, index))))
}

#[test]
fn cases_are_functions_of_seed_and_index() {
    for (index, one) in cases(SEED, 200) {
        let other = Case::of(one.kind, SEED, index);
        assert_eq!((one.formula, one.certificate, one.lengths), (other.formula, other.certificate, other.lengths));
    }
}

#[test]
fn spread() {
    let mut numbers = [[0u64; 18]; 2];
    for (_, case) in cases(SEED, 6_000) {
        numbers[case.kind as usize][case.files().report(case.lengths).verdict.number as usize] += 1;
    }
    println!("of 6000 cases of each kind, by number 0 to 17: {numbers:?}");
    for kind in Kind::ALL {
        for (number, count) in numbers[kind as usize].iter().enumerate() {
            let possible = kind.numbers().contains(&number);
            assert!(if possible { *count >= 50 } else { *count == 0 }, "{} {number}: {numbers:?}", kind.name());
        }
    }
}

#[test]
fn accepted_means_false() {
    let mut accepted = [0; 2];
    for (index, case) in cases(SEED + 1, 6_000) {
        let report = case.files().report(case.lengths);
        if report.verdict.word == Word::Accepted {
            let fields = report.verdict.fields();
            assert_eq!(fields[..4], [1, 0, 0, 0]);
            if let Some(answer) = reference::is_false(&case.formula) {
                accepted[case.kind as usize] += 1;
                assert!(answer, "{} case {index}", case.kind.name());
            }
        }
    }
    println!("{accepted:?} accepted formulas are false");
    assert!(accepted.iter().all(|count| *count > 1_000), "{accepted:?}");
}

#[test]
fn needs_fit() {
    // Tables of exactly the needs give the same; for an accepted pair each
    // table one short gives 15; the formula's part alone agrees.
    for (index, case) in cases(SEED + 2, 3_000) {
        let ample = case.files().report(ENDLESS);
        assert_ne!(ample.verdict.number, 15);
        let exact = case.files().report(ample.needs);
        assert_eq!(ample, exact, "case {index}");
        for table in 0..6 {
            if ample.needs[table] > 0 {
                let mut lengths = ample.needs;
                lengths[table] -= 1;
                let short = case.files().report(lengths);
                assert_eq!(short.verdict.number, 15, "case {index} table {table}");
                assert!((0..6).all(|other| short.needs[other] <= ample.needs[other]));
                assert!(short.needs[table] > lengths[table]);
            }
        }
        let given = case.files().report(case.lengths);
        if case.certificate.len() <= reference::FILE_LIMIT {
            let (verdict, needs) = reference::read_formula(&case.formula, [case.lengths[0], case.lengths[1]]);
            assert_eq!(needs, [given.needs[0], given.needs[1]], "case {index}");
            if given.verdict.file == 1 || verdict.number != 0 {
                assert_eq!(verdict, given.verdict, "case {index}");
            }
        }
    }
}

#[test]
fn skipped_lines_move_lines_only() {
    let mut rng = Rng::new(5);
    for (index, case) in cases(SEED + 3, 1_000) {
        if case.formula.len() > 100_000 || case.certificate.len() > 100_000 {
            continue;
        }
        let plain = case.files().report(case.lengths).verdict;
        let skipped: &[u8] = *rng.pick(&[b"\n".as_slice(), b" \t\r\n", b"c p cnf\n", b" cc\xff 0\n"]);
        let formula = [skipped, &case.formula].concat();
        let certificate = [skipped, skipped, &case.certificate].concat();
        let moved = case.kind.check(&formula, &certificate, case.lengths).verdict;
        let mut expected = plain;
        if plain.line > 0 {
            expected.line += plain.file;
        }
        assert_eq!(moved, expected, "case {index}");
    }
}

/// A FERP line's index, literals and numbers, if it is a clause line.
fn clause_of(line: &str) -> Option<(i64, Vec<i64>, Vec<i64>)> {
    let number = |token: &str| token.parse().ok().filter(|n: &i64| n.to_string() == token);
    let tokens: Vec<i64> = line.split_whitespace().map(number).collect::<Option<_>>()?;
    let zero = tokens.iter().position(|n| *n == 0)?;
    let (last, reason) = tokens.get(zero + 1..)?.split_last()?;
    (zero > 0 && *last == 0).then(|| (tokens[0], tokens[1..zero].to_vec(), reason.to_vec()))
}

fn written(head: &str, list: &[i64]) -> String {
    let tokens: Vec<String> = list.iter().chain([&0]).map(|n| n.to_string()).collect();
    format!("{head}{}", tokens.join(" "))
}

#[test]
fn turned_parents_and_other_indexes_change_nothing() {
    // Index i becomes 65,537 - i everywhere, and parents are turned.
    let other = |index: i64| if (1..=65_536).contains(&index) { 65_537 - index } else { index };
    let mut resolutions = 0;
    for index in 0..3_000 {
        let case = Case::of(Kind::Ferp, SEED + 5, index);
        let Ok(text) = String::from_utf8(case.certificate.clone()) else { continue };
        if text.len() > 100_000 || text.contains(['\u{b}', '\u{c}']) {
            continue;
        }
        let changed: Vec<String> = text
            .split('\n')
            .map(|line| match clause_of(line) {
                Some((own, literals, reason)) if reason.len() == 2 => {
                    resolutions += 1;
                    written(&format!("{} ", other(own)), &literals) + &written(" ", &[other(reason[1]), other(reason[0])])
                }
                Some((own, literals, reason)) => written(&format!("{} ", other(own)), &literals) + &written(" ", &reason),
                None => line.to_string(),
            })
            .collect();
        let expected = case.files().report(case.lengths);
        let found = Kind::Ferp.check(&case.formula, changed.join("\n").as_bytes(), case.lengths);
        assert_eq!(found, expected, "case {index}");
    }
    assert!(resolutions > 5_000, "{resolutions}");
}

#[test]
fn accepted_ferp_is_accepted_as_ferat() {
    // The expansions first, with their numbers for hints; a resolvent is RUP.
    let (mut accepted, mut additions) = (0, 0);
    for index in 0..3_000 {
        let case = Case::of(Kind::Ferp, SEED + 6, index);
        let verdict = case.files().report(ENDLESS).verdict;
        if verdict.word != Word::Accepted || case.certificate.len() > 100_000 {
            continue;
        }
        let text = String::from_utf8_lossy(&case.certificate).into_owned();
        let mapping: Vec<String> = text.lines().filter(|line| line.trim_start().starts_with('x')).map(str::to_string).collect();
        let clauses: Vec<_> = text.lines().filter_map(clause_of).collect();
        let expansions = || clauses.iter().filter(|(_, _, reason)| reason.len() == 1);
        let hints: Vec<i64> = expansions().map(|(_, _, reason)| reason[0]).collect();
        let mut lines = [mapping, vec![written("o ", &hints)]].concat();
        lines.extend(expansions().map(|(_, literals, _)| written("e ", literals)));
        lines.extend(clauses.iter().filter(|(_, _, reason)| reason.len() == 2).map(|(_, literals, _)| written("", literals)));
        let found = reference::check(&case.formula, lines.join("\n").as_bytes(), ENDLESS).verdict;
        assert_eq!(found, verdict, "case {index}");
        accepted += 1;
        additions += verdict.additions;
    }
    println!("{accepted} accepted FERP files, {additions} resolvents, accepted as FERAT");
    assert!(accepted > 400 && additions > 800, "{accepted} {additions}");
}

#[test]
fn propagation_by_scans_agrees() {
    let mut rng = Rng::new(7);
    let mut conflicts = 0;
    for _ in 0..3_000 {
        let mut standing = Standing::new();
        let mut list: Vec<Vec<i64>> = Vec::new();
        for _ in 0..rng.between(0, 25) {
            let clause: Vec<i64> = (0..rng.between(i64::from(rng.clone().chance(14, 15)), 4))
                .map(|_| rng.between(1, 8) * rng.one(&[1, -1]))
                .collect();
            standing.insert(&clause);
            list.push(clause);
            if rng.chance(1, 6) {
                let clause = rng.pick(&list).clone();
                standing.remove(&clause);
            }
        }
        for _ in 0..6 {
            let start: BTreeSet<i64> =
                (0..rng.between(0, 4)).map(|_| rng.between(1, 8) * rng.one(&[1, -1])).collect();
            let answer = standing.propagate(&start);
            assert_eq!(answer, standing.propagate_by_scans(&start), "{start:?} {:?}", standing.clauses().collect::<Vec<_>>());
            conflicts += u64::from(answer == Outcome::Conflict);
        }
    }
    assert!((3_000..15_000).contains(&conflicts), "{conflicts}");
}

/// Does a fit t exist? Every partial assignment of the universals is tried.
fn expands_by_trying(formula: &reference::Formula, mapped: &[(Pair, bool)], clause: &BTreeSet<i64>) -> bool {
    let universals: Vec<i64> = formula.prefix.iter().filter(|(u, _)| *u).map(|(_, v)| *v).collect();
    let written: BTreeSet<i64> = mapped.iter().map(|(p, negative)| if *negative { -p.existential } else { p.existential }).collect();
    let wanted: BTreeSet<i64> = clause.iter().copied().filter(|l| !universals.contains(&l.abs())).collect();
    let mut codes = vec![0; universals.len()];
    loop {
        let t: BTreeSet<i64> = universals
            .iter()
            .zip(&codes)
            .filter(|(_, code)| **code > 0)
            .map(|(v, code)| if *code == 1 { *v } else { -*v })
            .collect();
        let clause_false = clause.iter().filter(|l| universals.contains(&l.abs())).all(|l| t.contains(&-*l));
        let parts_equal = mapped.iter().all(|(pair, _)| {
            t.iter().copied().filter(|l| formula.is_left(l.abs(), pair.existential)).collect::<BTreeSet<i64>>() == pair.annotation
        });
        if clause_false && parts_equal && written == wanted {
            return true;
        }
        let Some(place) = codes.iter().position(|code| *code < 2) else { return false };
        codes[place] += 1;
        codes[..place].fill(0);
    }
}

#[test]
fn expansion_by_trying_agrees() {
    let mut rng = Rng::new(11);
    let mut fit = 0;
    let mut tried = 0;
    for index in 0..3_000 {
        let case = corpus::case(SEED + 4, index);
        let Some(formula) = reference::parse_formula(&case.formula) else { continue };
        let universals: Vec<i64> = formula.prefix.iter().filter(|(u, _)| *u).map(|(_, v)| *v).collect();
        if formula.matrix.is_empty() || universals.len() > 5 || formula.prefix.len() > 20 {
            continue;
        }
        for _ in 0..6 {
            let clause = rng.pick(&formula.matrix).clone();
            // A whole t near the clause, and now and then a change.
            let mut t: BTreeSet<i64> = universals.iter().map(|v| *v * rng.one(&[1, -1])).collect();
            t.retain(|_| rng.chance(4, 5));
            for l in clause.iter().filter(|l| universals.contains(&l.abs())) {
                t.remove(l);
                t.insert(-*l);
            }
            let mut mapped: Vec<(Pair, bool)> = Vec::new();
            for l in clause.iter().filter(|l| !universals.contains(&l.abs())) {
                let mut annotation: BTreeSet<i64> =
                    t.iter().copied().filter(|u| formula.is_left(u.abs(), l.abs())).collect();
                if rng.chance(1, 12) && !annotation.is_empty() {
                    let gone = *annotation.iter().nth(rng.below(annotation.len())).unwrap();
                    annotation.remove(&gone);
                    if rng.chance(1, 2) {
                        annotation.insert(-gone);
                    }
                }
                mapped.push((Pair { existential: l.abs(), annotation }, *l < 0));
            }
            if rng.chance(1, 10) && !mapped.is_empty() {
                let place = rng.below(mapped.len());
                if rng.chance(1, 2) {
                    mapped.remove(place);
                } else {
                    mapped[place].1 = !mapped[place].1;
                }
            }
            let other = rng.pick(&formula.matrix).clone();
            for clause in [clause, other] {
                let answer = is_expansion(&formula, &mapped, &clause);
                assert_eq!(answer, expands_by_trying(&formula, &mapped, &clause), "case {index} {mapped:?} {clause:?}");
                fit += u64::from(answer);
                tried += 1;
            }
        }
    }
    println!("{fit} of {tried} expand");
    assert!(fit * 4 > tried && fit * 10 < tried * 9);
}

#[test]
fn harness_passes_the_reference() {
    let folder = Path::new(env!("CARGO_MANIFEST_DIR")).join("data");
    let mut comparison = Comparison::new(3);
    comparison.fixed(&mut Reference).unwrap();
    for kind in Kind::ALL {
        comparison.corpus(&mut Reference, kind, SEED, 0, 1_000).unwrap();
    }
    comparison.lists(&mut Reference, SEED, 400).unwrap();
    comparison.damaged_data(&mut Reference, &folder, SEED, 2).unwrap();
    println!("{:?}", comparison.tally.numbers);
}

#[test]
fn stored_pairs() {
    let folder = Path::new(env!("CARGO_MANIFEST_DIR")).join("data");
    let count = Comparison::new(4).data(&mut Reference, &folder).unwrap();
    println!("{count} stored pairs");
    for (kind, least) in [(Kind::Ferat, 40), (Kind::Ferp, 25)] {
        let accepted = corpus::data(&folder).unwrap().iter().filter(|stored| stored.kind == kind && stored.expected.starts_with('a')).count();
        assert!(accepted >= least, "{} {accepted}", kind.name());
    }
}

/// A checker that is wrong in a way of its own: in a check, in a list from
/// its second check on, in a line's end.
struct Wrong {
    check: fn(Kind, &mut [u64; 7], &mut [&mut [i32]; 6], [usize; 6]),
    list: fn(List, &mut [u32]),
    line: usize,
}

impl Checker for Wrong {
    fn check(&mut self, files: Files, mut tables: [&mut [i32]; 6]) -> [u64; 7] {
        let report = files.report(tables.each_ref().map(|table| table.len()));
        let mut fields = report.verdict.fields();
        (self.check)(files.kind, &mut fields, &mut tables, report.needs);
        fields
    }

    fn check_all(&mut self, list: List, tables: [&mut [i32]; 6], out: &mut [u32]) {
        Reference.check_all(list, tables, out);
        (self.list)(list, out);
    }

    fn line(&mut self, formula: &[u8], certificate: &[u8], file: i64, line: i64) -> (u8, usize, usize) {
        let (which, start, end) = reference::line_bytes(formula, certificate, file, line);
        (which, start, end - self.line.min(end - start))
    }
}

const RIGHT: Wrong = Wrong { check: |_, _, _, _| {}, list: |_, _| {}, line: 0 };

/// Leaves a mark in a counted place of a FERAT check, and takes it for an
/// empty clause in the FERP check after it.
fn left_by_the_other_kind(kind: Kind, fields: &mut [u64; 7], tables: &mut [&mut [i32]; 6], needs: [usize; 6]) {
    if needs[3] == 0 || tables[3].is_empty() {
        return;
    }
    if kind == Kind::Ferp && tables[3][0] == 77_777_777 && fields[1] == 14 {
        *fields = [1, 0, 0, 0, fields[4], fields[5], 0];
    }
    tables[3][0] = if kind == Kind::Ferat { 77_777_777 } else { 0 };
}

/// After an accepted FERP check, a missing parent of the next one is found in
/// what that check left.
fn left_by_the_same_kind(kind: Kind, fields: &mut [u64; 7], tables: &mut [&mut [i32]; 6], needs: [usize; 6]) {
    if kind == Kind::Ferat || needs[4] == 0 || tables[4].is_empty() {
        return;
    }
    let left = 77_000_000 + fields[4] as i32;
    if fields[1] == 16 && tables[4][0] == left + 1 {
        *fields = [1, 0, 0, 0, fields[4], fields[5], 0];
    }
    tables[4][0] = if fields[1] == 0 { left } else { 0 };
}

/// Where no check is due: any other than the seven zeros.
fn no_kind(list: List, out: &mut [u32], wrong: [u32; 7]) {
    for (index, files) in list.checks().iter().enumerate() {
        if files.is_none() {
            out.iter_mut().skip(7 * index).zip(wrong).for_each(|(place, number)| *place = number);
        }
    }
}

fn wrong_checkers() -> Vec<Wrong> {
    vec![
        Wrong { check: |_, fields, _, _| *fields = [1, 0, 0, 0, 0, 0, 0], ..RIGHT },
        Wrong { check: |_, fields, _, _| fields[6] = 0, ..RIGHT },
        Wrong { check: |_, fields, _, _| fields[3] += u64::from(fields[1] == 10), ..RIGHT },
        Wrong { check: |_, fields, _, _| fields[1] = if fields[1] == 16 { 12 } else { fields[1] }, ..RIGHT },
        Wrong { check: |kind, fields, _, _| fields[5] *= u64::from(kind == Kind::Ferat), ..RIGHT },
        // One place beyond the need is written.
        Wrong { check: |_, _, tables, needs| if let Some(place) = tables[5].get_mut(needs[5]) { *place ^= 1 }, ..RIGHT },
        Wrong { check: |_, _, tables, needs| if let Some(place) = tables[0].get_mut(needs[0]) { *place ^= 1 }, ..RIGHT },
        Wrong {
            check: |kind, _, tables, needs| if let (Kind::Ferp, Some(place)) = (kind, tables[3].get_mut(needs[3])) { *place ^= 1 },
            ..RIGHT
        },
        // A mark left in a counted place makes the next check accept.
        Wrong {
            check: |_, fields, tables, needs| {
                if needs[0] > 0 && !tables[0].is_empty() {
                    if tables[0][0] == 77_777_777 {
                        *fields = [1, 0, 0, 0, 0, 0, 0];
                    }
                    tables[0][0] = 77_777_777;
                }
            },
            ..RIGHT
        },
        Wrong { check: left_by_the_other_kind, ..RIGHT },
        Wrong { check: left_by_the_same_kind, ..RIGHT },
        // What the tables held enters the verdict.
        Wrong { check: |_, fields, tables, _| fields[4] += u64::from(tables[1].last().is_some_and(|n| *n == i32::MAX)), ..RIGHT },
        // The first verdict is echoed; a result is lost; a number is written too far.
        Wrong { list: |_, out| if out.len() > 13 { out.copy_within(0..7, 7) }, ..RIGHT },
        Wrong { list: |_, out| if let Some(place) = out.last_mut() { *place ^= 1 }, ..RIGHT },
        // No kind is a refusal, an acceptance, or leaves what was there.
        Wrong { list: |list, out| no_kind(list, out, [2, 2, 0, 0, 0, 0, 0]), ..RIGHT },
        Wrong { list: |list, out| no_kind(list, out, [1, 0, 0, 0, 0, 0, 0]), ..RIGHT },
        Wrong { list: |list, out| no_kind(list, out, [0, 0, 0, 0, 0, 0, 7]), ..RIGHT },
        // The call for a line's bytes leaves the last one out.
        Wrong { line: 1, ..RIGHT },
    ]
}

#[test]
fn harness_catches_wrong_checkers() {
    let run = |checker: &mut Wrong| {
        let mut comparison = Comparison::new(9);
        for kind in Kind::ALL {
            comparison.corpus(checker, kind, SEED, 0, 400)?;
        }
        comparison.lists(checker, SEED, 100)
    };
    for (place, mut checker) in wrong_checkers().into_iter().enumerate() {
        assert!(run(&mut checker).is_err(), "wrong checker {place} passes");
    }
    run(&mut { RIGHT }).unwrap();
}
