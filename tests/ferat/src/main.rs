//! Runs the proved library and the independent checker on the same pairs of
//! files with FERAT and FERP certificates, each pair three ways: all seven
//! fields, every place beyond the needs and lines' bytes are compared; then
//! lists of checks of both kinds; then the command and the C++ example, given
//! as two arguments. Every refusal must be put into words, and a full table be
//! named with the places that the independent checker counts.
//! `bench FORMULA CERTIFICATE` prints times instead; a certificate whose name
//! ends in `.ferp` is a FERP one.

mod programs;

use outside::boundary::{Checker, Comparison, Files, List, Tally};
use outside::Kind;
use std::path::Path;

/// A check takes about 2.2 MiB.
const STACK: usize = 16 << 20;

const TABLES: [&str; 6] = ["prefix", "matrix", "map", "proof", "marks", "values"];

struct Proved;

/// A refusal has a reason; a full table has its own.
fn assert_explained(files: Files, lengths: [usize; 6], seven: &[u32; 7]) {
    let reasons = hutsvida::explain::reasons(files.kind.number(), [files.formula, files.certificate], &lengths, seven);
    assert_eq!(reasons.is_empty(), seven[0] == hutsvida::ACCEPTED, "{seven:?} {reasons:?}");
    if seven[1] == 15 {
        let needs = files.report(lengths).needs;
        let full = (0..6).filter(|table| needs[*table] > lengths[*table]);
        let told = |table: usize| format!("the {} table has {} places, and {} are needed so far", TABLES[table], lengths[table], needs[table]);
        assert_eq!(reasons, full.map(told).collect::<Vec<_>>());
    }
}

impl Checker for Proved {
    fn check(&mut self, files: Files, tables: [&mut [i32]; 6]) -> [u64; 7] {
        let lengths = tables.each_ref().map(|table| table.len());
        let seven = match files.kind {
            Kind::Ferat => hutsvida::check(files.formula, files.certificate, tables),
            Kind::Ferp => hutsvida::check_ferp(files.formula, files.certificate, tables),
        };
        assert_explained(files, lengths, &seven);
        seven.map(u64::from)
    }

    fn check_all(&mut self, list: List, tables: [&mut [i32]; 6], out: &mut [u32]) {
        hutsvida::check_all(list.bytes, list.ends, list.kinds, tables, out);
    }

    // A number below 0 becomes one above every other: "any other number" of
    // a file, and no line.
    fn line(&mut self, formula: &[u8], certificate: &[u8], file: i64, line: i64) -> (u8, usize, usize) {
        let [start, end] = hutsvida::line_ends(formula, certificate, file as u32, line as usize);
        (if file == 1 { 1 } else { 2 }, start, end)
    }
}

fn bench(formula: &str, certificate: &str) {
    let kind = if certificate.ends_with(".ferp") { Kind::Ferp } else { Kind::Ferat };
    let (formula, certificate) = (std::fs::read(formula).unwrap(), std::fs::read(certificate).unwrap());
    let files = Files { kind, formula: &formula, certificate: &certificate };
    let mut tables = vec![vec![-5i32; 1 << 20]; 6];
    let [a, b, c, d, e, f] = &mut tables[..] else { unreachable!() };
    let start = std::time::Instant::now();
    let found = Proved.check(files, [a, b, c, d, e, f]);
    println!("proved {found:?} {:?}", start.elapsed());
    let start = std::time::Instant::now();
    let expected = files.report([1 << 20; 6]).verdict.fields();
    println!("unproved {expected:?} {:?}", start.elapsed());
}

/// The fixed, stored and damaged pairs, lists, the made FERP pairs, and the
/// C++ example.
fn compare_stored(data: &Path, example: &Path) -> Result<Tally, String> {
    let mut comparison = Comparison::new(3);
    let fixed = comparison.fixed(&mut Proved)?;
    let stored = comparison.data(&mut Proved, data)?;
    comparison.damaged_data(&mut Proved, data, 5, 60)?;
    comparison.lists(&mut Proved, 6, 5_000)?;
    made(&mut comparison, Kind::Ferp, 5_000)?;
    println!("library: {fixed} fixed and {stored} stored pairs");
    programs::compare_example(example, data)?;
    Ok(comparison.tally)
}

/// The made pairs of this kind, so many of each seed.
fn made(comparison: &mut Comparison, kind: Kind, count: u64) -> Result<(), String> {
    [1, 2, 3].into_iter().try_for_each(|seed| comparison.corpus(&mut Proved, kind, seed, 0, count))
}

/// The made FERAT pairs, and the command.
fn compare_made(data: &Path, command: &Path) -> Result<Tally, String> {
    let mut comparison = Comparison::new(4);
    made(&mut comparison, Kind::Ferat, 10_000)?;
    programs::compare_command(command, data)?;
    Ok(comparison.tally)
}

fn compare(data: &Path, command: &Path, example: &Path) -> Result<(), String> {
    let tally = std::thread::scope(|scope| {
        let start = || std::thread::Builder::new().stack_size(STACK);
        let stored = start().spawn_scoped(scope, || compare_stored(data, example)).map_err(|error| error.to_string())?;
        let made = start().spawn_scoped(scope, || compare_made(data, command)).map_err(|error| error.to_string())?;
        let cut_off = |_| "a comparison was cut off".to_string();
        let (stored, made) = (stored.join().map_err(cut_off)?, made.join().map_err(cut_off)?);
        let mut tally = stored?;
        tally.add(&made?);
        Ok::<Tally, String>(tally)
    })?;
    println!("library: {} pairs, each three ways", tally.pairs);
    for kind in Kind::ALL {
        let (counts, read) = (tally.numbers[kind as usize], tally.read_false[kind as usize]);
        println!("library, {}: by number 0 to 17 {counts:?}; {read} accepted formulas read recursively, all false", kind.name());
        if let Some(number) = kind.numbers().into_iter().find(|number| counts[*number] < 100) {
            return Err(format!("{}: number {number} is too rare", kind.name()));
        }
    }
    println!("library: {} checks, {} lists and {} lines as the independent checker has them", tally.checks, tally.lists, tally.lines);
    Ok(())
}

fn main() -> Result<(), String> {
    let arguments: Vec<String> = std::env::args().skip(1).collect();
    match &arguments[..] {
        [word, formula, certificate] if word == "bench" => bench(formula, certificate),
        [command, example] => {
            let data = Path::new(concat!(env!("CARGO_MANIFEST_DIR"), "/../outside/data"));
            compare(data, Path::new(command), Path::new(example))?;
        }
        _ => return Err("two programs are due, the command and the C++ example".to_string()),
    }
    Ok(())
}
