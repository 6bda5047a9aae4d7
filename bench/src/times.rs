//! The times of both checks on a pair, as a row of the table.

use crate::pairs::Pair;
use crate::peer::{self, Report};
use crate::Tables;
use std::hint::black_box;
use std::time::Instant;

pub const ROUNDS: usize = 21;
/// A measurement repeats the check until this many bytes were read.
const BYTES: usize = 1 << 21;

pub const HEAD: &str = "\
| pair | formula's bytes | certificate's bytes | verdict | proved | unproved | ratio | rounds | fastest \
| prefix | matrix | map | proof | marks | values |
|---|---:|---:|---|---:|---:|---:|---|---:|---:|---:|---:|---:|---:|---:|";

/// The milliseconds of one check.
fn time(times: usize, mut check: impl FnMut() -> [u32; 7]) -> f64 {
    let start = Instant::now();
    for _ in 0..times {
        black_box(check());
    }
    start.elapsed().as_secs_f64() * 1000.0 / times as f64
}

fn sorted(mut numbers: Vec<f64>) -> Vec<f64> {
    numbers.sort_by(f64::total_cmp);
    numbers
}

/// The times of both checks, in turns: proved, unproved.
fn rounds(tables: &mut Tables, pair: &Pair) -> Vec<(f64, f64)> {
    let times = 1 + BYTES / (pair.formula.len() + pair.certificate.len());
    let mut proved = || time(times, || tables.check(pair, &hutsvida::PLACES));
    let unproved = || time(times, || peer::check(&pair.formula, &pair.certificate, &hutsvida::PLACES).seven);
    let both = |round: usize| {
        if round % 2 == 0 {
            return (proved(), unproved());
        }
        let second = unproved();
        (proved(), second)
    };
    (0..ROUNDS).map(both).collect()
}

pub fn row(tables: &mut Tables, pair: &Pair, report: &Report) -> String {
    let times = rounds(tables, pair);
    let proved = sorted(times.iter().map(|t| t.0).collect());
    let unproved = sorted(times.iter().map(|t| t.1).collect());
    let ratios = sorted(times.iter().map(|t| t.0 / t.1).collect());
    let (first, middle, last) = (0, ROUNDS / 2, ROUNDS - 1);
    format!(
        "| {} | {} | {} | {} | {:.3} | {:.3} | {:.2} | {:.2} to {:.2} | {:.2} | {} |",
        pair.name,
        pair.formula.len(),
        pair.certificate.len(),
        crate::fields(&report.seven),
        proved[middle],
        unproved[middle],
        proved[middle] / unproved[middle],
        ratios[first],
        ratios[last],
        proved[first] / unproved[first],
        report.needs.map(|n| n.to_string()).join(" | "),
    )
}
