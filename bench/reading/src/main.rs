//! Measures the proved reading of files of 1 MB (`hutsvida_largest`) against an
//! unproved loop over a table of classes, in one process, in turns, and prints a
//! table. First the answers of both are compared, on the files and on damaged
//! parts of them. Exit status: 0; 1 if an answer differs.

mod files;
mod peer;

use files::Dice;
use std::hint::black_box;
use std::process::ExitCode;
use std::time::Instant;

const ROUNDS: usize = 201;
const DAMAGED: usize = 20_000;

extern "C" {
    fn hutsvida_largest(file: *const u8, length: usize) -> u32;
}

fn proved(file: &[u8]) -> u32 {
    // a slice's pointer is never null
    unsafe { hutsvida_largest(file.as_ptr(), file.len()) }
}

fn milliseconds(read: fn(&[u8]) -> u32, file: &[u8]) -> f64 {
    let start = Instant::now();
    black_box(read(black_box(file)));
    start.elapsed().as_secs_f64() * 1000.0
}

fn sorted(mut times: Vec<f64>) -> Vec<f64> {
    times.sort_by(f64::total_cmp);
    times
}

fn row(name: &str, file: &[u8]) {
    let mut ours = Vec::new();
    let mut theirs = Vec::new();
    for round in 0..ROUNDS {
        // either comes first in turn
        if round % 2 == 0 {
            ours.push(milliseconds(proved, file));
            theirs.push(milliseconds(peer::largest, file));
        } else {
            theirs.push(milliseconds(peer::largest, file));
            ours.push(milliseconds(proved, file));
        }
    }
    let ratios = sorted(ours.iter().zip(&theirs).map(|(a, b)| a / b).collect());
    let (ours, theirs) = (sorted(ours), sorted(theirs));
    let half = ROUNDS / 2;
    println!(
        "| {name} | {} | {:.2} | {:.2} | {:.2} | {:.2} to {:.2} | {:.2} |",
        file.len(),
        ours[half],
        theirs[half],
        ours[half] / theirs[half],
        ratios[ROUNDS / 10],
        ratios[ROUNDS - 1 - ROUNDS / 10],
        ours[0] / theirs[0]
    );
}

fn main() -> ExitCode {
    let files = files::all();
    let mut dice = Dice(1_234_567_891_011);
    let mut found = 0;
    for (name, file) in &files {
        for k in 0..=DAMAGED {
            let part = if k == 0 { file.clone() } else { files::damaged(file, &mut dice) };
            let (ours, theirs) = (proved(&part), peer::largest(&part));
            if ours != theirs {
                eprintln!("{name}, part {k}: {ours} and {theirs}");
                return ExitCode::from(1);
            }
            found += (ours > 0) as usize;
        }
    }
    println!("{} files and parts read alike, {found} with a literal\n", files.len() * (DAMAGED + 1));
    println!("| file | bytes | proved ms | unproved ms | ratio | rounds, all but a tenth at either end | of the fastest |");
    println!("|---|---:|---:|---:|---:|---|---:|");
    for (name, file) in &files {
        row(name, file);
    }
    ExitCode::SUCCESS
}
