//! `bench FOLDER`: runs the proved check (the library's `check_ferp`) and the
//! unproved one (`peer`) on the pairs of a folder, in one process, in turns,
//! and prints a table. First the verdicts of both are compared, on the pairs
//! and on damaged ones. Exit status: 0; 1 if a verdict differs; 2 without
//! pairs.

mod damage;
mod pairs;
mod peer;
mod times;

use damage::Dice;
use pairs::Pair;
use peer::Needs;
use std::path::Path;
use std::process::ExitCode;

const DAMAGED: usize = 200;
/// The checks take more stack than a thread has by default.
const STACK: usize = 64 << 20;

/// The six tables, lent as the check before left them: nothing is cleared.
struct Tables([Vec<i32>; 6]);

impl Tables {
    fn check(&mut self, pair: &Pair, lengths: &Needs) -> [u32; 7] {
        let mut lent = self.0.each_mut().map(|table| table.as_mut_slice());
        for (table, length) in lent.iter_mut().zip(lengths) {
            *table = &mut std::mem::take(table)[..*length];
        }
        hutsvida::check_ferp(&pair.formula, &pair.certificate, lent)
    }
}

fn fields(seven: &[u32; 7]) -> String {
    let word = if seven[0] == hutsvida::ACCEPTED { "accepted" } else { "refused" };
    seven[1..].iter().fold(word.to_string(), |text, n| format!("{text},{n}"))
}

/// Compares the verdicts on a pair in tables of these lengths: the number.
fn compare(tables: &mut Tables, pair: &Pair, lengths: &Needs) -> Result<u32, String> {
    let proved = tables.check(pair, lengths);
    let unproved = peer::check(&pair.formula, &pair.certificate, lengths).seven;
    if proved == unproved {
        return Ok(proved[1]);
    }
    Err(format!("{}: {} proved, {} unproved", pair.name, fields(&proved), fields(&unproved)))
}

/// Compares the verdicts on a pair and on damaged copies of it; counts the
/// numbers of the latter.
fn compare_all(tables: &mut Tables, pair: &Pair, spread: &mut [usize]) -> Result<(), String> {
    compare(tables, pair, &hutsvida::PLACES)?;
    let needs = peer::check(&pair.formula, &pair.certificate, &hutsvida::PLACES).needs;
    let mut dice = Dice::new(pair.certificate.len() as u64);
    for _ in 0..DAMAGED {
        let (damaged, lengths) = damage::pair(pair, &needs, &mut dice);
        spread[compare(tables, &damaged, &lengths)? as usize] += 1;
    }
    Ok(())
}

fn spread_text(spread: &[usize]) -> String {
    let seen = spread.iter().enumerate().filter(|(_, &count)| count > 0);
    seen.map(|(number, count)| format!("{number}: {count}")).collect::<Vec<_>>().join(", ")
}

fn run(pairs: &[Pair]) -> Result<(), String> {
    let mut tables = Tables(hutsvida::PLACES.map(|places| vec![0; places]));
    let mut spread = vec![0; hutsvida::WORDS.len()];
    for pair in pairs {
        compare_all(&mut tables, pair, &mut spread)?;
    }
    println!("Both checks give the same verdicts on {} pairs, and on {} damaged ones", pairs.len(), pairs.len() * DAMAGED);
    println!("(number, 0 if accepted: how often): {}.\n", spread_text(&spread));
    println!("Medians of {} rounds in turns, in milliseconds, and their ratio; the least and the most of the rounds' ratios;", times::ROUNDS);
    println!("the ratio of the fastest times. Places used of the six tables; they are lent as the check before left them.\n");
    println!("{}", times::HEAD);
    for pair in pairs {
        let report = peer::check(&pair.formula, &pair.certificate, &hutsvida::PLACES);
        println!("{}", times::row(&mut tables, pair, &report));
    }
    Ok(())
}

fn ended(status: u8, message: &str) -> ExitCode {
    eprintln!("bench: {message}");
    ExitCode::from(status)
}

fn main() -> ExitCode {
    let Some(folder) = std::env::args_os().nth(1) else { return ended(2, "usage: bench FOLDER") };
    let pairs = match pairs::load(Path::new(&folder)) {
        Ok(pairs) if pairs.is_empty() => return ended(2, "no pairs"),
        Ok(pairs) => pairs,
        Err(error) => return ended(2, &error.to_string()),
    };
    let thread = std::thread::Builder::new().stack_size(STACK).spawn(move || run(&pairs));
    match thread.expect("a thread").join().expect("no panic") {
        Ok(()) => ExitCode::SUCCESS,
        Err(message) => ended(1, &message),
    }
}
