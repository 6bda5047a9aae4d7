use outside::boundary::{self, Comparison, Reference};
use outside::corpus::Case;
use outside::{reference, Kind};
use std::path::Path;

const USAGE: &str = "usage: outside spread [COUNT [SEED]]
       outside check FORMULA CERTIFICATE [SIX LENGTHS]
       outside case ferat|ferp SEED INDEX FOLDER
       outside data [FOLDER]
       outside program PROGRAM FOLDER [COUNT [SEED]]
       outside verdict";

/// The kind that a word or a file's name ends in; FERAT else.
fn kind_of(name: &str) -> Kind {
    if name.ends_with(Kind::Ferp.name()) {
        Kind::Ferp
    } else {
        Kind::Ferat
    }
}

fn main() {
    let arguments: Vec<String> = std::env::args().skip(1).collect();
    let number = |place: usize, other: u64| arguments.get(place).and_then(|text| text.parse().ok()).unwrap_or(other);
    match arguments.first().map(|text| text.as_str()) {
        Some("spread") => Kind::ALL.into_iter().for_each(|kind| spread(kind, number(1, 20_000), number(2, 1))),
        Some("check") if arguments.len() >= 3 => {
            let formula = std::fs::read(&arguments[1]).unwrap_or_default();
            let certificate = std::fs::read(&arguments[2]).unwrap_or_default();
            let mut lengths = reference::ENDLESS;
            for (table, length) in lengths.iter_mut().enumerate() {
                *length = number(3 + table, u64::MAX) as usize;
            }
            let report = kind_of(&arguments[2]).check(&formula, &certificate, lengths);
            println!("{}", report.verdict.text());
            println!("needs {:?}", report.needs);
        }
        Some("case") if arguments.len() == 5 => {
            let kind = kind_of(&arguments[1]);
            let case = Case::of(kind, number(2, 1), number(3, 0));
            let folder = Path::new(&arguments[4]);
            std::fs::write(folder.join("formula.qdimacs"), &case.formula).unwrap();
            std::fs::write(folder.join(format!("proof.{}", kind.name())), &case.certificate).unwrap();
            println!("{} lengths {:?}", case.damage, case.lengths);
        }
        Some("data") => {
            let folder = arguments.get(1).cloned().unwrap_or(concat!(env!("CARGO_MANIFEST_DIR"), "/data").to_string());
            match Comparison::new(1).data(&mut Reference, Path::new(&folder)) {
                Ok(count) => println!("{count} stored pairs as expected"),
                Err(error) => {
                    println!("{error}");
                    std::process::exit(1);
                }
            }
        }
        Some("program") if arguments.len() >= 3 => {
            let data = concat!(env!("CARGO_MANIFEST_DIR"), "/data");
            let (program, folder) = (Path::new(&arguments[1]), Path::new(&arguments[2]));
            match boundary::compare_program_runs(program, folder, Path::new(data), number(4, 1), number(3, 1_000)) {
                Ok(runs) => println!("{runs} runs of the program as expected"),
                Err(error) => {
                    println!("{error}");
                    std::process::exit(1);
                }
            }
        }
        Some("verdict") => {
            let formula = std::fs::read("formula.qdimacs").ok();
            let certificate = std::fs::read("proof.ferat").ok();
            print!("{}", reference::program(formula.as_deref(), certificate.as_deref()));
        }
        _ => println!("{USAGE}"),
    }
}

/// A row of counts under a word.
fn row(word: &str, counts: &[u64]) {
    print!("{word:>16}");
    counts.iter().for_each(|n| print!("{n:>6}"));
    println!();
}

/// How often each number occurs, and in which kinds of damage.
fn spread(kind: Kind, count: u64, seed: u64) {
    let mut damages: std::collections::BTreeMap<&str, [u64; 18]> = Default::default();
    let mut accepted = [0u64; 4];
    for index in 0..count {
        let case = Case::of(kind, seed, index);
        let verdict = case.files().report(case.lengths).verdict;
        if verdict.number == 0 {
            accepted[0] += u64::from(verdict.expansions > 4);
            accepted[1] += u64::from(verdict.additions > 2);
            accepted[2] += u64::from(verdict.additions > 8);
            accepted[3] += u64::from(verdict.deletions > 0);
        }
        damages.entry(case.damage).or_default()[verdict.number as usize] += 1;
    }
    row(kind.name(), &std::array::from_fn::<u64, 18, _>(|number| number as u64));
    damages.iter().for_each(|(damage, counts)| row(damage, counts));
    row("all", &std::array::from_fn::<u64, 18, _>(|number| damages.values().map(|counts| counts[number]).sum()));
    let [expansions, some, many, deletions] = accepted;
    match kind {
        Kind::Ferat => println!(
            "accepted with over 4 expansions {expansions}, over 2 additions {some}, over 8 additions {many}, with deletions {deletions}"
        ),
        Kind::Ferp => println!("accepted with over 4 expansions {expansions}, over 2 resolutions {some}, over 8 resolutions {many}"),
    }
}
