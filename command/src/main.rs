//! `hutsvida VERB ..`: the verbs are in `help/`, a text for each. What a check
//! prints: for each pair of files the verdict's seven fields when they are
//! known, and below a refusal, indented, where and why. Exit status: 0 all
//! accepted, 1 one refused, 2 trouble.

mod files;
mod memory;
mod streams;

use hutsvida::{explain, Tables, PLACES, WORDS};
use std::ffi::{OsStr, OsString};
use std::io::Write;
use std::process::ExitCode;

#[global_allocator]
static MEMORY: memory::Memory = memory::Memory;

/// A check takes 2.2 MiB at most.
const STACK: usize = 16 << 20;

/// What `help` says without a verb.
const USAGE: &str = include_str!("../help/main.txt");

/// A verb that checks pairs: the kind of their certificates, the library's
/// call, and what `help` says of it.
struct Check {
    kind: u32,
    call: fn(&[u8], &[u8], Tables) -> [u32; 7],
    help: &'static str,
}

const FERAT: Check = Check { kind: hutsvida::FERAT, call: hutsvida::check, help: include_str!("../help/ferat.txt") };
const FERP: Check = Check { kind: hutsvida::FERP, call: hutsvida::check_ferp, help: include_str!("../help/ferp.txt") };

/// The verbs and what `help` says of each.
const HELP: [(&str, &str); 4] = [
    ("ferat", FERAT.help),
    ("ferp", FERP.help),
    ("help", include_str!("../help/help.txt")),
    ("version", include_str!("../help/version.txt")),
];

/// Two files and their names.
struct Pair<'a> {
    names: [&'a OsStr; 2],
    files: [&'a [u8]; 2],
}

/// A verdict's line and, for a refusal, where it is and why.
fn report(kind: u32, pair: &Pair, seven: &[u32; 7]) -> String {
    let accepted = seven[0] == hutsvida::ACCEPTED;
    let word = if accepted { "accepted" } else { "refused" };
    let numbers: Vec<String> = seven[1..].iter().map(u32::to_string).collect();
    let mut text = format!("{word},{}\n", numbers.join(","));
    if accepted {
        return text;
    }
    let [_, number, file, line, ..] = *seven;
    let name = files::shown_name(pair.names[if file == 1 { 0 } else { 1 }]);
    text += &format!("  {name}:{line}: {}", WORDS[number as usize]);
    if line > 0 {
        text += &format!(": {}", explain::shown_line(pair.files, file, line as usize));
    }
    text.push('\n');
    for reason in explain::reasons(kind, pair.files, &PLACES, seven) {
        text += &format!("    {reason}\n");
    }
    text
}

/// Checks the pairs one after the other in the same tables, and prints each
/// verdict when it is known; answers whether all were accepted.
fn check_pairs(check: &Check, names: &[OsString], bytes: &[Vec<u8>]) -> Result<bool, String> {
    let mut stores = PLACES.map(|places| vec![0; places]);
    let mut accepted = true;
    for (names, bytes) in names.chunks(2).zip(bytes.chunks(2)) {
        let pair = Pair { names: [&names[0], &names[1]], files: [&bytes[0], &bytes[1]] };
        let tables = stores.each_mut().map(|store| store.as_mut_slice());
        let seven = (check.call)(pair.files[0], pair.files[1], tables);
        accepted &= seven[0] == hutsvida::ACCEPTED;
        streams::print(report(check.kind, &pair, &seven).as_bytes())?;
    }
    Ok(accepted)
}

fn checked(check: &Check, names: &[OsString]) -> Result<bool, String> {
    if names.is_empty() || names.len() % 2 != 0 {
        return Err(format!("files come in pairs, FORMULA CERTIFICATE, and {} were given\n{}", names.len(), check.help));
    }
    streams::require_output()?;
    let bytes = files::read_all(names)?;
    std::thread::scope(|scope| {
        let run = || check_pairs(check, names, &bytes);
        let thread = std::thread::Builder::new().stack_size(STACK).spawn_scoped(scope, run);
        let thread = thread.map_err(|error| format!("cannot start the check: {error}"))?;
        thread.join().map_err(|_| "the check was cut off".to_string())?
    })
}

fn help(verbs: &[OsString]) -> Result<bool, String> {
    let text = match verbs {
        [] => Some(USAGE),
        [verb] => HELP.iter().find(|(name, _)| verb == name).map(|(_, text)| *text),
        _ => return Err("help takes one verb at most".to_string()),
    };
    let text = text.ok_or_else(|| unknown(&verbs[0]))?;
    streams::print(text.as_bytes())?;
    Ok(true)
}

fn version(words: &[OsString]) -> Result<bool, String> {
    if !words.is_empty() {
        return Err("version takes no word more".to_string());
    }
    let sources = option_env!("HUTSVIDA_SOURCES").unwrap_or("not named");
    streams::print(format!("hutsvida {}\nsources {sources}\n", env!("CARGO_PKG_VERSION")).as_bytes())?;
    Ok(true)
}

fn unknown(verb: &OsStr) -> String {
    format!("there is no verb {}\n{USAGE}", files::shown_name(verb))
}

/// Whether all was accepted; trouble is a message.
fn run(words: &[OsString]) -> Result<bool, String> {
    let Some((verb, rest)) = words.split_first() else {
        return Err(format!("a verb is due\n{USAGE}"));
    };
    match verb.to_str() {
        Some("ferat") => checked(&FERAT, rest),
        Some("ferp") => checked(&FERP, rest),
        Some("help" | "--help") => help(rest),
        Some("version" | "--version") => version(rest),
        _ => Err(unknown(verb)),
    }
}

fn main() -> ExitCode {
    let words: Vec<OsString> = std::env::args_os().skip(1).collect();
    match run(&words) {
        Ok(true) => ExitCode::from(0),
        Ok(false) => ExitCode::from(1),
        Err(message) => {
            let _ = writeln!(std::io::stderr(), "hutsvida: {}", message.trim_end());
            ExitCode::from(2)
        }
    }
}
