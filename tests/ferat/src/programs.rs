//! The command (`hutsvida ferat`, `hutsvida ferp`) and the C++ example, run
//! on files.

use outside::corpus::{self, Case, Rng};
use outside::{ferp_fixed, fixed, reference, Kind};
use std::ffi::{OsStr, OsString};
use std::fs::File;
use std::os::unix::ffi::OsStrExt;
use std::path::{Path, PathBuf};
use std::process::{Command, Output, Stdio};

/// Tables that no pair within document 01's limits fills.
const PLACES: [usize; 6] = [4_096, 524_288, 524_288, 524_288, 524_288, 16_384];

const WORDS: [&str; 18] = [
    "",
    "overlong",
    "malformed",
    "out of range",
    "bound twice",
    "unbound",
    "wrong clause count",
    "mapped twice",
    "bad annotation",
    "unmapped",
    "hint count",
    "no expansion",
    "not implied",
    "nothing to delete",
    "not closed",
    "table full",
    "bad parent",
    "index used",
];

/// A folder of its own for the files, removed at the end.
struct Folder(PathBuf);

impl Folder {
    fn new(name: &str) -> Result<Folder, String> {
        let path = std::env::temp_dir().join(format!("hutsvida-{name}-{}", std::process::id()));
        std::fs::create_dir(&path).map_err(|error| error.to_string())?;
        Ok(Folder(path))
    }

    /// The name is the program's word for it, run in this folder.
    fn write(&self, name: &OsStr, bytes: &[u8]) -> Result<OsString, String> {
        std::fs::write(self.0.join(name), bytes).map_err(|error| error.to_string())?;
        Ok(name.to_os_string())
    }
}

impl Drop for Folder {
    fn drop(&mut self) {
        let _ = std::fs::remove_dir_all(&self.0);
    }
}

/// Two files and the names that they have.
struct Pair {
    kind: Kind,
    names: [OsString; 2],
    files: [Vec<u8>; 2],
}

/// How a program is called, the certificates that it takes, how it shows a
/// refused line, and whether reasons follow, indented twice.
struct Program<'a> {
    path: &'a Path,
    words: &'a [&'a str],
    kinds: &'a [Kind],
    shown: Shown,
    reasons: bool,
}

type Shown = fn(names: &[OsString; 2], number: u32, file: usize, line: u32, bytes: &[u8]) -> String;

fn by_command(names: &[OsString; 2], number: u32, file: usize, line: u32, bytes: &[u8]) -> String {
    let name = names[file - 1].to_string_lossy().replace('\\', "\\\\").replace('\n', "\\n");
    let word = WORDS[number as usize];
    if line == 0 {
        return format!("  {name}:0: {word}\n");
    }
    let mut shown = String::new();
    for byte in bytes.iter().take(200) {
        match byte {
            9 => shown += "\\t",
            13 => shown += "\\r",
            34 | 39 | 92 => shown += &format!("\\{}", *byte as char),
            32..=126 => shown.push(*byte as char),
            _ => shown += &format!("\\x{byte:02x}"),
        }
    }
    if bytes.len() > 200 {
        shown += &format!(" .. ({} bytes in all)", bytes.len());
    }
    format!("  {name}:{line}: {word}: {shown}\n")
}

fn by_example(_: &[OsString; 2], _: u32, _: usize, line: u32, bytes: &[u8]) -> String {
    if line == 0 {
        return String::new();
    }
    let shown: String = bytes.iter().map(|byte| if (32..127).contains(byte) { *byte as char } else { '.' }).collect();
    format!("  {shown}\n")
}

/// What is to be printed for these pairs, and the exit status.
fn expected(pairs: &[Pair], shown: Shown) -> (String, i32) {
    let (mut text, mut status) = (String::new(), 0);
    for Pair { kind, names, files } in pairs {
        let verdict = kind.check(&files[0], &files[1], PLACES).verdict;
        text += &format!("{}\n", verdict.text());
        assert!(verdict.number != 0 || reference::is_false(&files[0]) != Some(false), "accepted, and its formula is true");
        if verdict.number != 0 {
            let (file, line) = (verdict.file as i64, verdict.line as i64);
            let (which, start, end) = reference::line_bytes(&files[0], &files[1], file, line);
            let bytes = &files[which as usize - 1][start..end];
            text += &shown(names, verdict.number as u32, verdict.file as usize, verdict.line as u32, bytes);
            status = 1;
        }
    }
    (text, status)
}

fn run(program: &Program, folder: &Folder, names: &[OsString], out: Stdio) -> Result<Output, String> {
    let mut command = Command::new(program.path);
    command.current_dir(&folder.0).args(program.words).args(names);
    let started = command.stdout(out).stderr(Stdio::piped()).spawn();
    started.and_then(|child| child.wait_with_output()).map_err(|error| format!("{}: {error}", program.path.display()))
}

/// What was printed, without the reasons of refusals.
fn printed(program: &Program, output: &[u8]) -> String {
    let text = String::from_utf8_lossy(output);
    text.split_inclusive('\n').filter(|line| !(program.reasons && line.starts_with("    "))).collect()
}

fn compare(program: &Program, folder: &Folder, name: &str, pairs: &[Pair]) -> Result<(), String> {
    let names: Vec<OsString> = pairs.iter().flat_map(|pair| pair.names.clone()).collect();
    let output = run(program, folder, &names, Stdio::piped())?;
    let (text, status) = expected(pairs, program.shown);
    let found = (printed(program, &output.stdout), output.status.code());
    if found != (text.clone(), Some(status)) {
        let place = found.0.lines().zip(text.lines()).find(|(a, b)| a != b);
        return Err(format!("{name}: status {:?}, expected {status}; first line that differs {place:?}", found.1));
    }
    Ok(())
}

/// Trouble: exit status 2, a message, and nothing printed.
fn trouble(program: &Program, folder: &Folder, name: &str, names: &[&OsStr], out: Stdio) -> Result<(), String> {
    let names: Vec<OsString> = names.iter().map(|name| name.to_os_string()).collect();
    let output = run(program, folder, &names, out)?;
    if output.status.code() != Some(2) || !output.stdout.is_empty() || output.stderr.len() < 10 {
        return Err(format!("{name}: {output:?}"));
    }
    Ok(())
}

/// The example tells the kind of a certificate by the ending of its name.
fn stored(folder: &Folder, index: usize, kind: Kind, files: [Vec<u8>; 2]) -> Result<Pair, String> {
    let formula = folder.write(OsStr::new(&format!("{index} formula")), &files[0])?;
    let certificate = folder.write(OsStr::new(&format!("{index} certificate.{}", kind.name())), &files[1])?;
    Ok(Pair { kind, names: [formula, certificate], files })
}

/// The stored pairs one by one, the fixed cases as one list, and lists of
/// made pairs; answers how many pairs were run.
fn compare_pairs(program: &Program, folder: &Folder, data: &Path) -> Result<usize, String> {
    let mut count = 0;
    for case in corpus::data(data)?.into_iter().filter(|case| program.kinds.contains(&case.kind)) {
        compare(program, folder, &case.name, &[stored(folder, 0, case.kind, [case.formula, case.certificate])?])?;
        count += 1;
    }
    let cases = fixed::cases().into_iter().chain(ferp_fixed::cases()).filter(|case| program.kinds.contains(&case.kind));
    let pair = |(index, case): (usize, fixed::Fixed)| stored(folder, index, case.kind, [case.formula, case.certificate]);
    let pairs: Vec<Pair> = cases.enumerate().map(pair).collect::<Result<_, _>>()?;
    compare(program, folder, "the fixed cases", &pairs)?;
    count += pairs.len();
    let mut rng = Rng::new(8);
    for list in 0..60 {
        let mut pairs = Vec::new();
        for index in 0..1 + rng.below(8) {
            let case = Case::of(rng.one(program.kinds), 7, rng.next() >> 20);
            pairs.push(stored(folder, index, case.kind, [case.formula, case.certificate])?);
        }
        compare(program, folder, &format!("list {list} of made pairs"), &pairs)?;
        count += pairs.len();
    }
    Ok(count)
}

/// A file of 1,048,576 bytes at most.
fn fill(start: &str, part: &str, end: &str) -> Vec<u8> {
    let count = (1_048_576 - start.len() - end.len()) / part.len();
    format!("{start}{}{end}", part.repeat(count)).into_bytes()
}

/// Files as long as they may be, and as full, with the verdicts worked out
/// by hand: no table is full.
type Dense = Vec<([Vec<u8>; 2], &'static str)>;

fn dense_ferat() -> Dense {
    let (one, expanded) = (b"p cnf 1 1\ne 1 0\n1 0\n".to_vec(), "x 1 0 1 0 0\ne 1 0\n");
    vec![
        ([fill("p cnf 1 1\ne 1 0\n", "1 ", "0"), expanded.into()], "refused,14,2,0,1,0,0"),
        ([one.clone(), fill("x 1 0 1 0 0\ne ", "1 ", "0")], "refused,14,2,0,1,0,0"),
        ([one.clone(), fill(expanded, "1 ", "0")], "refused,14,2,0,1,1,0"),
        ([one.clone(), fill("", "x 0 0 0\n", "")], "refused,14,2,0,0,0,0"),
        ([one.clone(), format!("x {0}0 {0}0 0\n", "1 ".repeat(262_142)).into()], "refused,7,2,1,0,0,0"),
        ([one.clone(), fill("o ", "1 ", "0")], "refused,10,2,0,0,0,0"),
        ([one, fill(expanded, "1 0\n", "")], "refused,14,2,0,1,262139,0"),
        (["p cnf 0 1\n0\n".into(), fill("e 0\n", "0\n", "")], "accepted,0,0,0,1,524286,0"),
    ]
}

/// One literal many times, all indexes, and clauses of all copies, which
/// stand for the one existential: two that clash everywhere are the longest
/// way to a resolvent, and to none.
fn dense_ferp() -> Dense {
    let copies = |first: i64, sign: i64| (first..=16_384).map(|copy| format!("{} ", sign * copy)).collect::<String>();
    let (one, two) = (b"p cnf 1 1\ne 1 0\n1 0\n".to_vec(), b"p cnf 1 2\ne 1 0\n1 0\n-1 0\n".to_vec());
    let indexed = |from: u32, rest: &str| (from..=65_536).map(|index| format!("{index} {rest}\n")).collect::<String>();
    let units = "x 1 0 1 0 0\n1 1 0 1 0\n2 -1 0 2 0\n";
    let all = format!("x {}0 {}0 0\n1 {}0 1 0\n", copies(1, 1), "1 ".repeat(16_384), copies(1, 1));
    let unit = format!("{all}2 -1 0 2 0\n");
    let clash = format!("{all}2 {}0 2 0\n", copies(1, -1));
    let cut = (3..10).map(|index| format!("{index} {}0 1 2 0\n", copies(2, 1))).collect::<String>();
    vec![
        ([one, fill("x 1 0 1 0 0\n1 ", "1 ", "0 1 0")], "refused,14,2,0,1,0,0"),
        (["p cnf 0 1\n0\n".into(), indexed(1, "0 1 0").into()], "accepted,0,0,0,65536,0,0"),
        (["p cnf 0 1\n0\n".into(), (indexed(1, "0 1 0") + "9 0 1 0").into()], "refused,17,2,65537,65536,0,0"),
        ([two.clone(), format!("{units}{}", indexed(3, "0 1 2 0")).into()], "accepted,0,0,0,2,65534,0"),
        ([two.clone(), format!("{unit}{cut}").into()], "refused,14,2,0,2,7,0"),
        ([two.clone(), format!("{clash}3 {}{}0 2 1 0\n", copies(2, 1), copies(2, -1)).into()], "refused,14,2,0,2,1,0"),
        ([two, format!("{clash}3 {}{}0 1 2 0\n", copies(2, 1), copies(3, -1)).into()], "refused,16,2,4,2,0,0"),
    ]
}

fn output_full() -> Result<Stdio, String> {
    let full = File::options().write(true).open("/dev/full").map_err(|error| error.to_string())?;
    Ok(full.into())
}

/// Trouble that every program must answer in the same way; answers how many
/// kinds.
fn compare_trouble(program: &Program, folder: &Folder) -> Result<usize, String> {
    let files = [fixed::A, fixed::A_PROOF].map(|text| text.replace('/', "\n").into_bytes());
    let names = stored(folder, 0, program.kinds[0], files)?.names;
    let [f, c] = [names[0].as_os_str(), names[1].as_os_str()];
    let [missing, place] = ["missing", "."].map(OsStr::new);
    trouble(program, folder, "no arguments", &[], Stdio::piped())?;
    trouble(program, folder, "one argument", &[f], Stdio::piped())?;
    trouble(program, folder, "three arguments", &[f, c, f], Stdio::piped())?;
    trouble(program, folder, "no such formula", &[missing, c], Stdio::piped())?;
    trouble(program, folder, "no such certificate in the second pair", &[f, c, f, missing], Stdio::piped())?;
    trouble(program, folder, "a folder", &[f, place], Stdio::piped())?;
    trouble(program, folder, "no room for the output", &[f, c], output_full()?)?;
    Ok(7)
}

/// Any file names: a dash first, blanks, a line's end, a backslash, bytes
/// that are no UTF-8; and the command called through a link.
fn compare_names(program: &Program, folder: &Folder) -> Result<usize, String> {
    let link = folder.0.join("a link");
    std::os::unix::fs::symlink(program.path, &link).map_err(|error| error.to_string())?;
    let linked = Program { path: &link, ..*program };
    let kind = program.kinds[0];
    let certificate = match kind {
        Kind::Ferat => "x 1 0 2 0 1 0/o 1 2 0/e 1 0/",
        Kind::Ferp => "x 1 0 2 0 1 0/1 1 0 1 0/",
    };
    let files = [fixed::A, certificate].map(|text| text.replace('/', "\n").into_bytes());
    let names = [&b"--help"[..], b"-x", b"two\nlines", b"back\\slash", b"no \xff UTF-8", b" "];
    for name in names.map(OsStr::from_bytes) {
        let formula = folder.write(OsStr::new("-f"), &files[0])?;
        let pair = Pair { kind, names: [formula, folder.write(name, &files[1])?], files: files.clone() };
        compare(&linked, folder, "a name of its own", &[pair])?;
    }
    Ok(names.len())
}

fn compare_dense(program: &Program, folder: &Folder, cases: Dense) -> Result<usize, String> {
    for (files, verdict) in &cases {
        let output = run(program, folder, &stored(folder, 0, program.kinds[0], files.clone())?.names, Stdio::piped())?;
        let status = if verdict.starts_with("accepted") { 0 } else { 1 };
        let text = String::from_utf8_lossy(&output.stdout);
        if !text.starts_with(&format!("{verdict}\n")) || output.status.code() != Some(status) {
            let start: String = text.chars().take(100).collect();
            return Err(format!("a file at its limits: {start}, expected {verdict}"));
        }
    }
    Ok(cases.len())
}

fn compare_verb(path: &Path, data: &Path, kind: Kind, dense: Dense) -> Result<(), String> {
    let program = Program { path, words: &[kind.name()], kinds: &[kind], shown: by_command, reasons: true };
    let folder = Folder::new(&format!("command-{}", kind.name()))?;
    let pairs = compare_pairs(&program, &folder, data)? + compare_names(&program, &folder)?;
    let full = compare_dense(&program, &folder, dense)?;
    let kinds = compare_trouble(&program, &folder)?;
    let name = format!("command, {}", kind.name());
    println!("{name}: {pairs} pairs as the independent checker has them, {full} of the fullest files as worked out by hand");
    println!("{name}: {kinds} kinds of trouble with status 2 and nothing printed");
    Ok(())
}

pub fn compare_command(path: &Path, data: &Path) -> Result<(), String> {
    compare_verb(path, data, Kind::Ferat, dense_ferat())?;
    compare_verb(path, data, Kind::Ferp, dense_ferp())
}

/// Its lists mix both kinds.
pub fn compare_example(path: &Path, data: &Path) -> Result<(), String> {
    let program = Program { path, words: &[], kinds: &Kind::ALL, shown: by_example, reasons: false };
    let folder = Folder::new("example")?;
    let pairs = compare_pairs(&program, &folder, data)?;
    let kinds = compare_trouble(&program, &folder)?;
    println!("C++ example: {pairs} pairs as the independent checker has them, {kinds} kinds of trouble with status 2 and nothing printed");
    Ok(())
}
