//! Where a malformed line leaves the form that its first token names, and
//! what the bytes look like instead.

use crate::facts::{Facts, Part};
use crate::text::{lines, number, told, Line};
use crate::{FERAT, FERP};

type Form = Result<(), String>;

const MINUS: &str = "a minus is for literals only";

/// What is wrong with a token that writes no number.
fn wrong(token: &[u8]) -> &'static str {
    match token {
        [b'+', ..] => "a number has no plus",
        b"-0" => "0 has no minus",
        [b'0', rest @ ..] | [b'-', b'0', rest @ ..] if rest.iter().all(u8::is_ascii_digit) => "a number does not begin with 0",
        _ => "a number is due",
    }
}

/// Reads a list from a token on: the place after its zero.
fn list(tokens: &[&[u8]], at: usize, signs: bool) -> Result<usize, String> {
    for (index, token) in tokens.iter().enumerate().skip(at) {
        match number(token) {
            Some(0) => return Ok(index + 1),
            Some(n) if n < 0 && !signs => return Err(told(tokens, index, MINUS)),
            Some(_) => {}
            None => return Err(told(tokens, index, wrong(token))),
        }
    }
    Err("the line ends without its 0".to_string())
}

fn nothing_more(tokens: &[&[u8]], at: usize, last: &str) -> Form {
    if at < tokens.len() {
        return Err(told(tokens, at, &format!("nothing may follow {last}")));
    }
    Ok(())
}

/// A number that is no literal.
fn unsigned(tokens: &[&[u8]], index: usize) -> Result<i64, String> {
    match number(tokens[index]) {
        None => Err(told(tokens, index, wrong(tokens[index]))),
        Some(n) if n < 0 => Err(told(tokens, index, MINUS)),
        Some(n) => Ok(n),
    }
}

fn problem(tokens: &[&[u8]]) -> Form {
    match tokens.get(1) {
        Some(token) if *token == b"cnf" => {}
        Some(_) => return Err(told(tokens, 1, "cnf is due")),
        None => return Err("the line ends before cnf".to_string()),
    }
    for (index, name) in [(2, "V"), (3, "C")] {
        if index == tokens.len() {
            return Err(format!("the line ends before {name}"));
        }
        unsigned(tokens, index)?;
    }
    nothing_more(tokens, 4, "C")
}

fn binding(tokens: &[&[u8]]) -> Form {
    let end = list(tokens, 1, false)?;
    if end == 2 {
        return Err(told(tokens, 1, "a prefix line has at least one variable"));
    }
    nothing_more(tokens, end, "the final 0")
}

fn numbers(tokens: &[&[u8]], at: usize, signs: bool) -> Form {
    let end = list(tokens, at, signs)?;
    nothing_more(tokens, end, "the final 0")
}

fn mapping(tokens: &[&[u8]]) -> Form {
    let existentials = list(tokens, 1, false)?;
    let annotation = list(tokens, existentials, false)?;
    let end = list(tokens, annotation, true)?;
    let (copies, others) = (existentials - 2, annotation - existentials - 1);
    if copies != others {
        return Err(format!("the lists of copies ({copies}) and of existentials ({others}) must be equally long"));
    }
    nothing_more(tokens, end, "the third 0")
}

/// A clause line of FERP: an index, literals, and the clause or the parents
/// that they come from.
fn derivation(tokens: &[&[u8]]) -> Form {
    if unsigned(tokens, 0)? == 0 {
        return Err(told(tokens, 0, "an index is a positive number"));
    }
    let origin = list(tokens, 1, true)?;
    if origin == tokens.len() {
        return Err("the line ends after its literals: one or two numbers and 0 are due".to_string());
    }
    let end = list(tokens, origin, false)?;
    match end - origin - 1 {
        0 => Err(told(tokens, origin, "one or two numbers are due before it")),
        1 | 2 => nothing_more(tokens, end, "the final 0"),
        _ => Err(told(tokens, origin + 2, "there is no third number")),
    }
}

fn starts_list(token: &[u8]) -> bool {
    matches!(token[0], b'-' | b'+' | b'0'..=b'9')
}

fn formula_line(tokens: &[&[u8]], before: &Facts) -> Form {
    match tokens[0] {
        b"p" => problem(tokens)?,
        b"a" | b"e" => binding(tokens)?,
        token if starts_list(token) => numbers(tokens, 0, true)?,
        _ => return Err(told(tokens, 0, "a line begins with p, a, e or a literal")),
    }
    match tokens[0] {
        b"p" if before.problem.is_some() => Err("there is a p line before it".to_string()),
        b"p" => Ok(()),
        _ if before.problem.is_none() => Err("the p line comes first".to_string()),
        b"a" | b"e" if !before.clauses.is_empty() => Err("a prefix line comes before all clauses".to_string()),
        _ => Ok(()),
    }
}

fn ferat_form(tokens: &[&[u8]]) -> Form {
    match tokens[0] {
        b"x" => mapping(tokens),
        b"o" => numbers(tokens, 1, false),
        b"e" | b"d" => numbers(tokens, 1, true),
        token if starts_list(token) => numbers(tokens, 0, true),
        _ => Err(told(tokens, 0, "a line begins with x, o, e, d or a literal")),
    }
}

fn ferp_form(tokens: &[&[u8]]) -> Form {
    match tokens[0] {
        b"x" => mapping(tokens),
        token if starts_list(token) => derivation(tokens),
        _ => Err(told(tokens, 0, "a line begins with x or an index")),
    }
}

fn certificate_form(kind: u32, tokens: &[&[u8]]) -> Form {
    match kind {
        FERP => ferp_form(tokens),
        _ => ferat_form(tokens),
    }
}

fn certificate_line(tokens: &[&[u8]], before: &Facts) -> Form {
    certificate_form(before.kind, tokens)?;
    match (tokens[0], before.part) {
        (_, Part::Mapping) => Ok(()),
        (b"x", _) => Err("mapping lines come before all others".to_string()),
        (b"o", Part::Hints) => Err("there is an o line before it".to_string()),
        (b"o", _) => Err("the o line comes before e lines, additions and deletions".to_string()),
        (b"e", Part::Additions) => Err("e lines come before additions and deletions".to_string()),
        _ => Ok(()),
    }
}

/// Whether a line that is not of this kind of certificate is one of the other.
fn other_kind(kind: u32, tokens: &[&[u8]]) -> Option<String> {
    let (other, name, verb) = if kind == FERP { (FERAT, "FERAT", "ferat") } else { (FERP, "FERP", "ferp") };
    let mixed_up = certificate_form(kind, tokens).is_err() && certificate_form(other, tokens).is_ok();
    mixed_up.then(|| format!("this is a line of a {name} certificate: the verb {verb} checks those"))
}

/// What the first bytes of compressed and other files are.
const STARTS: [(&[u8], &str); 8] = [
    (b"\x1f\x8b", "the file looks compressed (gzip)"),
    (b"\xfd7zXZ\x00", "the file looks compressed (xz)"),
    (b"BZh", "the file looks compressed (bzip2)"),
    (b"\x28\xb5\x2f\xfd", "the file looks compressed (zstd)"),
    (b"PK\x03\x04", "the file looks compressed (zip)"),
    (b"\xef\xbb\xbf", "the file begins with a byte order mark"),
    (b"\xff\xfe", "the file looks like UTF-16"),
    (b"\xfe\xff", "the file looks like UTF-16"),
];

/// Whether the bytes begin with a record of binary DRAT: `a` or `d`, numbers
/// in groups of seven bits, and a zero byte, which no text has.
fn is_record(bytes: &[u8]) -> bool {
    let [b'a' | b'd', numbers @ ..] = bytes else { return false };
    let mut groups = 0;
    for byte in numbers {
        groups += 1;
        match byte {
            0 => return groups == 1,
            128.. if groups == 5 => return false,
            128.. => {}
            _ => groups = 0,
        }
    }
    false
}

/// What the file looks like, given where its refused line starts.
fn likeness(files: [&[u8]; 2], file: u32, start: usize) -> Option<String> {
    let bytes = files[if file == 1 { 0 } else { 1 }];
    if let Some((_, what)) = STARTS.iter().find(|(first, _)| bytes.starts_with(first)) {
        return Some(what.to_string());
    }
    if file != 1 && is_record(&bytes[start..]) {
        return Some("from here on the file looks like binary DRAT: write the proof as text (cadical: --no-binary)".to_string());
    }
    let first = |file: usize| lines(files[file]).next().map(|line| line.tokens[0].to_vec());
    let swapped = file == 1 && first(1).as_deref() == Some(b"p") && first(0).as_deref() != Some(b"p");
    swapped.then(|| "the second file begins like a formula: the formula comes first, then the certificate".to_string())
}

/// What can be said of a line that is refused 2; there is none where the
/// formula has no `p` line.
pub fn reasons(files: [&[u8]; 2], file: u32, start: usize, line: Option<&Line>, before: &Facts) -> Vec<String> {
    let form = match line {
        None => Err("the formula has no p line".to_string()),
        Some(line) if file == 1 => formula_line(&line.tokens, before),
        Some(line) => certificate_line(&line.tokens, before),
    };
    let certificate = line.filter(|_| file != 1);
    let other = certificate.and_then(|line| other_kind(before.kind, &line.tokens));
    form.err().into_iter().chain(other).chain(likeness(files, file, start)).collect()
}
