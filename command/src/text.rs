//! Lines, tokens and numbers, for what explains a refusal. Not proved, and
//! no part of any verdict.

/// Larger numbers are cut to this, which is above every limit.
const LARGE: i64 = 1 << 40;

/// A line that is not skipped: its number and its tokens.
pub struct Line<'a> {
    pub number: usize,
    pub tokens: Vec<&'a [u8]>,
}

pub fn lines(bytes: &[u8]) -> impl Iterator<Item = Line<'_>> {
    let numbered = bytes.split(|byte| *byte == 10).enumerate();
    let lines = numbered.map(|(index, line)| Line { number: index + 1, tokens: tokens(line) });
    lines.filter(|line| line.tokens.first().is_some_and(|token| token[0] != b'c'))
}

fn tokens(line: &[u8]) -> Vec<&[u8]> {
    line.split(|byte| matches!(byte, 9 | 13 | 32)).filter(|token| !token.is_empty()).collect()
}

/// The number that a token writes; none for a token that writes none.
pub fn number(token: &[u8]) -> Option<i64> {
    let (minus, digits) = match token {
        [b'-', rest @ ..] => (true, rest),
        _ => (false, token),
    };
    match digits {
        [b'0'] if !minus => Some(0),
        [b'1'..=b'9', ..] if digits.iter().all(u8::is_ascii_digit) => {
            let n = digits.iter().fold(0, |n, digit| (n * 10 + i64::from(digit - b'0')).min(LARGE));
            Some(if minus { -n } else { n })
        }
        _ => None,
    }
}

/// The lists of numbers of a well-formed line, each without its zero.
pub fn lists(tokens: &[&[u8]]) -> Vec<Vec<i64>> {
    let numbers: Vec<i64> = tokens.iter().filter_map(|token| number(token)).collect();
    let mut lists: Vec<Vec<i64>> = numbers.split(|n| *n == 0).map(<[i64]>::to_vec).collect();
    lists.pop();
    lists
}

/// The first of them: a clause's literals, a mapping line's copies.
pub fn first_list(tokens: &[&[u8]]) -> Vec<i64> {
    lists(tokens).into_iter().next().unwrap_or_default()
}

/// The bytes with all but printable ASCII escaped, as far as `most` go.
pub fn shown(bytes: &[u8], most: usize) -> String {
    match bytes.get(..most) {
        Some(start) if bytes.len() > most => format!("{} .. ({} bytes in all)", start.escape_ascii(), bytes.len()),
        _ => bytes.escape_ascii().to_string(),
    }
}

/// A token by its place in the line, and what is to be said of it.
pub fn told(tokens: &[&[u8]], index: usize, what: &str) -> String {
    format!("token {}, {}: {what}", index + 1, shown(tokens[index], 40))
}
