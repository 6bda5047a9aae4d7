//! The unproved reading: one loop over the bytes, each sorted by a table of
//! classes. It answers what `hutsvida_largest` does: the largest literal, as a
//! code, of those that each line begins with.

const BLANK: u8 = 0;
const LINE_END: u8 = 1;
const DIGIT: u8 = 2;
const MINUS: u8 = 3;
const OTHER: u8 = 4;
const CAP: u32 = 100_000_000;

static CLASSES: [u8; 256] = classes();

const fn classes() -> [u8; 256] {
    let mut table = [OTHER; 256];
    let mut b = 0;
    while b < 256 {
        table[b] = match b as u8 {
            b' ' | b'\t' | b'\r' => BLANK,
            b'\n' => LINE_END,
            b'0'..=b'9' => DIGIT,
            b'-' => MINUS,
            _ => OTHER,
        };
        b += 1;
    }
    table
}

fn class(file: &[u8], i: usize) -> u8 {
    file.get(i).map_or(LINE_END, |b| CLASSES[*b as usize])
}

fn past_blanks(file: &[u8], mut i: usize) -> usize {
    while i < file.len() && CLASSES[file[i] as usize] == BLANK {
        i += 1;
    }
    i
}

fn line_end(file: &[u8], mut i: usize) -> usize {
    while i < file.len() && CLASSES[file[i] as usize] != LINE_END {
        i += 1;
    }
    i
}

/// The literal at a place, as a code, and the place after it.
fn literal(file: &[u8], at: usize) -> Option<(u32, usize)> {
    let sign = (class(file, at) == MINUS) as usize;
    let first = at + sign;
    let mut i = first;
    let mut v = 0;
    while i < file.len() && CLASSES[file[i] as usize] == DIGIT {
        v = (v * 10 + (file[i] - b'0') as u32).min(CAP);
        i += 1;
    }
    let ended = class(file, i) <= LINE_END;
    let leading_zero = i > first && file[first] == b'0' && (i > first + 1 || sign == 1);
    (ended && i > first && !leading_zero).then_some((2 * v + sign as u32, i))
}

#[inline(never)]
pub fn largest(file: &[u8]) -> u32 {
    let mut most = 0;
    let mut at = 0;
    while at < file.len() {
        at = past_blanks(file, at);
        if file.get(at) == Some(&b'c') {
            at = line_end(file, at);
        }
        while class(file, at) != LINE_END {
            match literal(file, at) {
                Some((code, end)) => {
                    most = most.max(code);
                    at = past_blanks(file, end);
                }
                None => at = line_end(file, at),
            }
        }
        at += 1;
    }
    most
}
