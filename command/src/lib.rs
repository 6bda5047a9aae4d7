//! The calls of the proved library (crate `ferat_c`), for Rust. The checks
//! take up to 2.2 MiB of stack: more than a thread has by default.
//! `explain` puts a refusal into words, and is not proved.

pub mod explain;
mod facts;
mod limits;
mod malformed;
mod parents;
mod text;

use std::os::raw::c_uint;

/// Declares a call of the library and makes it: the slices that it reads and
/// the six tables, each with its own length, then what it writes. All are lent
/// for the call alone.
macro_rules! call {
    ($name:ident, [$($read:ident: $of:ty),*], $tables:ident, $($result:expr => $type:ty),*) => {{
        extern "C" {
            fn $name(
                $(_: *const $of, _: usize,)*
                prefix: *mut i32, prefix_length: usize,
                matrix: *mut i32, matrix_length: usize,
                map: *mut i32, map_length: usize,
                proof: *mut i32, proof_length: usize,
                marks: *mut i32, marks_length: usize,
                values: *mut i32, values_length: usize,
                $(_: $type),*
            );
        }
        let [prefix, matrix, map, proof, marks, values] = $tables;
        unsafe {
            $name(
                $($read.as_ptr(), $read.len(),)*
                prefix.as_mut_ptr(), prefix.len(),
                matrix.as_mut_ptr(), matrix.len(),
                map.as_mut_ptr(), map.len(),
                proof.as_mut_ptr(), proof.len(),
                marks.as_mut_ptr(), marks.len(),
                values.as_mut_ptr(), values.len(),
                $($result),*
            );
        }
    }};
}

extern "C" {
    fn hutsvida_line(
        formula: *const u8,
        formula_length: usize,
        certificate: *const u8,
        certificate_length: usize,
        file: c_uint,
        line: usize,
        ends: *mut usize,
    );
}

/// The words of a verdict. Neither is 0: places that were cleared, and no
/// check wrote to, hold no verdict.
pub const ACCEPTED: u32 = 1;
pub const REFUSED: u32 = 2;

/// The kinds of certificates, for a list of checks.
pub const FERAT: u32 = 1;
pub const FERP: u32 = 2;

/// The words of the numbers; 0 is an acceptance.
pub const WORDS: [&str; 18] = [
    "accepted",
    "overlong",
    "malformed",
    "out of range",
    "bound twice",
    "unbound",
    "wrong clause count",
    "mapped twice",
    "bad annotation",
    "unmapped",
    "hint count",
    "no expansion",
    "not implied",
    "nothing to delete",
    "not closed",
    "table full",
    "bad parent",
    "index used",
];

/// A longer file is refused 1, whatever its bytes are.
pub const LONGEST: usize = 1_048_576;

/// The largest needs that two such files can have: the variables; for each
/// place of matrix, map and proof a number and the byte that parts it from
/// the next; for each mark a line's zero and byte 10; the copies.
pub const PLACES: [usize; 6] = [4_096, 524_288, 524_288, 524_288, 524_288, 16_384];

/// The six tables, lent: prefix, matrix, map, proof, marks, values.
pub type Tables<'a> = [&'a mut [i32]; 6];

/// The check of a FERAT certificate: the word, number, file, line, and the
/// `e`, addition and deletion lines accepted.
pub fn check(formula: &[u8], certificate: &[u8], tables: Tables) -> [u32; 7] {
    let mut seven = [0; 7];
    call!(hutsvida_check, [formula: u8, certificate: u8], tables, seven.as_mut_ptr() => *mut c_uint);
    seven
}

/// The check of a FERP certificate: the word, number, file, line, the
/// expansions and resolutions accepted, and 0.
pub fn check_ferp(formula: &[u8], certificate: &[u8], tables: Tables) -> [u32; 7] {
    let mut seven = [0; 7];
    call!(hutsvida_check_ferp, [formula: u8, certificate: u8], tables, seven.as_mut_ptr() => *mut c_uint);
    seven
}

/// The list: files one after the other in `bytes`, two ends for each check,
/// and the kind of each; seven fields for each into `out`, as far as it goes.
/// They are zeros, and nothing is checked, where the kind is missing or is
/// neither `FERAT` nor `FERP`.
pub fn check_all(bytes: &[u8], ends: &[usize], kinds: &[u32], tables: Tables, out: &mut [u32]) {
    call!(hutsvida_check_all, [bytes: u8, ends: usize, kinds: c_uint], tables,
        out.as_mut_ptr() => *mut c_uint, out.len() => usize);
}

/// The start and the end of a line in the formula (file 1) or in the
/// certificate (any other number).
pub fn line_ends(formula: &[u8], certificate: &[u8], file: u32, line: usize) -> [usize; 2] {
    let mut ends = [0; 2];
    // Each slice goes with its own length; all are lent for the call alone.
    unsafe {
        hutsvida_line(
            formula.as_ptr(),
            formula.len(),
            certificate.as_ptr(),
            certificate.len(),
            file,
            line,
            ends.as_mut_ptr(),
        );
    }
    ends
}
