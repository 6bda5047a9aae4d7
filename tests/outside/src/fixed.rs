//! Fixed cases with the verdicts worked out by hand from document 01: its
//! twelve checks first, then the edges of its sentences. Points of NOTES.md
//! are named by their number at the head of a case's name.

use crate::Kind;

pub struct Fixed {
    pub kind: Kind,
    pub name: String,
    pub formula: Vec<u8>,
    pub certificate: Vec<u8>,
    pub lengths: [usize; 6],
    pub expected: String,
    pub needs: Option<[usize; 6]>,
}

/// `/` stands for byte 10.
pub(crate) fn bytes(text: &str) -> Vec<u8> {
    text.bytes().map(|byte| if byte == b'/' { 10 } else { byte }).collect()
}

pub const A: &str = "p cnf 2 2/a 1 0/e 2 0/1 2 0/1 -2 0/";
pub const A_PROOF: &str = "x 1 0 2 0 -1 0/o 1 2 0/e 1 0/e -1 0/0/";
pub const B: &str = "p cnf 0 0/";
pub(crate) const F12: &str = "p cnf 2 2/a 1 0/e 2 0/1 2 0/-1 -2 0/";
/// Figure 2 of source document 000.
pub const FIGURE_2: &str = "p cnf 3 3/e 1 0/a 2 0/e 3 0/1 2 3 0/-1 -2 3 0/-3 0/";
pub const FIGURE_2_PROOF: &str = "x 1 0 1 0 0/x 2 0 3 0 2 0/x 3 0 3 0 -2 0/o 1 2 3 3 0/e 1 3 0/e -1 2 0/e -3 0/e -2 0/0/";

const AMPLE: [usize; 6] = [16_384; 6];

/// Name, formula, certificate, verdict; tables of 16,384 places.
pub(crate) type Plain = (&'static str, &'static str, &'static str, &'static str);

/// Name, formula, certificate, lengths, verdict, needs.
pub(crate) type Needing = (&'static str, &'static str, &'static str, [usize; 6], &'static str, [usize; 6]);

const TWELVE: &[Plain] = &[
    ("check 1", A, A_PROOF, "accepted,0,0,0,2,1,0"),
    ("check 2", A, "x 1 0 2 0 1 0/o 1 2 0/e 1 0/e -1 0/0/", "refused,11,2,3,0,0,0"),
    ("check 3", A, "x 1 0 2 0 -1 0/e 1 0/e -1 0/0/", "accepted,0,0,0,2,1,0"),
    ("check 4", A, "", "refused,14,2,0,0,0,0"),
    ("check 5", A, "x 1 0 2 0 -1 0/o 1 2 0/e 1 0/e -1 0/0/d 0/", "refused,14,2,0,2,1,1"),
    ("check 6", A, "x 1 0 2 0 -1 0/o 1 2 0/e 1 0/e -1 0/d 1 1 0/0/", "refused,12,2,6,2,0,1"),
    ("check 7", "p cnf 0 1/0/", "e 0/", "accepted,0,0,0,1,0,0"),
    ("check 8", B, "0/", "refused,12,2,1,0,0,0"),
    ("check 9", B, "5 0/6 -5 0/", "refused,14,2,0,0,2,0"),
    ("check 10", B, "5 0/-5 6 0/", "refused,12,2,2,0,1,0"),
    ("check 11", B, "d 5 0/", "refused,13,2,1,0,0,0"),
    ("check 12", F12, "x 1 0 2 0 0/e 1 0/", "refused,11,2,2,0,0,0"),
];

pub(crate) const U: &str = "p cnf 5 2/a 1 0/e 2 0/a 3 0/e 4 0/2 4 0/1 -3 4 0/";
pub(crate) const E1: &str = "p cnf 1 2/e 1 0/1 0/-1 0/";

const EDGES: &[Plain] = &[
    ("figure 2", FIGURE_2, FIGURE_2_PROOF, "accepted,0,0,0,4,1,0"),
    ("check 12 whole", F12, "x 1 0 2 0 0/e 1 0/e -1 0/0/", "refused,11,2,2,0,0,0"),
    // Lines and blanks.
    ("1 blanks before p", "\t\r p\tcnf\r0  1/  0\r/", "\te\r0", "accepted,0,0,0,1,0,0"),
    ("1 c glued to more", "cnf/p cnf 0 1/c0/0/", "c0 5 0/ \tcx/e 0/", "accepted,0,0,0,1,0,0"),
    ("1 C is no c", "C/p cnf 0 1/0/", "e 0/", "refused,2,1,1,0,0,0"),
    ("1 byte 13 ends no line", "p cnf 0 1\r0/", "e 0/", "refused,2,1,1,0,0,0"),
    ("1 byte 11 is no blank", "p cnf 0 1/\u{b}0/", "e 0/", "refused,2,1,2,0,0,0"),
    ("1 byte 12 is no blank", "p cnf 0 1/0\u{c}/", "e 0/", "refused,2,1,2,0,0,0"),
    ("1 byte 0 is no blank", "p cnf 0 1/\u{0}/", "e 0/", "refused,2,1,2,0,0,0"),
    ("1 c after the zero", "p cnf 0 1/0 c/", "e 0/", "refused,2,1,2,0,0,0"),
    ("1 skipped lines are counted", "//p cnf 0 0/c/ //5", "", "refused,2,1,7,0,0,0"),
    ("1 last line without byte 10", B, "5 0/5", "refused,2,2,2,0,1,0"),
    // Numbers.
    ("2 minus zero", "p cnf 1 1/e 1 0/-0/", "", "refused,2,1,3,0,0,0"),
    ("2 minus zero in a clause", "p cnf 1 1/e 1 0/1 -0/", "", "refused,2,1,3,0,0,0"),
    ("2 plus", "p cnf 3 1/e 3 0/+3 0/", "", "refused,2,1,3,0,0,0"),
    ("2 leading zero", "p cnf 7 1/e 7 0/07 0/", "", "refused,2,1,3,0,0,0"),
    ("2 double zero", "p cnf 0 1/00/", "e 0/", "refused,2,1,2,0,0,0"),
    ("2 zero V written 00", "p cnf 00 0/", "", "refused,2,1,1,0,0,0"),
    ("2 minus alone", B, "- 5 0/", "refused,2,2,1,0,0,0"),
    ("2 two minuses", B, "--5 0/", "refused,2,2,1,0,0,0"),
    ("2 minus in the prefix", "p cnf 1 0/e -1 0/", "", "refused,2,1,2,0,0,0"),
    ("2 minus in V", "p cnf -1 0/", "", "refused,2,1,1,0,0,0"),
    ("2 minus zero V", "p cnf -0 0/", "", "refused,2,1,1,0,0,0"),
    ("2 minus hint", A, "o -1 0/", "refused,2,2,1,0,0,0"),
    ("2 minus copy", A, "x -1 0 2 0 -1 0/", "refused,2,2,1,0,0,0"),
    ("2 minus existential", A, "x 1 0 -2 0 -1 0/", "refused,2,2,1,0,0,0"),
    ("2 thirty digits are a number", "p cnf 100000000000000000000000000000 0/", "", "refused,3,1,1,0,0,0"),
    ("2 thirty digits beside a bad token", "p cnf 100000000000000000000000000000 x/", "", "refused,2,1,1,0,0,0"),
    ("2 thirty digits, leading zero", "p cnf 000000000000000000000000000001 0/", "", "refused,2,1,1,0,0,0"),
    ("2 2^32 + 1", B, "4294967297 0/", "refused,3,2,1,0,0,0"),
    ("2 2^64 + 1", B, "5 -18446744073709551617 0/", "refused,3,2,1,0,0,0"),
    // The p line.
    ("3 p line of three tokens", "p cnf 0/", "", "refused,2,1,1,0,0,0"),
    ("3 p line of five tokens", "p cnf 0 0 0/", "", "refused,2,1,1,0,0,0"),
    ("3 other word", "p dnf 0 0/", "", "refused,2,1,1,0,0,0"),
    ("3 longer word", "p cnfx 0 0/", "", "refused,2,1,1,0,0,0"),
    ("3 P", "P cnf 0 0/", "", "refused,2,1,1,0,0,0"),
    ("3 glued", "pcnf 0 0/", "", "refused,2,1,1,0,0,0"),
    ("3 second p line", "p cnf 0 0/p cnf 0 0/", "", "refused,2,1,2,0,0,0"),
    ("3 second p line, V out of range", "p cnf 0 0/p cnf 4097 0/", "", "refused,2,1,2,0,0,0"),
    ("3 no p line, empty file", "", "", "refused,2,1,0,0,0,0"),
    ("3 no p line, skipped lines", "c p cnf 0 0/ /", "", "refused,2,1,0,0,0,0"),
    ("3 no p line, a clause", "/0/", "", "refused,2,1,2,0,0,0"),
    ("3 no p line, a prefix line", "e 1 0/p cnf 1 0/", "", "refused,2,1,1,0,0,0"),
    ("3 V 4,096", "p cnf 4096 0/", "", "refused,14,2,0,0,0,0"),
    ("3 V 4,097", "p cnf 4097 0/", "", "refused,3,1,1,0,0,0"),
    ("3 C 8,192", "p cnf 0 8192/", "", "refused,6,1,0,0,0,0"),
    ("3 C 8,193", "p cnf 0 8193/", "", "refused,3,1,1,0,0,0"),
    // The prefix.
    ("4 prefix line without variables", "p cnf 1 0/e 0/", "", "refused,2,1,2,0,0,0"),
    ("4 prefix line with an inner zero", "p cnf 2 0/e 1 0 2 0/", "", "refused,2,1,2,0,0,0"),
    ("4 prefix line not closed", "p cnf 1 0/e 1/", "", "refused,2,1,2,0,0,0"),
    ("4 prefix line after a clause", "p cnf 1 1/e 1 0/1 0/e 1 0/", "", "refused,2,1,4,0,0,0"),
    ("4 prefix line after all clauses", "p cnf 1 1/a 1 0/1 0/a 7 0/", "", "refused,2,1,4,0,0,0"),
    ("4 twice in one line", "p cnf 1 0/e 1 1 0/", "", "refused,4,1,2,0,0,0"),
    ("4 twice, other letter", "p cnf 1 0/a 1 0/e 1 0/", "", "refused,4,1,3,0,0,0"),
    ("4 out of range before twice", "p cnf 1 0/e 1 1 2 0/", "", "refused,3,1,2,0,0,0"),
    ("4 same letters, last a", "p cnf 4 1/e 1 0/e 2 0/a 3 0/a 4 0/3 4 0/", "e 0/", "accepted,0,0,0,1,0,0"),
    ("4 V need not be bound", "p cnf 9 1/e 1 0/0/", "e 0/", "accepted,0,0,0,1,0,0"),
    // Clauses of the formula.
    ("5 inner zero", "p cnf 1 2/e 1 0/1 0 1 0/", "", "refused,2,1,3,0,0,0"),
    ("5 not closed", "p cnf 1 1/e 1 0/1/", "", "refused,2,1,3,0,0,0"),
    ("5 above V before unbound", "p cnf 2 1/e 1 0/2 3 0/", "", "refused,3,1,3,0,0,0"),
    ("5 unbound", "p cnf 2 1/e 1 0/2 0/", "", "refused,5,1,3,0,0,0"),
    ("5 unbound before extra", "p cnf 1 0/1 0/", "", "refused,5,1,2,0,0,0"),
    ("5 extra", "p cnf 0 0/0/", "", "refused,6,1,2,0,0,0"),
    ("5 first extra line", "p cnf 0 1/0/c/0/0/", "", "refused,6,1,4,0,0,0"),
    ("5 extra and above V", "p cnf 1 0/e 1 0/2 0/", "", "refused,3,1,3,0,0,0"),
    ("5 too few", "p cnf 0 2/0/", "", "refused,6,1,0,0,0,0"),
    ("5 the formula comes first", "p cnf 0 2/0/", "bad", "refused,6,1,0,0,0,0"),
    // Order of the certificate.
    ("6 x after o", A, "o 0/x 1 0 2 0 -1 0/", "refused,2,2,2,0,0,0"),
    ("6 x after e", "p cnf 0 1/0/", "e 0/x 0 0 0/", "refused,2,2,2,1,0,0"),
    ("6 x after an addition", B, "5 0/x 0 0 0/", "refused,2,2,2,0,1,0"),
    ("6 two o lines", A, "o 0/o 0/", "refused,2,2,2,0,0,0"),
    ("6 o after e", "p cnf 0 1/0/", "e 0/o 1 0/", "refused,2,2,2,1,0,0"),
    ("6 o after an addition", B, "5 0/o 0/", "refused,2,2,2,0,1,0"),
    ("6 e after an addition", "p cnf 0 1/0/", "5 0/e 0/", "refused,2,2,2,0,1,0"),
    ("6 e after a deletion", "p cnf 0 1/0/", "e 0/d 0/e 0/", "refused,2,2,3,1,0,1"),
    ("6 out of sequence before out of range", "p cnf 0 1/0/", "e 0/x 16385 0 1 0 0/", "refused,2,2,2,1,0,0"),
    ("6 other letters", B, "a 1 0/", "refused,2,2,1,0,0,0"),
    ("6 p line", B, "p cnf 0 0/", "refused,2,2,1,0,0,0"),
    ("6 glued letter", B, "d5 0/", "refused,2,2,1,0,0,0"),
    ("6 letter alone", B, "d/", "refused,2,2,1,0,0,0"),
    ("6 e alone", B, "e/", "refused,2,2,1,0,0,0"),
    ("6 x alone", B, "x/", "refused,2,2,1,0,0,0"),
    ("6 letter inside", B, "5 d 0/", "refused,2,2,1,0,0,0"),
    // Mapping lines.
    ("7 nothing mapped", B, "x 0 0 0/", "refused,14,2,0,0,0,0"),
    ("7 four zeros", B, "x 0 0 0 0/", "refused,2,2,1,0,0,0"),
    ("7 two zeros", B, "x 0 0/", "refused,2,2,1,0,0,0"),
    ("7 more after the third zero", A, "x 1 0 2 0 0 -1 0/", "refused,2,2,1,0,0,0"),
    ("7 not closed", A, "x 1 0 2 0 -1/", "refused,2,2,1,0,0,0"),
    ("7 more copies than existentials", A, "x 1 0 0 0/", "refused,2,2,1,0,0,0"),
    ("7 more existentials than copies", A, "x 0 2 0 0/", "refused,2,2,1,0,0,0"),
    ("7 unequal before out of range", A, "x 16385 0 0 0/", "refused,2,2,1,0,0,0"),
    ("7 copy 16,385", A, "x 16385 0 2 0 -1 0/", "refused,3,2,1,0,0,0"),
    ("7 E above V", A, "x 1 0 3 0 -1 0/", "refused,3,2,1,0,0,0"),
    ("7 L above V", A, "x 1 0 2 0 -3 0/", "refused,3,2,1,0,0,0"),
    ("7 above V before mapped twice", A, "x 1 1 0 2 2 0 3 0/", "refused,3,2,1,0,0,0"),
    ("7 mapped twice in its own line", A, "x 1 1 0 2 2 0 -1 0/", "refused,7,2,1,0,0,0"),
    ("7 mapped twice, the same again", A, "x 1 0 2 0 -1 0/x 1 0 2 0 -1 0/", "refused,7,2,2,0,0,0"),
    ("7 mapped twice before bad annotation", A, "x 1 1 0 1 1 0 2 0/", "refused,7,2,1,0,0,0"),
    ("7 E universal", A, "x 1 0 1 0 0/", "refused,8,2,1,0,0,0"),
    ("7 E unbound", U, "x 1 0 5 0 0/", "refused,8,2,1,0,0,0"),
    ("7 L existential", U, "x 1 0 4 0 2 0/", "refused,8,2,1,0,0,0"),
    ("7 L unbound", U, "x 1 0 4 0 5 0/", "refused,8,2,1,0,0,0"),
    ("7 L right of E", U, "x 1 0 2 0 3 0/", "refused,8,2,1,0,0,0"),
    ("7 L right of one E of two", U, "x 1 2 0 4 2 0 3 0/", "refused,8,2,1,0,0,0"),
    ("7 L twice", U, "x 1 0 4 0 3 3 0/", "refused,8,2,1,0,0,0"),
    ("7 L with both signs", U, "x 1 0 4 0 3 -3 0/", "refused,8,2,1,0,0,0"),
    ("7 no pairs, L fit", U, "x 0 0 3 -1 0/", "refused,14,2,0,0,0,0"),
    ("7 no pairs, L existential", U, "x 0 0 2 0/", "refused,8,2,1,0,0,0"),
    ("7 no pairs, L twice", U, "x 0 0 1 -1 0/", "refused,8,2,1,0,0,0"),
    ("7 annotation may be short", U, "x 1 0 4 0 3 0/", "refused,14,2,0,0,0,0"),
    ("7 two copies of one pair", A, "x 1 7 0 2 2 0 -1 0/x 3 0 2 0 -1 0/e 1 7 3 0/", "refused,14,2,0,1,0,0"),
    ("7 left is by place, not by number", "p cnf 2 1/e 2 0/a 1 0/2 0/", "x 1 0 2 0 1 0/", "refused,8,2,1,0,0,0"),
    // Hints.
    ("8 hint above C", A, "o 3 0/", "refused,3,2,1,0,0,0"),
    ("8 zero hint", A, "o 0 0/", "refused,2,2,1,0,0,0"),
    ("8 hint with no clauses", B, "o 1 0/", "refused,3,2,1,0,0,0"),
    ("8 no hints, no e lines", B, "o 0/5 0/", "refused,14,2,0,0,1,0"),
    ("8 no hints, an e line", "p cnf 0 1/0/", "o 0/e 0/", "refused,10,2,2,0,0,0"),
    ("8 missing hint", "p cnf 0 1/0/", "o 1 0/e 0/e 0/", "refused,10,2,3,1,0,0"),
    ("8 unmapped before missing hint", "p cnf 0 1/0/", "o 0/e 1 0/", "refused,9,2,2,0,0,0"),
    ("8 missing hint before no expansion", A, "x 1 0 2 0 0/o 0/e 1 0/", "refused,10,2,3,0,0,0"),
    ("8 left over at an addition", "p cnf 0 1/0/", "o 1 1 0/e 0/c/ /0/", "refused,10,2,5,1,0,0"),
    ("8 left over at a bad addition", "p cnf 0 1/0/", "o 1 0/0/", "refused,10,2,2,0,0,0"),
    ("8 left over at a deletion", "p cnf 0 1/0/", "o 1 1 0/e 0/d 0/", "refused,10,2,3,1,0,0"),
    ("8 left over at a bad deletion", "p cnf 0 1/0/", "o 1 1 0/e 0/d 5 0/", "refused,10,2,3,1,0,0"),
    ("8 left over, malformed line", "p cnf 0 1/0/", "o 1 1 0/e 0/x 0 0 0/", "refused,2,2,3,1,0,0"),
    ("8 left over, line out of range", "p cnf 0 1/0/", "o 1 1 0/e 0/16385 0/", "refused,3,2,3,1,0,0"),
    ("8 left over, deletion out of range", "p cnf 0 1/0/", "o 1 1 0/e 0/d 16385 0/", "refused,3,2,3,1,0,0"),
    ("8 left over at the end", "p cnf 0 1/0/", "o 1 1 0/e 0/c/ /", "refused,10,2,0,1,0,0"),
    ("8 left over at the end, nothing stands", "p cnf 0 1/0/", "o 1 0/", "refused,10,2,0,0,0,0"),
    // Expansions.
    ("9 unmapped", A, "x 1 0 2 0 -1 0/e 1 2 0/", "refused,9,2,2,0,0,0"),
    ("9 e line, copy 16,385", A, "e 16385 0/", "refused,3,2,1,0,0,0"),
    ("9 no clauses at all", B, "e 0/", "refused,11,2,1,0,0,0"),
    ("9 the hint binds", A, "x 1 0 2 0 -1 0/o 2 2 0/e 1 0/", "refused,11,2,3,0,0,0"),
    ("9 the hint binds, second", A, "x 1 0 2 0 -1 0/o 1 1 0/e 1 0/e -1 0/", "refused,11,2,4,1,0,0"),
    ("9 universals only", "p cnf 1 1/a 1 0/1 0/", "e 0/", "accepted,0,0,0,1,0,0"),
    ("9 both signs of a universal", "p cnf 1 1/a 1 0/1 -1 0/", "e 0/", "refused,11,2,1,0,0,0"),
    ("9 universal right of the existential", "p cnf 2 1/e 1 0/a 2 0/1 2 0/", "x 1 0 1 0 0/e 1 0/", "refused,14,2,0,1,0,0"),
    ("9 more universals than the clause has", "p cnf 3 1/a 1 2 0/e 3 0/1 3 0/", "x 1 0 3 0 2 -1 0/e 1 0/", "refused,14,2,0,1,0,0"),
    ("9 t may be partial", "p cnf 3 1/a 1 2 0/e 3 0/1 3 0/", "x 1 0 3 0 -1 0/e 1 0/", "refused,14,2,0,1,0,0"),
    ("9 two annotations, one t", U, "x 1 0 2 0 -1 0/x 2 0 4 0 3 -1 0/e 1 2 0/", "refused,14,2,0,1,0,0"),
    ("9 left copy says less", U, "x 1 0 2 0 0/x 2 0 4 0 3 -1 0/e 1 2 0/", "refused,11,2,3,0,0,0"),
    ("9 right copy says less", U, "x 1 0 2 0 -1 0/x 2 0 4 0 3 0/e 1 2 0/", "refused,11,2,3,0,0,0"),
    ("9 right copy says nothing of the inner one", U, "x 1 0 2 0 -1 0/x 2 0 4 0 -1 0/e 1 2 0/", "refused,14,2,0,1,0,0"),
    ("9 signs differ", U, "x 1 0 2 0 1 0/x 2 0 4 0 3 -1 0/e 1 2 0/", "refused,11,2,3,0,0,0"),
    ("9 a universal literal is true", U, "x 2 0 4 0 -1 -3 0/e 2 0/", "refused,11,2,2,0,0,0"),
    ("9 universal literals false", U, "x 2 0 4 0 -1 3 0/e 2 0/", "refused,14,2,0,1,0,0"),
    ("9 a literal is missing", U, "x 1 0 2 0 -1 0/x 2 0 4 0 3 -1 0/e 1 0/", "refused,11,2,3,0,0,0"),
    ("9 a literal too many", U, "x 1 0 2 0 -1 0/x 2 0 4 0 3 -1 0/o 2 0/e 2 1 0/", "refused,11,2,4,0,0,0"),
    ("9 other sign", A, "x 1 0 2 0 -1 0/o 1 0/e -1 0/", "refused,11,2,3,0,0,0"),
    ("9 written twice", A, "x 1 0 2 0 -1 0/o 1 2 0/e 1 1 0/e -1 -1 -1 0/0/", "accepted,0,0,0,2,1,0"),
    ("9 clause written twice", "p cnf 1 2/e 1 0/1 1 0/-1 -1 0/", "x 1 0 1 0 0/e 1 0/e -1 0/0/", "accepted,0,0,0,2,1,0"),
    ("9 both signs of an existential", "p cnf 1 1/e 1 0/1 -1 0/", "x 1 0 1 0 0/e 1 -1 0/", "refused,14,2,0,1,0,0"),
    ("9 both signs by two copies", "p cnf 1 1/e 1 0/1 -1 0/", "x 1 2 0 1 1 0 0/e 1 -2 0/", "refused,14,2,0,1,0,0"),
    ("9 the same expansion twice", "p cnf 0 1/0/", "e 0/e 0/d 0/", "accepted,0,0,0,2,0,1"),
    // Additions.
    ("10 both signs of a copy", B, "5 -5 0/", "refused,14,2,0,0,1,0"),
    ("10 both signs stand, no unit", B, "5 -5 0/0/", "refused,12,2,2,0,1,0"),
    ("10 after the empty clause", "p cnf 0 1/0/", "e 0/7 0/-7 0/", "accepted,0,0,0,1,2,0"),
    ("10 empty clause needs RUP", E1, "x 1 0 1 0 0/e 1 0/0/", "refused,12,2,3,1,0,0"),
    ("10 unit written twice", E1, "x 1 0 1 0 0/e 1 1 0/e -1 0/0/", "accepted,0,0,0,2,1,0"),
    ("10 RAT, no clause holds the negation", B, "5 5 0/5 6 0/5 -6 0/", "refused,14,2,0,0,3,0"),
    ("10 RAT by both signs", B, "1 2 0/-1 -2 0/", "refused,14,2,0,0,2,0"),
    ("10 RAT on the first, not the second", B, "1 0/2 -1 0/-1 3 0/", "refused,12,2,3,0,2,0"),
    ("10 RAT by propagation", B, "2 3 0/2 -3 0/-1 2 0/1 0/", "refused,14,2,0,0,4,0"),
    ("10 each RAT candidate starts afresh", B, "2 3 0/2 -3 0/-1 2 0/-1 4 0/1 0/", "refused,12,2,5,0,4,0"),
    ("10 the same, candidates turned", B, "2 3 0/2 -3 0/-1 4 0/-1 2 0/1 0/", "refused,12,2,5,0,4,0"),
    ("10 each addition starts afresh", B, "2 1 0/2 -1 0/2 0/-3 -2 0/3 -2 0/", "refused,12,2,5,0,4,0"),
    ("10 unmapped copy of 16,384", B, "16384 0/", "refused,14,2,0,0,1,0"),
    ("10 copy of 16,385", B, "16385 0/", "refused,3,2,1,0,0,0"),
    ("10 minus 16,385", B, "1 -16385 0/", "refused,3,2,1,0,0,0"),
    ("10 longer chain", B, "2 -1 0/3 -2 0/4 -3 0/5 -4 0/6 -5 0/-1 -6 0/6 -1 0/", "refused,14,2,0,0,7,0"),
    ("10 longer chain, turned", B, "-5 6 0/-4 5 0/-3 4 0/-2 3 0/-1 2 0/-1 -6 0/6 -1 0/", "refused,14,2,0,0,7,0"),
    ("10 long chain", B, "1 0/2 -1 0/3 -2 0/4 -3 0/4 0/-4 0/", "refused,12,2,6,0,5,0"),
    // Deletions.
    ("11 doubles go one by one", B, "5 6 0/6 5 0/d 6 5 0/d 5 6 6 0/d 5 6 0/", "refused,13,2,5,0,2,2"),
    ("11 no subset", B, "5 6 0/d 5 0/", "refused,13,2,2,0,1,0"),
    ("11 no superset", B, "5 6 0/d 5 6 7 0/", "refused,13,2,2,0,1,0"),
    ("11 other sign", B, "5 6 0/d 5 -6 0/", "refused,13,2,2,0,1,0"),
    ("11 a unit is deleted", E1, "x 1 0 1 0 0/e 1 0/e -1 0/d 1 0/0/", "refused,12,2,5,2,0,1"),
    ("11 one of two units is deleted", E1, "x 1 0 1 0 0/e 1 0/e 1 0/e -1 0/d 1 0/0/", "accepted,0,0,0,3,1,1"),
    ("11 an implied unit may be added again", B, "1 2 0/1 -2 0/1 0/d 1 0/1 0/", "refused,14,2,0,0,4,1"),
    ("11 deletion makes RAT", B, "1 0/d 1 0/-1 0/", "refused,14,2,0,0,2,1"),
    ("11 the deleted empty clause", "p cnf 0 1/0/", "e 0/d 0/0/", "refused,12,2,3,1,0,1"),
    ("11 an empty clause of two stays", "p cnf 0 1/0/", "e 0/0/d 0/", "accepted,0,0,0,1,1,1"),
    ("11 nothing empty to delete", B, "d 0/", "refused,13,2,1,0,0,0"),
    ("11 deletion above the limit", B, "d 16385 0/", "refused,3,2,1,0,0,0"),
    ("11 deletion at the limit", B, "d 16384 0/", "refused,13,2,1,0,0,0"),
    ("11 additions after the empty clause are judged", E1, "x 1 0 1 0 0/e 1 0/e -1 0/0/d 0/d 1 0/7 0/-7 0/", "refused,12,2,8,2,2,2"),
];

const NEEDS: &[Needing] = &[
    ("12 A fits", A, A_PROOF, [2, 6, 6, 8, 3, 1], "accepted,0,0,0,2,1,0", [2, 6, 6, 8, 3, 1]),
    ("12 A, prefix short", A, A_PROOF, [1, 6, 6, 8, 3, 1], "refused,15,1,1,0,0,0", [2, 0, 0, 0, 0, 0]),
    ("12 A, matrix short", A, A_PROOF, [2, 5, 6, 8, 3, 1], "refused,15,1,5,0,0,0", [2, 6, 0, 0, 0, 0]),
    ("12 A, map short", A, A_PROOF, [2, 6, 5, 8, 3, 1], "refused,15,2,1,0,0,0", [2, 6, 6, 0, 0, 1]),
    ("12 A, proof short for o", A, A_PROOF, [2, 6, 6, 2, 3, 1], "refused,15,2,2,0,0,0", [2, 6, 6, 3, 0, 1]),
    ("12 A, proof short", A, A_PROOF, [2, 6, 6, 7, 3, 1], "refused,15,2,5,2,0,0", [2, 6, 6, 8, 3, 1]),
    ("12 A, marks short", A, A_PROOF, [2, 6, 6, 8, 2, 1], "refused,15,2,5,2,0,0", [2, 6, 6, 8, 3, 1]),
    ("12 A, values short", A, A_PROOF, [2, 6, 6, 8, 3, 0], "refused,15,2,1,0,0,0", [2, 6, 6, 0, 0, 1]),
    ("12 V counts, not the prefix", "p cnf 9 1/0/", "e 0/", [8, 1, 0, 1, 1, 0], "refused,15,1,1,0,0,0", [9, 0, 0, 0, 0, 0]),
    ("12 out of range before full", "p cnf 4097 0/", "", [0; 6], "refused,3,1,1,0,0,0", [0; 6]),
    ("12 malformed before full", "p cnf 9 0 0/", "", [0; 6], "refused,2,1,1,0,0,0", [0; 6]),
    ("12 V 0 needs nothing", B, "", [0; 6], "refused,14,2,0,0,0,0", [0; 6]),
    ("12 an empty clause needs one", "p cnf 0 1/0/", "e 0/", [0; 6], "refused,15,1,2,0,0,0", [0, 1, 0, 0, 0, 0]),
    ("12 literals as written", "p cnf 1 1/e 1 0/1 1 1 0/", "", [1, 3, 0, 0, 0, 0], "refused,15,1,3,0,0,0", [1, 4, 0, 0, 0, 0]),
    ("12 full before unbound", "p cnf 1 1/1 0/", "", [1, 1, 0, 0, 0, 0], "refused,15,1,2,0,0,0", [1, 2, 0, 0, 0, 0]),
    ("12 an unbound line counts", "p cnf 1 1/1 0/", "", [1, 2, 0, 0, 0, 0], "refused,5,1,2,0,0,0", [1, 2, 0, 0, 0, 0]),
    ("12 an extra line counts", "p cnf 0 0/0/", "", [0, 0, 0, 0, 0, 0], "refused,15,1,2,0,0,0", [0, 1, 0, 0, 0, 0]),
    ("12 a line out of range does not count", "p cnf 1 1/e 1 0/2 0/", "", [1, 0, 0, 0, 0, 0], "refused,3,1,3,0,0,0", [1, 0, 0, 0, 0, 0]),
    ("12 a mapping line of nothing needs three", B, "x 0 0 0/", [0, 0, 2, 0, 0, 0], "refused,15,2,1,0,0,0", [0, 0, 3, 0, 0, 0]),
    ("12 full before mapped twice", A, "x 1 1 0 2 2 0 0/", [2, 6, 6, 0, 0, 1], "refused,15,2,1,0,0,0", [2, 6, 7, 0, 0, 1]),
    ("12 a line mapped twice counts", A, "x 1 1 0 2 2 0 0/", [2, 6, 7, 0, 0, 1], "refused,7,2,1,0,0,0", [2, 6, 7, 0, 0, 1]),
    ("12 a copy, not an existential, for values", A, "x 1 0 2 0 -1 0/", [2, 6, 6, 0, 0, 1], "refused,14,2,0,0,0,0", [2, 6, 6, 0, 0, 1]),
    ("12 an o line of nothing needs one", B, "o 0/", [0; 6], "refused,15,2,1,0,0,0", [0, 0, 0, 1, 0, 0]),
    ("12 hints raise no values", A, "o 2 0/", [2, 6, 0, 2, 0, 0], "refused,10,2,0,0,0,0", [2, 6, 0, 2, 0, 0]),
    ("12 full before unmapped", B, "e 5 0/", [0, 0, 0, 2, 1, 4], "refused,15,2,1,0,0,0", [0, 0, 0, 2, 1, 5]),
    ("12 an unmapped line counts", B, "e 5 0/", [0, 0, 0, 2, 1, 5], "refused,9,2,1,0,0,0", [0, 0, 0, 2, 1, 5]),
    ("12 full before not implied", B, "0/", [0; 6], "refused,15,2,1,0,0,0", [0, 0, 0, 1, 1, 0]),
    ("12 full before hints left over", "p cnf 0 1/0/", "o 1 0/5 0/", [0, 1, 0, 4, 1, 4], "refused,15,2,2,0,0,0", [0, 1, 0, 4, 1, 5]),
    ("12 hints left over count their line", "p cnf 0 1/0/", "o 1 0/5 0/", [0, 1, 0, 4, 1, 5], "refused,10,2,2,0,0,0", [0, 1, 0, 4, 1, 5]),
    ("12 a deletion needs nothing", B, "5 0/d 5 5 5 5 0/d 16384 0/", [0, 0, 0, 2, 1, 5], "refused,13,2,3,0,1,1", [0, 0, 0, 2, 1, 5]),
    ("12 deleted clauses count", B, "5 0/d 5 0/5 0/d 5 0/6 0/", [0, 0, 0, 6, 2, 6], "refused,15,2,5,0,2,2", [0, 0, 0, 6, 3, 6]),
    ("12 values keep the largest", B, "9 0/-3 0/", [0, 0, 0, 4, 2, 9], "refused,14,2,0,0,2,0", [0, 0, 0, 4, 2, 9]),
    ("12 a minus copy counts as its copy", B, "-9 0/", [0, 0, 0, 2, 1, 8], "refused,15,2,1,0,0,0", [0, 0, 0, 2, 1, 9]),
    ("12 a line out of range adds no values", B, "9 16385 0/", [0; 6], "refused,3,2,1,0,0,0", [0; 6]),
    ("12 a malformed line adds nothing", B, "9 9 9/", [0; 6], "refused,2,2,1,0,0,0", [0; 6]),
];

pub(crate) fn plain(kind: Kind, list: &[Plain]) -> Vec<Fixed> {
    list.iter().map(|(name, formula, certificate, expected)| made(kind, name, bytes(formula), bytes(certificate), expected)).collect()
}

pub(crate) fn needing(kind: Kind, list: &[Needing]) -> Vec<Fixed> {
    list.iter()
        .map(|(name, formula, certificate, lengths, expected, needs)| Fixed {
            lengths: *lengths,
            needs: Some(*needs),
            ..made(kind, name, bytes(formula), bytes(certificate), expected)
        })
        .collect()
}

/// A case in tables of 16,384 places.
pub(crate) fn made(kind: Kind, name: &str, formula: Vec<u8>, certificate: Vec<u8>, expected: &str) -> Fixed {
    Fixed { kind, name: name.to_string(), formula, certificate, lengths: AMPLE, expected: expected.to_string(), needs: None }
}

/// The file, made so long by this byte.
pub(crate) fn padded(head: &[u8], length: usize, byte: u8) -> Vec<u8> {
    let mut file = head.to_vec();
    file.resize(length, byte);
    file
}

/// The twelve checks of document 01.
pub fn twelve() -> Vec<Fixed> {
    plain(Kind::Ferat, TWELVE)
}

/// All fixed cases of FERAT certificates.
pub fn cases() -> Vec<Fixed> {
    let mut list = twelve();
    list.extend(plain(Kind::Ferat, EDGES));
    list.extend(needing(Kind::Ferat, NEEDS));
    // Bytes that no text holds.
    let mut odd = |name: &str, formula: Vec<u8>, certificate: Vec<u8>, expected: &str| {
        list.push(made(Kind::Ferat, name, formula, certificate, expected));
    };
    odd("1 byte 255 is no blank", b"p cnf 0 1\n\xff0\n".to_vec(), b"e 0\n".to_vec(), "refused,2,1,2,0,0,0");
    odd("1 byte 160 is no blank", b"p cnf 0 1\n0\xa0\n".to_vec(), b"e 0\n".to_vec(), "refused,2,1,2,0,0,0");
    odd("1 any byte in a skipped line", b"c\x00\xff\np cnf 0 1\n0\n".to_vec(), b"c\xff\ne 0".to_vec(), "accepted,0,0,0,1,0,0");
    // Lengths of files.
    let limit = 1_048_576;
    let formula = b"p cnf 0 1\n0\n";
    odd("13 formula at its limit", padded(formula, limit, 32), b"e 0\n".to_vec(), "accepted,0,0,0,1,0,0");
    odd("13 formula above", padded(formula, limit + 1, 32), b"e 0\n".to_vec(), "refused,1,1,0,0,0,0");
    odd("13 certificate at its limit", formula.to_vec(), padded(b"e 0\n", limit, 10), "accepted,0,0,0,1,0,0");
    odd("13 certificate above", formula.to_vec(), padded(b"e 0\n", limit + 1, 10), "refused,1,2,0,0,0,0");
    odd("13 both above", padded(formula, limit + 1, 32), padded(b"e 0\n", limit + 1, 10), "refused,1,1,0,0,0,0");
    odd("13 bad formula, certificate above", b"p".to_vec(), padded(b"", limit + 1, b'c'), "refused,1,2,0,0,0,0");
    let mut late = padded(b"", limit - 2, 10);
    late.extend(b"e ");
    odd("13 line 1,048,575", formula.to_vec(), late, "refused,2,2,1048575,0,0,0");
    let mut long = b"p cnf 0 1\n0\nc".to_vec();
    long.resize(limit - 1, b'0');
    long.push(10);
    odd("13 a skipped line of a million bytes", long, b"e 0".to_vec(), "accepted,0,0,0,1,0,0");
    let mut digits = vec![b'9'; limit - 3];
    digits.extend(b" 0\n");
    odd("13 a number of a million digits", formula.to_vec(), digits, "refused,3,2,1,0,0,0");
    let mut zeros = vec![b'0'; limit - 3];
    zeros.extend(b" 0\n");
    odd("13 a million zeros", formula.to_vec(), zeros, "refused,2,2,1,0,0,0");
    list
}
