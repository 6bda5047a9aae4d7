//! Fixed cases of FERP certificates, as `fixed` has them for FERAT: verdicts
//! worked out by hand from documents 01 and 02 and source document 001.

use crate::fixed::{self, bytes, made, needing, padded, plain, Fixed, Needing, Plain, A, A_PROOF, B, E1, F12, FIGURE_2, U};
use crate::Kind;

/// The certificate of figure 2 of source document 001.
pub const FIGURE_2_FERP: &str = "x 1 0 1 0 0/x 2 0 3 0 2 0/x 3 0 3 0 -2 0/c/c resolution/c/\
    1 1 3 0 1 0/2 -1 2 0 2 0/3 -3 0 3 0/4 -2 0 3 0/5 2 3 0 1 2 0/6 2 0 5 3 0/7 0 6 4 0/";
/// One empty clause.
const O: &str = "p cnf 0 1/0/";
/// A whole proof of E1.
const E1_PROOF: &str = "x 1 0 1 0 0/1 1 0 1 0/2 -1 0 2 0/3 0 1 2 0/";

const EDGES: &[Plain] = &[
    ("figure 2 of 001", FIGURE_2, FIGURE_2_FERP, "accepted,0,0,0,4,3,0"),
    ("two units", E1, E1_PROOF, "accepted,0,0,0,2,1,0"),
    // Lines of no allowed form.
    ("16 index 0", O, "0 0 1 0/", "refused,2,2,1,0,0,0"),
    ("16 index -1", O, "-1 0 1 0/", "refused,2,2,1,0,0,0"),
    ("16 index 01", O, "01 0 1 0/", "refused,2,2,1,0,0,0"),
    ("16 index +1", O, "+1 0 1 0/", "refused,2,2,1,0,0,0"),
    ("16 no number", O, "1 0 0/", "refused,2,2,1,0,0,0"),
    ("16 no second list", O, "1 0/", "refused,2,2,1,0,0,0"),
    ("16 an index alone", O, "1/", "refused,2,2,1,0,0,0"),
    ("16 an addition", O, "1 2 0/", "refused,2,2,1,0,0,0"),
    ("16 an empty addition", O, "0/", "refused,2,2,1,0,0,0"),
    ("16 first list not closed", O, "1 5/", "refused,2,2,1,0,0,0"),
    ("16 second list not closed", O, "1 0 1/", "refused,2,2,1,0,0,0"),
    ("16 two numbers not closed", O, "1 0 1 0/2 0 1 1/", "refused,2,2,2,1,0,0"),
    ("16 three numbers", O, "1 0 1 0/2 0 1 1 1 0/", "refused,2,2,2,1,0,0"),
    ("16 a zero before the number", O, "1 0 0 1 0/", "refused,2,2,1,0,0,0"),
    ("16 a zero between the numbers", O, "1 0 1 0 1 0/", "refused,2,2,1,0,0,0"),
    ("16 a zero too many", O, "1 0 1 0 0/", "refused,2,2,1,0,0,0"),
    ("16 a minus number", O, "1 0 -1 0/", "refused,2,2,1,0,0,0"),
    ("16 a minus parent", O, "1 0 1 0/2 0 1 -1 0/", "refused,2,2,2,1,0,0"),
    ("16 minus zero", O, "1 -0 1 0/", "refused,2,2,1,0,0,0"),
    ("16 double zero", O, "1 00 1 0/", "refused,2,2,1,0,0,0"),
    ("16 a number with a leading zero", O, "1 0 01 0/", "refused,2,2,1,0,0,0"),
    ("16 more after the last zero", O, "1 0 1 0 1/", "refused,2,2,1,0,0,0"),
    ("16 c after the last zero", O, "1 0 1 0 c/", "refused,2,2,1,0,0,0"),
    ("16 a letter among the literals", O, "1 e 0 1 0/", "refused,2,2,1,0,0,0"),
    ("16 a letter glued to the index", O, "1e 0 1 0/", "refused,2,2,1,0,0,0"),
    ("16 another word", O, "y 0 1 0/", "refused,2,2,1,0,0,0"),
    ("16 X", O, "X 0 0 0/", "refused,2,2,1,0,0,0"),
    ("16 byte 11 is no blank", O, "1 0 1 0\u{b}/", "refused,2,2,1,0,0,0"),
    // Lines of FERAT.
    ("16 a whole FERAT certificate", A, A_PROOF, "refused,2,2,2,0,0,0"),
    ("16 an o line", O, "o 1 0/1 0 1 0/", "refused,2,2,1,0,0,0"),
    ("16 an e line", O, "e 0/", "refused,2,2,1,0,0,0"),
    ("16 an e line with two lists", O, "e 0 1 0/", "refused,2,2,1,0,0,0"),
    ("16 a deletion", O, "1 0 1 0/d 0/", "refused,2,2,2,1,0,0"),
    ("16 a deletion by index", O, "1 0 1 0/2 d 1 0/", "refused,2,2,2,1,0,0"),
    // Sequence, skipped lines, blanks.
    ("16 a mapping line after a clause line", O, "1 0 1 0/x 0 0 0/", "refused,2,2,2,1,0,0"),
    ("16 out of sequence before out of range", O, "1 0 1 0/x 16385 0 1 0 0/", "refused,2,2,2,1,0,0"),
    ("16 skipped lines are counted", O, "/c 1 0 1 0/ \t\r/c1 0 1 0/1 0 2 0/", "refused,3,2,5,0,0,0"),
    ("16 c behind blanks", O, " \tc 1/\rcx/1 0 1 0/", "accepted,0,0,0,1,0,0"),
    ("16 blanks", O, "\t1\r0  1\t0 \r/", "accepted,0,0,0,1,0,0"),
    ("16 last line without byte 10", O, "1 0 1 0", "accepted,0,0,0,1,0,0"),
    // Ranges.
    ("17 index 65,536", O, "65536 0 1 0/", "accepted,0,0,0,1,0,0"),
    ("17 index 65,537", O, "65537 0 1 0/", "refused,3,2,1,0,0,0"),
    ("17 index 2^32 + 1", O, "4294967297 0 1 0/", "refused,3,2,1,0,0,0"),
    ("17 index of thirty digits", O, "100000000000000000000000000001 0 1 0/", "refused,3,2,1,0,0,0"),
    ("17 malformed before out of range", O, "65537 0 0/", "refused,2,2,1,0,0,0"),
    ("17 thirty digits beside a bad token", O, "1 0 100000000000000000000000000001 -1 0/", "refused,2,2,1,0,0,0"),
    ("17 n is C", E1, "x 1 0 1 0 0/1 -1 0 2 0/", "refused,14,2,0,1,0,0"),
    ("17 n above C", E1, "x 1 0 1 0 0/1 -1 0 3 0/", "refused,3,2,2,0,0,0"),
    ("17 n above C of 0", B, "1 0 1 0/", "refused,3,2,1,0,0,0"),
    ("17 n of 2^32 + 1", O, "1 0 4294967297 0/", "refused,3,2,1,0,0,0"),
    ("17 n of 2^16 + 1", O, "1 0 65537 0/", "refused,3,2,1,0,0,0"),
    ("17 parents above C", E1, "x 1 0 1 0 0/8 1 0 1 0/9 -1 0 2 0/7 0 8 9 0/", "accepted,0,0,0,2,1,0"),
    ("17 parent 65,536", E1, "x 1 0 1 0 0/65536 1 0 1 0/2 -1 0 2 0/3 0 65536 2 0/", "accepted,0,0,0,2,1,0"),
    ("17 first parent 65,537", O, "1 0 65537 1 0/", "refused,3,2,1,0,0,0"),
    ("17 second parent 65,537", O, "1 0 1 65537 0/", "refused,3,2,1,0,0,0"),
    ("17 parent 65,536 missing", O, "1 0 1 65536 0/", "refused,16,2,1,0,0,0"),
    ("17 parent 2^16 + 1", E1, "x 1 0 1 0 0/1 1 0 1 0/2 -1 0 2 0/3 0 65537 2 0/", "refused,3,2,4,2,0,0"),
    ("17 copy 16,384", E1, "x 16384 0 1 0 0/1 -16384 0 2 0/", "refused,14,2,0,1,0,0"),
    ("17 copy 16,385", E1, "x 1 0 1 0 0/1 16385 0 1 0/", "refused,3,2,2,0,0,0"),
    ("17 minus 16,385", E1, "x 1 0 1 0 0/1 1 -16385 0 1 0/", "refused,3,2,2,0,0,0"),
    ("17 copy 16,385 in a resolution", O, "1 0 1 0/2 16385 0 1 1 0/", "refused,3,2,2,1,0,0"),
    ("17 copy 16,384 in a resolution", O, "1 0 1 0/2 16384 0 1 1 0/", "refused,16,2,2,1,0,0"),
    ("17 n out of range before used", O, "1 0 1 0/1 0 2 0/", "refused,3,2,2,1,0,0"),
    ("17 parent out of range before used", O, "1 0 1 0/1 0 1 65537 0/", "refused,3,2,2,1,0,0"),
    ("17 copy out of range before used", O, "1 0 1 0/1 16385 0 1 0/", "refused,3,2,2,1,0,0"),
    // Indexes.
    ("18 used by an expansion", O, "1 0 1 0/1 0 1 0/", "refused,17,2,2,1,0,0"),
    ("18 used, first 65,536", O, "65536 0 1 0/65536 0 1 0/", "refused,17,2,2,1,0,0"),
    ("18 used by an expansion, long before", E1, "x 1 0 1 0 0/9 1 0 1 0/2 -1 0 2 0/3 0 9 2 0/9 1 0 1 0/", "refused,17,2,5,2,1,0"),
    ("18 used by a resolution", E1, "x 1 0 1 0 0/1 1 0 1 0/2 -1 0 2 0/3 0 1 2 0/3 0 1 2 0/", "refused,17,2,5,2,1,0"),
    ("18 a resolution uses it again", E1, "x 1 0 1 0 0/1 1 0 1 0/2 -1 0 2 0/2 0 1 2 0/", "refused,17,2,4,2,0,0"),
    ("18 used before a missing parent", O, "1 0 1 0/1 0 5 6 0/", "refused,17,2,2,1,0,0"),
    ("18 used before no resolvent", O, "1 0 1 0/1 5 0 1 1 0/", "refused,17,2,2,1,0,0"),
    ("18 used before unmapped", O, "1 0 1 0/1 5 0 1 0/", "refused,17,2,2,1,0,0"),
    ("18 used before no expansion", E1, "x 1 0 1 0 0/1 1 0 1 0/1 1 0 2 0/", "refused,17,2,3,1,0,0"),
    ("18 the same clause, another index", O, "1 0 1 0/2 0 1 0/", "accepted,0,0,0,2,0,0"),
    ("18 any order, with gaps", E1, "x 1 0 1 0 0/900 1 0 1 0/30 -1 0 2 0/77 0 30 900 0/", "accepted,0,0,0,2,1,0"),
    ("18 falling", E1, "x 1 0 1 0 0/3 1 0 1 0/2 -1 0 2 0/1 0 2 3 0/", "accepted,0,0,0,2,1,0"),
    // Expansions.
    ("19 the empty clause", O, "1 0 1 0/", "accepted,0,0,0,1,0,0"),
    ("19 universals only", "p cnf 1 1/a 1 0/1 0/", "1 0 1 0/", "accepted,0,0,0,1,0,0"),
    ("19 both signs of a universal", "p cnf 1 1/a 1 0/1 -1 0/", "1 0 1 0/", "refused,11,2,1,0,0,0"),
    ("19 unmapped", E1, "x 1 0 1 0 0/1 2 0 1 0/", "refused,9,2,2,0,0,0"),
    ("19 nothing mapped", E1, "1 1 0 1 0/", "refused,9,2,1,0,0,0"),
    ("19 unmapped before no expansion", E1, "x 1 0 1 0 0/1 -1 2 0 1 0/", "refused,9,2,2,0,0,0"),
    ("19 the number binds", E1, "x 1 0 1 0 0/1 1 0 2 0/", "refused,11,2,2,0,0,0"),
    ("19 the number binds, second", E1, "x 1 0 1 0 0/1 1 0 1 0/2 -1 0 1 0/", "refused,11,2,3,1,0,0"),
    ("19 the number is no count of lines", E1, "x 1 0 1 0 0/1 -1 0 2 0/2 1 0 1 0/3 0 1 2 0/", "accepted,0,0,0,2,1,0"),
    ("19 annotation says the other", A, "x 1 0 2 0 1 0/1 1 0 1 0/", "refused,11,2,2,0,0,0"),
    ("19 universal unassigned", F12, "x 1 0 2 0 0/1 1 0 1 0/", "refused,11,2,2,0,0,0"),
    ("19 left copy says less", U, "x 1 0 2 0 0/x 2 0 4 0 3 -1 0/1 1 2 0 1 0/", "refused,11,2,3,0,0,0"),
    ("19 two annotations, one t", U, "x 1 0 2 0 -1 0/x 2 0 4 0 3 -1 0/1 1 2 0 1 0/", "refused,14,2,0,1,0,0"),
    ("19 a literal is missing", U, "x 1 0 2 0 -1 0/x 2 0 4 0 3 -1 0/1 1 0 1 0/", "refused,11,2,3,0,0,0"),
    ("19 a literal too many", U, "x 1 0 2 0 -1 0/x 2 0 4 0 3 -1 0/1 2 1 0 2 0/", "refused,11,2,3,0,0,0"),
    ("19 other sign", A, "x 1 0 2 0 -1 0/1 -1 0 1 0/", "refused,11,2,2,0,0,0"),
    ("19 written twice", E1, "x 1 0 1 0 0/1 1 1 1 0 1 0/2 -1 -1 0 2 0/3 0 1 2 0/", "accepted,0,0,0,2,1,0"),
    ("19 two copies of one pair", E1, "x 1 2 0 1 1 0 0/1 1 2 0 1 0/2 -1 0 2 0/3 2 0 1 2 0/4 -2 0 2 0/5 0 3 4 0/", "accepted,0,0,0,3,2,0"),
    ("19 an expansion after a resolution", E1, "x 1 0 1 0 0/1 1 0 1 0/2 -1 0 2 0/3 0 1 2 0/4 1 0 1 0/", "accepted,0,0,0,3,1,0"),
    // Parents.
    ("20 missing", E1, "x 1 0 1 0 0/1 1 0 1 0/3 0 1 2 0/", "refused,16,2,3,1,0,0"),
    ("20 both missing", E1, "x 1 0 1 0 0/1 1 0 1 0/3 0 2 4 0/", "refused,16,2,3,1,0,0"),
    ("20 nothing before", O, "1 0 2 3 0/", "refused,16,2,1,0,0,0"),
    ("20 its own index", E1, "x 1 0 1 0 0/1 1 0 1 0/2 0 1 2 0/", "refused,16,2,3,1,0,0"),
    ("20 its own index twice", "p cnf 1 1/e 1 0/1 -1 0/", "x 1 0 1 0 0/1 1 -1 0 1 1 0/", "refused,16,2,2,0,0,0"),
    ("20 a later line", E1, "x 1 0 1 0 0/1 1 0 1 0/3 0 1 2 0/2 -1 0 2 0/", "refused,16,2,3,1,0,0"),
    ("20 a number is no line", E1, "x 1 0 1 0 0/11 1 0 1 0/12 -1 0 2 0/13 0 2 3 0/", "refused,16,2,4,2,0,0"),
    ("20 a number is no matrix clause", E1, "x 1 0 1 0 0/11 1 0 1 0/12 -1 0 2 0/13 0 1 2 0/", "refused,16,2,4,2,0,0"),
    ("20 a number is no count of clause lines", E1, "x 1 0 1 0 0/2 1 0 1 0/1 -1 0 2 0/5 1 0 1 0/3 0 1 3 0/", "refused,16,2,5,3,0,0"),
    ("20 the index names the line, not the place", E1, "x 1 0 1 0 0/2 1 0 1 0/1 -1 0 2 0/9 1 0 1 0/3 0 1 9 0/", "accepted,0,0,0,3,1,0"),
    ("20 a resolvent is a parent", FIGURE_2, FIGURE_2_FERP, "accepted,0,0,0,4,3,0"),
    ("20 the empty clause is a parent", O, "1 0 1 0/2 0 1 1 0/", "refused,16,2,2,1,0,0"),
    ("20 unmapped and no parent", O, "1 5 0 2 3 0/", "refused,16,2,1,0,0,0"),
    ("20 a union of no resolvents", "p cnf 2 2/e 1 2 0/1 0/2 0/", "x 1 2 0 1 2 0 0/1 1 0 1 0/2 2 0 2 0/3 1 2 0 1 2 0/", "refused,16,2,4,2,0,0"),
    ("20 both signs leave both parents", "p cnf 1 2/e 1 0/1 -1 0/-1 0/", "x 1 0 1 0 0/1 1 -1 0 1 0/2 -1 0 2 0/3 0 1 2 0/", "refused,16,2,4,2,0,0"),
    ("20 two copies at once", "p cnf 2 2/e 1 2 0/1 2 0/-1 -2 0/", "x 1 2 0 1 2 0 0/1 1 2 0 1 0/2 -1 -2 0 2 0/3 0 1 2 0/", "refused,16,2,4,2,0,0"),
    ("20 two copies of one existential do not clash", E1, "x 1 2 0 1 1 0 0/1 1 0 1 0/2 -2 0 2 0/3 0 1 2 0/", "refused,16,2,4,2,0,0"),
    // The end.
    ("22 empty certificate", E1, "", "refused,14,2,0,0,0,0"),
    ("22 an empty matrix clause alone", O, "", "refused,14,2,0,0,0,0"),
    ("22 mapping lines only", E1, "x 1 0 1 0 0/x 0 0 0/c/", "refused,14,2,0,0,0,0"),
    ("22 no empty clause", E1, "x 1 0 1 0 0/1 1 0 1 0/2 -1 0 2 0/", "refused,14,2,0,2,0,0"),
    ("22 after the empty clause, good lines", E1, "x 1 0 1 0 0/1 1 0 1 0/2 -1 0 2 0/3 0 1 2 0/4 0 2 1 0/5 -1 0 2 0/", "accepted,0,0,0,3,2,0"),
    ("22 after the empty clause, a bad parent", O, "1 0 1 0/2 0 1 3 0/", "refused,16,2,2,1,0,0"),
    ("22 after the empty clause, unmapped", O, "1 0 1 0/2 5 0 1 0/", "refused,9,2,2,1,0,0"),
    ("22 after the empty clause, malformed", O, "1 0 1 0/0/", "refused,2,2,2,1,0,0"),
];

/// Eight clauses, and the certificate of their expansions with indexes 1 to 8.
const R: &str = "p cnf 4 8/e 1 2 3 4 0/1 2 0/-1 3 0/-1 -2 0/1 -1 4 0/-4 1 2 0/-1 2 0/-1 0/1 -1 0/";
const R_EXPANDED: &str = "x 1 2 3 4 0 1 2 3 4 0 0/1 1 2 0 1 0/2 -1 3 0 2 0/3 -1 -2 0 3 0/4 1 -1 4 0 4 0/\
    5 -4 1 2 0 5 0/6 -1 2 0 6 0/7 -1 0 7 0/8 1 -1 0 8 0/";

/// Name, a line after these without its index, and whether it is accepted;
/// 16 otherwise.
const RESOLVENTS: &[(&str, &str, bool)] = &[
    ("the resolvent", "2 3 0 1 2 0", true),
    ("parents turned", "2 3 0 2 1 0", true),
    ("literals turned", "3 2 0 1 2 0", true),
    ("written twice", "3 2 3 0 1 2 0", true),
    ("a subset", "2 0 1 2 0", false),
    ("another subset", "3 0 1 2 0", false),
    ("nothing left", "0 1 2 0", false),
    ("a superset", "2 3 4 0 1 2 0", false),
    ("a superset, unmapped", "2 3 9 0 1 2 0", false),
    ("the copy kept", "1 2 3 0 1 2 0", false),
    ("its negation kept", "-1 2 3 0 1 2 0", false),
    ("both kept", "1 -1 2 3 0 1 2 0", false),
    ("another sign", "2 -3 0 1 2 0", false),
    ("all signs turned", "-2 -3 0 1 2 0", false),
    ("the one parent again", "1 2 0 1 2 0", false),
    ("the other parent again", "-1 3 0 1 2 0", false),
    ("a literal of both parents stays", "2 0 1 6 0", true),
    ("a literal of both parents is gone", "0 1 6 0", false),
    ("no copy clashes", "1 2 -4 0 1 5 0", false),
    ("no copy clashes, cut", "2 -4 0 1 5 0", false),
    ("on the first of two copies", "2 -2 0 1 3 0", true),
    ("on the second of two copies", "1 -1 0 1 3 0", true),
    ("on both copies", "0 1 3 0", false),
    ("on both copies, one sign left", "-2 0 1 3 0", false),
    ("both signs in one parent", "-1 4 3 0 4 2 0", true),
    ("both signs in one parent, both gone", "4 3 0 4 2 0", false),
    ("both signs in one parent, the other left", "1 4 3 0 4 2 0", false),
    ("both signs in the second parent", "2 1 4 0 1 4 0", true),
    ("both signs in the second parent, both gone", "2 4 0 1 4 0", false),
    ("a unit with both signs", "-1 0 7 8 0", true),
    ("a unit with both signs, turned", "-1 0 8 7 0", true),
    ("a unit with both signs, nothing", "0 7 8 0", false),
    ("a unit with both signs, the other left", "1 0 8 7 0", false),
    ("both parents with both signs", "1 -1 4 0 4 8 0", true),
    ("both parents with both signs, one left", "1 4 0 4 8 0", false),
    ("both parents with both signs, none left", "4 0 4 8 0", false),
    ("the same line, both signs", "4 1 -1 0 4 4 0", true),
    ("the same line, both signs, one left", "4 -1 0 4 4 0", false),
    ("the same line, both signs, none left", "4 0 4 4 0", false),
    ("the same line of both signs alone", "1 -1 0 8 8 0", true),
    ("the same line of both signs alone, nothing", "0 8 8 0", false),
    ("the same line, no clash", "1 2 0 1 1 0", false),
    ("the same line, a literal gone", "2 0 1 1 0", false),
    ("unit resolution", "2 0 1 7 0", true),
    ("unit resolution, turned", "2 0 7 1 0", true),
    ("two units of the same sign", "-1 0 7 7 0", false),
];

const NEEDS: &[Needing] = &[
    ("21 a proof fits", E1, E1_PROOF, [1, 4, 5, 8, 3, 1], "accepted,0,0,0,2,1,0", [1, 4, 5, 8, 3, 1]),
    ("21 prefix short", E1, E1_PROOF, [0, 4, 5, 8, 3, 1], "refused,15,1,1,0,0,0", [1, 0, 0, 0, 0, 0]),
    ("21 matrix short", E1, E1_PROOF, [1, 3, 5, 8, 3, 1], "refused,15,1,4,0,0,0", [1, 4, 0, 0, 0, 0]),
    ("21 map short", E1, E1_PROOF, [1, 4, 4, 8, 3, 1], "refused,15,2,1,0,0,0", [1, 4, 5, 0, 0, 1]),
    ("21 proof short", E1, E1_PROOF, [1, 4, 5, 7, 3, 1], "refused,15,2,4,2,0,0", [1, 4, 5, 8, 3, 1]),
    ("21 proof short for an expansion", E1, E1_PROOF, [1, 4, 5, 2, 3, 1], "refused,15,2,2,0,0,0", [1, 4, 5, 3, 1, 1]),
    ("21 marks short", E1, E1_PROOF, [1, 4, 5, 8, 2, 1], "refused,15,2,4,2,0,0", [1, 4, 5, 8, 3, 1]),
    ("21 marks short for an expansion", E1, E1_PROOF, [1, 4, 5, 8, 0, 1], "refused,15,2,2,0,0,0", [1, 4, 5, 3, 1, 1]),
    ("21 values short", E1, E1_PROOF, [1, 4, 5, 8, 3, 0], "refused,15,2,1,0,0,0", [1, 4, 5, 0, 0, 1]),
    ("21 an empty clause needs two", O, "1 0 1 0/", [0, 1, 0, 1, 1, 0], "refused,15,2,1,0,0,0", [0, 1, 0, 2, 1, 0]),
    ("21 an empty clause fits in two", O, "1 0 1 0/", [0, 1, 0, 2, 1, 0], "accepted,0,0,0,1,0,0", [0, 1, 0, 2, 1, 0]),
    ("21 indexes raise no values", O, "65536 0 1 0/", [0, 1, 0, 2, 1, 0], "accepted,0,0,0,1,0,0", [0, 1, 0, 2, 1, 0]),
    ("21 parents raise no values", O, "1 0 65535 65536 0/", [0, 1, 0, 2, 1, 0], "refused,16,2,1,0,0,0", [0, 1, 0, 2, 1, 0]),
    ("21 values of an expansion short", O, "1 5 0 1 0/", [0, 1, 0, 3, 1, 4], "refused,15,2,1,0,0,0", [0, 1, 0, 3, 1, 5]),
    ("21 an unmapped line counts", O, "1 5 0 1 0/", [0, 1, 0, 3, 1, 5], "refused,9,2,1,0,0,0", [0, 1, 0, 3, 1, 5]),
    ("21 values of a resolution short", O, "1 -5 0 2 3 0/", [0, 1, 0, 3, 1, 4], "refused,15,2,1,0,0,0", [0, 1, 0, 3, 1, 5]),
    ("21 a bad parent counts", O, "1 -5 0 2 3 0/", [0, 1, 0, 3, 1, 5], "refused,16,2,1,0,0,0", [0, 1, 0, 3, 1, 5]),
    ("21 literals as written", O, "1 5 5 5 0 2 3 0/", [0, 1, 0, 5, 1, 5], "refused,16,2,1,0,0,0", [0, 1, 0, 5, 1, 5]),
    ("21 literals as written, short", O, "1 5 5 5 0 2 3 0/", [0, 1, 0, 4, 1, 5], "refused,15,2,1,0,0,0", [0, 1, 0, 5, 1, 5]),
    ("21 values keep the largest", O, "1 9 -3 0 2 3 0/", [0, 1, 0, 4, 1, 9], "refused,16,2,1,0,0,0", [0, 1, 0, 4, 1, 9]),
    ("21 full before used", O, "1 0 1 0/1 0 1 0/", [0, 1, 0, 3, 2, 0], "refused,15,2,2,1,0,0", [0, 1, 0, 4, 2, 0]),
    ("21 marks full before used", O, "1 0 1 0/1 0 1 0/", [0, 1, 0, 4, 1, 0], "refused,15,2,2,1,0,0", [0, 1, 0, 4, 2, 0]),
    ("21 a used index counts", O, "1 0 1 0/1 0 1 0/", [0, 1, 0, 4, 2, 0], "refused,17,2,2,1,0,0", [0, 1, 0, 4, 2, 0]),
    ("21 values full before used", O, "1 0 1 0/1 7 0 1 1 0/", [0, 1, 0, 5, 2, 6], "refused,15,2,2,1,0,0", [0, 1, 0, 5, 2, 7]),
    ("21 full before a missing parent", O, "1 0 2 3 0/", [0, 1, 0, 1, 1, 0], "refused,15,2,1,0,0,0", [0, 1, 0, 2, 1, 0]),
    ("21 full before no resolvent", O, "1 0 1 0/2 0 1 1 0/", [0, 1, 0, 4, 1, 0], "refused,15,2,2,1,0,0", [0, 1, 0, 4, 2, 0]),
    ("21 full before no expansion", E1, "x 1 0 1 0 0/1 1 0 2 0/", [1, 4, 5, 2, 1, 1], "refused,15,2,2,0,0,0", [1, 4, 5, 3, 1, 1]),
    ("21 no expansion counts", E1, "x 1 0 1 0 0/1 1 0 2 0/", [1, 4, 5, 3, 1, 1], "refused,11,2,2,0,0,0", [1, 4, 5, 3, 1, 1]),
    ("21 a copy out of range adds nothing", O, "1 9 16385 0 1 0/", [0, 1, 0, 0, 0, 0], "refused,3,2,1,0,0,0", [0, 1, 0, 0, 0, 0]),
    ("21 n out of range adds nothing", O, "1 9 0 2 0/", [0, 1, 0, 0, 0, 0], "refused,3,2,1,0,0,0", [0, 1, 0, 0, 0, 0]),
    ("21 an index out of range adds nothing", O, "65537 9 0 1 0/", [0, 1, 0, 0, 0, 0], "refused,3,2,1,0,0,0", [0, 1, 0, 0, 0, 0]),
    ("21 a parent out of range adds nothing", O, "1 9 0 65537 1 0/", [0, 1, 0, 0, 0, 0], "refused,3,2,1,0,0,0", [0, 1, 0, 0, 0, 0]),
    ("21 a malformed line adds nothing", O, "1 9 0/", [0, 1, 0, 0, 0, 0], "refused,2,2,1,0,0,0", [0, 1, 0, 0, 0, 0]),
    ("21 a line out of sequence adds nothing", O, "1 0 1 0/x 0 0 0/", [0, 1, 0, 2, 1, 0], "refused,2,2,2,1,0,0", [0, 1, 0, 2, 1, 0]),
    ("21 a mapping line of nothing needs three", O, "x 0 0 0/", [0, 1, 2, 0, 0, 0], "refused,15,2,1,0,0,0", [0, 1, 3, 0, 0, 0]),
    ("21 full before mapped twice", A, "x 1 1 0 2 2 0 0/", [2, 6, 6, 0, 0, 1], "refused,15,2,1,0,0,0", [2, 6, 7, 0, 0, 1]),
];

/// Files at their limit, and long lines.
fn long_files() -> Vec<Fixed> {
    let limit = 1_048_576;
    let (formula, proof) = (bytes(O), b"1 0 1 0\n".to_vec());
    let ferp = |name: &str, formula: Vec<u8>, certificate: Vec<u8>, expected: &str| made(Kind::Ferp, name, formula, certificate, expected);
    let mut digits = b"1 0 1 ".to_vec();
    digits.resize(limit - 2, b'9');
    digits.extend(b" 0");
    let mut late = padded(&proof, limit - 7, 10);
    late.extend(b"2 0 1 0");
    vec![
        ferp("16 certificate at its limit", formula.clone(), padded(&proof, limit, 10), "accepted,0,0,0,1,0,0"),
        ferp("16 certificate above", formula.clone(), padded(&proof, limit + 1, 10), "refused,1,2,0,0,0,0"),
        ferp("16 formula above", padded(&formula, limit + 1, 32), proof.clone(), "refused,1,1,0,0,0,0"),
        ferp("16 bad formula, certificate above", b"p".to_vec(), padded(&proof, limit + 1, 32), "refused,1,2,0,0,0,0"),
        ferp("16 a parent of a million digits", formula.clone(), digits, "refused,3,2,1,0,0,0"),
        ferp("16 a last line at the limit", formula, late, "accepted,0,0,0,2,0,0"),
    ]
}

/// Those of `fixed` that are the same for a FERP certificate: the formula is
/// refused, or the certificate has mapping lines alone.
fn shared() -> Vec<Fixed> {
    let mapping = |line: &[u8]| line.first().is_none_or(|byte| *byte == b'x');
    let mut list = fixed::cases();
    list.retain(|case| case.expected.split(',').nth(2) == Some("1") || case.certificate.split(|byte| *byte == 10).all(mapping));
    list.into_iter().map(|case| Fixed { kind: Kind::Ferp, name: format!("16 as FERAT: {}", case.name), ..case }).collect()
}

/// All fixed cases of FERP certificates.
pub fn cases() -> Vec<Fixed> {
    let mut list = plain(Kind::Ferp, EDGES);
    list.extend(shared());
    list.extend(RESOLVENTS.iter().map(|(name, line, right)| {
        let expected = if *right { "refused,14,2,0,8,1,0" } else { "refused,16,2,10,8,0,0" };
        made(Kind::Ferp, &format!("20 {name}"), bytes(R), bytes(&format!("{R_EXPANDED}9 {line}/")), expected)
    }));
    list.extend(needing(Kind::Ferp, NEEDS));
    list.extend(long_files());
    list
}
