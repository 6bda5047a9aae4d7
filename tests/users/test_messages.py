"""What is printed below a refusal, number by number (tables that are full: tests/ferat)."""
import gzip
import lzma
import unittest

from common import A, ACCEPTED, PROOF, RESOLUTION, Case

MAP = "x 1 0 2 0 -1 0\n"
LONG = "1 " * 300_000

IN_FERAT = "    this is a line of a FERAT certificate: the verb ferat checks those\n"
IN_FERP = "    this is a line of a FERP certificate: the verb ferp checks those\n"

# Formula, certificate, what is printed.
REFUSALS = [
    # 1: which limit
    ("c" * 1_048_577, "", "refused,1,1,0,0,0,0\n  f:0: overlong\n    a file may have at most 1048576 bytes\n"),
    (A, "c" * 1_048_577, "refused,1,2,0,0,0,0\n  c:0: overlong\n    a file may have at most 1048576 bytes\n"),
    # 2: which token of the formula
    ("", "", "refused,2,1,0,0,0,0\n  f:0: malformed\n    the formula has no p line\n"),
    ("p dnf 1 1\n", "", "refused,2,1,1,0,0,0\n  f:1: malformed: p dnf 1 1\n    token 2, dnf: cnf is due\n"),
    ("p\n", "", "refused,2,1,1,0,0,0\n  f:1: malformed: p\n    the line ends before cnf\n"),
    ("p cnf 1\n", "", "refused,2,1,1,0,0,0\n  f:1: malformed: p cnf 1\n    the line ends before C\n"),
    ("p cnf 01 1\n", "", "refused,2,1,1,0,0,0\n  f:1: malformed: p cnf 01 1\n    token 3, 01: a number does not begin with 0\n"),
    ("p cnf 1 -1\n", "", "refused,2,1,1,0,0,0\n  f:1: malformed: p cnf 1 -1\n    token 4, -1: a minus is for literals only\n"),
    ("p cnf 1 1 0\n", "", "refused,2,1,1,0,0,0\n  f:1: malformed: p cnf 1 1 0\n    token 5, 0: nothing may follow C\n"),
    ("e 1 0\n", "", "refused,2,1,1,0,0,0\n  f:1: malformed: e 1 0\n    the p line comes first\n"),
    ("p cnf 0 0\np cnf 0 0\n", "", "refused,2,1,2,0,0,0\n  f:2: malformed: p cnf 0 0\n    there is a p line before it\n"),
    ("p cnf 1 1\ne 0\n", "", "refused,2,1,2,0,0,0\n  f:2: malformed: e 0\n    token 2, 0: a prefix line has at least one variable\n"),
    ("p cnf 1 1\ne -1 0\n", "", "refused,2,1,2,0,0,0\n  f:2: malformed: e -1 0\n    token 2, -1: a minus is for literals only\n"),
    ("p cnf 1 1\nd 1 0\n", "", "refused,2,1,2,0,0,0\n  f:2: malformed: d 1 0\n    token 1, d: a line begins with p, a, e or a literal\n"),
    ("p cnf 1 2\ne 1 0\n1 0 -1 0\n", "", "refused,2,1,3,0,0,0\n  f:3: malformed: 1 0 -1 0\n    token 3, -1: nothing may follow the final 0\n"),
    ("p cnf 1 2\ne 1 0\n1 0\ne 1 0\n", "", "refused,2,1,4,0,0,0\n  f:4: malformed: e 1 0\n    a prefix line comes before all clauses\n"),
    # 2: which token of the certificate
    (A, MAP + "e +1 0\n", "refused,2,2,2,0,0,0\n  c:2: malformed: e +1 0\n    token 2, +1: a number has no plus\n"),
    (A, MAP + "e -0\n", "refused,2,2,2,0,0,0\n  c:2: malformed: e -0\n    token 2, -0: 0 has no minus\n"),
    (A, MAP + "e 1 \u00a0\n", "refused,2,2,2,0,0,0\n  c:2: malformed: e 1 \\xc2\\xa0\n    token 3, \\xc2\\xa0: a number is due\n"),
    (A, MAP + "-07 0\n", "refused,2,2,2,0,0,0\n  c:2: malformed: -07 0\n    token 1, -07: a number does not begin with 0\n"),
    (A, MAP + "5 6\n", "refused,2,2,2,0,0,0\n  c:2: malformed: 5 6\n    the line ends without its 0\n"),
    (A, "q 1 0\n", "refused,2,2,1,0,0,0\n  c:1: malformed: q 1 0\n    token 1, q: a line begins with x, o, e, d or a literal\n"),
    (A, "x 1 2 0 2 0 0\n", "refused,2,2,1,0,0,0\n  c:1: malformed: x 1 2 0 2 0 0\n    the lists of copies (2) and of existentials (1) must be equally long\n"),
    (A, "x 1 0 2 0 0 0\n", "refused,2,2,1,0,0,0\n  c:1: malformed: x 1 0 2 0 0 0\n    token 7, 0: nothing may follow the third 0\n"),
    (A, "o -1 0\n", "refused,2,2,1,0,0,0\n  c:1: malformed: o -1 0\n    token 2, -1: a minus is for literals only\n"),
    (A, "o 0\no 0\n", "refused,2,2,2,0,0,0\n  c:2: malformed: o 0\n    there is an o line before it\n"),
    (A, "o 0\n" + MAP, "refused,2,2,2,0,0,0\n  c:2: malformed: x 1 0 2 0 -1 0\n    mapping lines come before all others\n"),
    (A, MAP + "e 1 0\no 0\n", "refused,2,2,3,1,0,0\n  c:3: malformed: o 0\n    the o line comes before e lines, additions and deletions\n"),
    (A, "5 0\ne 1 0\n", "refused,2,2,2,0,1,0\n  c:2: malformed: e 1 0\n    e lines come before additions and deletions\n"),
    # 2: the other kind of certificate
    (A, RESOLUTION, "refused,2,2,2,0,0,0\n  c:2: malformed: 1 1 0 1 0\n    token 4, 1: nothing may follow the final 0\n" + IN_FERP),
    (A, MAP + "7 0 5 6 0\n", "refused,2,2,2,0,0,0\n  c:2: malformed: 7 0 5 6 0\n    token 3, 5: nothing may follow the final 0\n" + IN_FERP),
    # 2: what the file looks like
    (gzip.compress(A.encode(), mtime=0), PROOF, "the file looks compressed (gzip)"),
    (A, lzma.compress(PROOF.encode()), "the file looks compressed (xz)"),
    (A, b"(\xb5/\xfd\x04\x00", "the file looks compressed (zstd)"),
    (b"\xef\xbb\xbf" + A.encode(), PROOF, "the file begins with a byte order mark"),
    (A, b"a\x02\x04\x00d\x02\x04\x00", "from here on the file looks like binary DRAT: write the proof as text (cadical: --no-binary)"),
    (A, MAP.encode() + b"e 1 0\nd\x0a\x81\x02\x00", "from here on the file looks like binary DRAT: write the proof as text (cadical: --no-binary)"),
    (PROOF, A, "the second file begins like a formula: the formula comes first, then the certificate"),
    # 3: which limit
    ("p cnf 4097 0\n", "", "refused,3,1,1,0,0,0\n  f:1: out of range: p cnf 4097 0\n    token 3, 4097: V is at most 4096\n"),
    ("p cnf 0 8193\n", "", "refused,3,1,1,0,0,0\n  f:1: out of range: p cnf 0 8193\n    token 4, 8193: C is at most 8192\n"),
    ("p cnf 2 0\ne 3 0\n", "", "refused,3,1,2,0,0,0\n  f:2: out of range: e 3 0\n    token 2, 3: the formula's V is 2\n"),
    ("p cnf 2 1\ne 1 0\n1 -3 0\n", "", "refused,3,1,3,0,0,0\n  f:3: out of range: 1 -3 0\n    token 2, -3: the formula's V is 2\n"),
    (A, "x 16385 0 2 0 -1 0\n", "refused,3,2,1,0,0,0\n  c:1: out of range: x 16385 0 2 0 -1 0\n    token 2, 16385: a copy is at most 16384\n"),
    (A, "x 1 0 3 0 -1 0\n", "refused,3,2,1,0,0,0\n  c:1: out of range: x 1 0 3 0 -1 0\n    token 4, 3: the formula's V is 2\n"),
    (A, "x 1 0 2 0 -9 0\n", "refused,3,2,1,0,0,0\n  c:1: out of range: x 1 0 2 0 -9 0\n    token 6, -9: the formula's V is 2\n"),
    (A, "o 3 0\n", "refused,3,2,1,0,0,0\n  c:1: out of range: o 3 0\n    token 2, 3: the formula's C is 2\n"),
    (A, "d 5 -99999999999999999999 0\n", "refused,3,2,1,0,0,0\n  c:1: out of range: d 5 -99999999999999999999 0\n    token 3, -99999999999999999999: a copy is at most 16384\n"),
    # 4 to 6
    ("p cnf 2 0\ne 1 0\na 2 1 0\n", "", "refused,4,1,3,0,0,0\n  f:3: bound twice: a 2 1 0\n    variable 1 is in the prefix already\n"),
    ("p cnf 2 0\ne 2 2 0\n", "", "refused,4,1,2,0,0,0\n  f:2: bound twice: e 2 2 0\n    variable 2 is in the prefix already\n"),
    ("p cnf 2 1\ne 1 0\n1 -2 0\n", "", "refused,5,1,3,0,0,0\n  f:3: unbound: 1 -2 0\n    variable 2 is not in the prefix\n"),
    ("p cnf 1 1\ne 1 0\n1 0\n-1 0\n", "", "refused,6,1,4,0,0,0\n  f:4: wrong clause count: -1 0\n    this is clause line 2, and the formula's C is 1\n"),
    ("p cnf 1 3\ne 1 0\n1 0\n-1 0\n", "", "refused,6,1,0,0,0,0\n  f:0: wrong clause count\n    there are 2 clause lines, and the formula's C is 3\n"),
    # 7 to 11
    (A, "c copies\n" + MAP + "x 2 1 0 2 2 0 1 0\n", "refused,7,2,3,0,0,0\n  c:3: mapped twice: x 2 1 0 2 2 0 1 0\n    copy 1 is mapped in line 2\n"),
    (A, "x 5 5 0 2 2 0 0\n", "refused,7,2,1,0,0,0\n  c:1: mapped twice: x 5 5 0 2 2 0 0\n    copy 5 comes twice in this line\n"),
    (A, "x 1 0 1 0 0\n", "refused,8,2,1,0,0,0\n  c:1: bad annotation: x 1 0 1 0 0\n    variable 1 is not existential\n"),
    (A, "x 1 0 2 0 2 0\n", "refused,8,2,1,0,0,0\n  c:1: bad annotation: x 1 0 2 0 2 0\n    variable 2 is not universal\n"),
    (A, "x 1 0 2 0 1 -1 0\n", "refused,8,2,1,0,0,0\n  c:1: bad annotation: x 1 0 2 0 1 -1 0\n    variable 1 comes twice in the annotation\n"),
    ("p cnf 2 0\ne 1 0\na 2 0\n", "x 1 0 1 0 2 0\n", "refused,8,2,1,0,0,0\n  c:1: bad annotation: x 1 0 1 0 2 0\n    variable 2 is not left of 1\n"),
    (A, MAP + "e 1 -7 0\n", "refused,9,2,2,0,0,0\n  c:2: unmapped: e 1 -7 0\n    copy 7 is in no mapping line\n"),
    (A, MAP + "o 1 0\ne 1 0\ne -1 0\n", "refused,10,2,4,1,0,0\n  c:4: hint count: e -1 0\n    this is e line 2, and the number of hints is 1\n"),
    (A, MAP + "o 1 2 0\ne 1 0\n0\n", "refused,10,2,4,1,0,0\n  c:4: hint count: 0\n    the number of hints is 2, and that of e lines 1\n"),
    (A, MAP + "o 1 2 0\n", "refused,10,2,0,0,0,0\n  c:0: hint count\n    the number of hints is 2, and that of e lines 0\n"),
    (A, MAP + "o 2 0\ne 1 0\n", "refused,11,2,3,0,0,0\n  c:3: no expansion: e 1 0\n    clause 2 (line 5 of the formula) has no such expansion: 1 -2 0\n"),
    (A, MAP + "e 1 -1 0\n", "refused,11,2,2,0,0,0\n  c:2: no expansion: e 1 -1 0\n    no clause of the formula has this expansion\n"),
    # 12 to 14
    ("p cnf 0 0\n", "0\n", "refused,12,2,1,0,0,0\n  c:1: not implied: 0\n    propagation from the standing clauses alone has no conflict\n"),
    ("p cnf 0 0\n", "5 0\n-5 6 0\n", "refused,12,2,2,0,1,0\n  c:2: not implied: -5 6 0\n    it is not RUP, and not RAT on its first literal, -5\n"),
    ("p cnf 0 0\n", "d 5 0\n", "refused,13,2,1,0,0,0\n  c:1: nothing to delete: d 5 0\n    no standing clause has exactly these literals\n"),
    (A, "", "refused,14,2,0,0,0,0\n  c:0: not closed\n    no empty clause stands at the end of the certificate\n"),
]


# The same for FERP: what its lines add, and once for each number that both kinds have.
EXPANDED = MAP + "1 1 0 1 0\n"
CLAUSES = "p cnf 3 3\ne 1 2 3 0\n1 2 0\n-1 3 0\n1 -2 0\n"
LINES = "x 1 2 3 0 1 2 3 0 0\n10 1 2 0 1 0\n20 -1 3 0 2 0\n30 1 -2 0 3 0\n"
NO_CLASH = "    they have no resolvent: neither has the negation of a literal of the other\n"

FERP_REFUSALS = [
    (A, "c" * 1_048_577, "refused,1,2,0,0,0,0\n  c:0: overlong\n    a file may have at most 1048576 bytes\n"),
    # 2: which token
    ("p cnf 1 -1\n", "", "refused,2,1,1,0,0,0\n  f:1: malformed: p cnf 1 -1\n    token 4, -1: a minus is for literals only\n"),
    (A, "q 1 0\n", "refused,2,2,1,0,0,0\n  c:1: malformed: q 1 0\n    token 1, q: a line begins with x or an index\n"),
    (A, "x 1 2 0 2 0 0\n", "refused,2,2,1,0,0,0\n  c:1: malformed: x 1 2 0 2 0 0\n    the lists of copies (2) and of existentials (1) must be equally long\n"),
    (A, MAP + "-1 1 0 1 0\n", "refused,2,2,2,0,0,0\n  c:2: malformed: -1 1 0 1 0\n    token 1, -1: a minus is for literals only\n"),
    (A, MAP + "0 1 0 1 0\n", "refused,2,2,2,0,0,0\n  c:2: malformed: 0 1 0 1 0\n    token 1, 0: an index is a positive number\n"),
    (A, MAP + "01 1 0 1 0\n", "refused,2,2,2,0,0,0\n  c:2: malformed: 01 1 0 1 0\n    token 1, 01: a number does not begin with 0\n"),
    (A, MAP + "1x 1 0 1 0\n", "refused,2,2,2,0,0,0\n  c:2: malformed: 1x 1 0 1 0\n    token 1, 1x: a number is due\n"),
    (A, MAP + "1 +1 0 1 0\n", "refused,2,2,2,0,0,0\n  c:2: malformed: 1 +1 0 1 0\n    token 2, +1: a number has no plus\n"),
    (A, MAP + "1 1\n", "refused,2,2,2,0,0,0\n  c:2: malformed: 1 1\n    the line ends without its 0\n"),
    (A, MAP + "1\n", "refused,2,2,2,0,0,0\n  c:2: malformed: 1\n    the line ends without its 0\n"),
    (A, MAP + "1 -1 0 0\n", "refused,2,2,2,0,0,0\n  c:2: malformed: 1 -1 0 0\n    token 4, 0: one or two numbers are due before it\n"),
    (A, MAP + "1 1 0 1\n", "refused,2,2,2,0,0,0\n  c:2: malformed: 1 1 0 1\n    the line ends without its 0\n"),
    (A, MAP + "1 1 0 -1 0\n", "refused,2,2,2,0,0,0\n  c:2: malformed: 1 1 0 -1 0\n    token 4, -1: a minus is for literals only\n"),
    (A, MAP + "1 1 0 1 2 1 0\n", "refused,2,2,2,0,0,0\n  c:2: malformed: 1 1 0 1 2 1 0\n    token 6, 1: there is no third number\n"),
    (A, MAP + "1 1 0 1 0 0\n", "refused,2,2,2,0,0,0\n  c:2: malformed: 1 1 0 1 0 0\n    token 6, 0: nothing may follow the final 0\n"),
    (A, EXPANDED + MAP, "refused,2,2,3,1,0,0\n  c:3: malformed: x 1 0 2 0 -1 0\n    mapping lines come before all others\n"),
    # 2: the other kind of certificate
    (A, PROOF, "refused,2,2,2,0,0,0\n  c:2: malformed: o 1 2 0\n    token 1, o: a line begins with x or an index\n" + IN_FERAT),
    (A, MAP + "e 1 0\n", "refused,2,2,2,0,0,0\n  c:2: malformed: e 1 0\n    token 1, e: a line begins with x or an index\n" + IN_FERAT),
    (A, EXPANDED + "d 1 0\n", "refused,2,2,3,1,0,0\n  c:3: malformed: d 1 0\n    token 1, d: a line begins with x or an index\n" + IN_FERAT),
    (A, "1 2 0\n", "refused,2,2,1,0,0,0\n  c:1: malformed: 1 2 0\n    the line ends after its literals: one or two numbers and 0 are due\n" + IN_FERAT),
    (A, "-1 2 0\n", "refused,2,2,1,0,0,0\n  c:1: malformed: -1 2 0\n    token 1, -1: a minus is for literals only\n" + IN_FERAT),
    (A, "0\n", "refused,2,2,1,0,0,0\n  c:1: malformed: 0\n    token 1, 0: an index is a positive number\n" + IN_FERAT),
    # 2: what the file looks like
    (A, gzip.compress(RESOLUTION.encode(), mtime=0), "the file looks compressed (gzip)"),
    (RESOLUTION, A, "the second file begins like a formula: the formula comes first, then the certificate"),
    # 3: which limit
    ("p cnf 4097 0\n", "", "refused,3,1,1,0,0,0\n  f:1: out of range: p cnf 4097 0\n    token 3, 4097: V is at most 4096\n"),
    (A, "x 1 0 3 0 -1 0\n", "refused,3,2,1,0,0,0\n  c:1: out of range: x 1 0 3 0 -1 0\n    token 4, 3: the formula's V is 2\n"),
    (A, MAP + "65537 1 0 1 0\n", "refused,3,2,2,0,0,0\n  c:2: out of range: 65537 1 0 1 0\n    token 1, 65537: an index is at most 65536\n"),
    (A, MAP + "1 16384 -16385 0 1 0\n", "refused,3,2,2,0,0,0\n  c:2: out of range: 1 16384 -16385 0 1 0\n    token 3, -16385: a copy is at most 16384\n"),
    (A, MAP + "65536 1 0 3 0\n", "refused,3,2,2,0,0,0\n  c:2: out of range: 65536 1 0 3 0\n    token 4, 3: the formula's C is 2\n"),
    (A, MAP + "1 1 0 65536 65537 0\n", "refused,3,2,2,0,0,0\n  c:2: out of range: 1 1 0 65536 65537 0\n    token 5, 65537: an index is at most 65536\n"),
    # 4 to 8
    ("p cnf 2 0\ne 2 2 0\n", "", "refused,4,1,2,0,0,0\n  f:2: bound twice: e 2 2 0\n    variable 2 is in the prefix already\n"),
    ("p cnf 2 1\ne 1 0\n1 -2 0\n", "", "refused,5,1,3,0,0,0\n  f:3: unbound: 1 -2 0\n    variable 2 is not in the prefix\n"),
    ("p cnf 1 3\ne 1 0\n1 0\n-1 0\n", "", "refused,6,1,0,0,0,0\n  f:0: wrong clause count\n    there are 2 clause lines, and the formula's C is 3\n"),
    (A, MAP + MAP, "refused,7,2,2,0,0,0\n  c:2: mapped twice: x 1 0 2 0 -1 0\n    copy 1 is mapped in line 1\n"),
    (A, "x 1 0 1 0 0\n", "refused,8,2,1,0,0,0\n  c:1: bad annotation: x 1 0 1 0 0\n    variable 1 is not existential\n"),
    # 9, 11, 14
    (A, MAP + "1 1 -7 0 1 0\n", "refused,9,2,2,0,0,0\n  c:2: unmapped: 1 1 -7 0 1 0\n    copy 7 is in no mapping line\n"),
    (A, MAP + "9 1 0 2 0\n", "refused,11,2,2,0,0,0\n  c:2: no expansion: 9 1 0 2 0\n    clause 2 (line 5 of the formula) has no such expansion: 1 -2 0\n"),
    (A, EXPANDED, "refused,14,2,0,1,0,0\n  c:0: not closed\n    the certificate derives no empty clause\n"),
    # 16: a missing parent
    (CLAUSES, LINES + "40 1 0 10 50 0\n", "refused,16,2,5,3,0,0\n  c:5: bad parent: 40 1 0 10 50 0\n    10 is the index of line 2, the clause 1 2 0\n    no line before it has the index 50\n"),
    (CLAUSES, LINES + "40 1 0 50 50 0\n", "refused,16,2,5,3,0,0\n  c:5: bad parent: 40 1 0 50 50 0\n    no line before it has the index 50\n"),
    (CLAUSES, LINES + "40 1 0 40 30 0\n", "refused,16,2,5,3,0,0\n  c:5: bad parent: 40 1 0 40 30 0\n    40 is the line's own index, and its parents come before it\n    30 is the index of line 4, the clause 1 -2 0\n"),
    # 16: no resolvent
    (CLAUSES, LINES + "40 2 3 0 30 10 0\n", "refused,16,2,5,3,0,0\n  c:5: bad parent: 40 2 3 0 30 10 0\n    30 is the index of line 4, the clause 1 -2 0\n    10 is the index of line 2, the clause 1 2 0\n    their resolvent on copy 2 has no 2\n    their resolvent on copy 2 has 1 too\n"),
    (CLAUSES, LINES + "40 1 3 2 0 10 20 0\n", "refused,16,2,5,3,0,0\n  c:5: bad parent: 40 1 3 2 0 10 20 0\n    10 is the index of line 2, the clause 1 2 0\n    20 is the index of line 3, the clause -1 3 0\n    their resolvent on copy 1 has no 1\n"),
    (CLAUSES, LINES + "40 2 0 20 10 0\n", "refused,16,2,5,3,0,0\n  c:5: bad parent: 40 2 0 20 10 0\n    20 is the index of line 3, the clause -1 3 0\n    10 is the index of line 2, the clause 1 2 0\n    their resolvent on copy 1 has 3 too\n"),
    (CLAUSES, LINES + "40 1 2 0 10 10 0\n", "refused,16,2,5,3,0,0\n  c:5: bad parent: 40 1 2 0 10 10 0\n    10 is the index of line 2, the clause 1 2 0\n" + NO_CLASH),
    (CLAUSES, LINES + "40 1 0 10 30 0\n50 1 3 0 40 40 0\n", "refused,16,2,6,3,1,0\n  c:6: bad parent: 50 1 3 0 40 40 0\n    40 is the index of line 5, the clause 1 0\n" + NO_CLASH),
    # 17
    (CLAUSES, LINES + "20 3 0 10 50 0\n", "refused,17,2,5,3,0,0\n  c:5: index used: 20 3 0 10 50 0\n    20 is the index of line 3\n"),
]


class Messages(Case):
    def assert_told(self, verb, refusals):
        """What the verb prints; answers the numbers met."""
        numbers = set()
        for formula, certificate, expected in refusals:
            status, out = self.check(formula, certificate, verb)
            with self.subTest(expected):
                self.assertEqual(status, 1)
                if expected.startswith("refused"):
                    self.assertEqual(out, expected)
                    numbers.add(int(expected.split(",")[1]))
                else:
                    self.assertTrue(out.startswith("refused,2,"))
                    self.assertEqual(out.splitlines()[-1], "    " + expected)
        return numbers

    def test_refusals(self):
        self.assertEqual(self.assert_told("ferat", REFUSALS), set(range(1, 15)))

    def test_ferp_refusals(self):
        self.assertEqual(self.assert_told("ferp", FERP_REFUSALS), {*range(1, 10), 11, 14, 16, 17})

    def test_acceptance_has_no_message(self):
        self.assertEqual(self.check(A, PROOF), (0, ACCEPTED))
        self.assertEqual(self.check(A, RESOLUTION, "ferp"), (0, ACCEPTED))

    def test_long_lines_are_cut(self):
        """A line of 600,000 bytes, and a token of 300,000."""
        _, out = self.check(A, LONG)
        self.assertEqual(out.splitlines()[1], "  c:1: malformed: " + "1 " * 100 + " .. (600000 bytes in all)")
        _, out = self.check(A, "7" * 300_000 + "x 0\n")
        self.assertLess(len(out), 1_000)
        self.assertEqual(out.splitlines()[2], "    token 1, " + "7" * 40 + " .. (300001 bytes in all): a number is due")

    def test_long_parents_are_cut(self):
        """A parent with 300,000 literals."""
        _, out = self.check(A, MAP + f"1 {'1 ' * 300_000}0 1 0\n2 0 1 1 0\n", "ferp")
        self.assertEqual(out.splitlines()[2], "    1 is the index of line 2, the clause " + "1 " * 100 + " .. (600001 bytes in all)")


if __name__ == "__main__":
    unittest.main()
