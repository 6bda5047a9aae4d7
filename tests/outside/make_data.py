#!/usr/bin/env python3
"""Makes data/: NAME.qdimacs with NAME.ferat, NAME.ferp or both, and EXPECTED
(certificate, verdict).

Needs `cadical` (Debian package; 1.5.3 made the stored files) and, for a
second opinion on the formulas with universals, `depqbf` if it is there.
FERAT is made from DRAT as document 01 has it: mapping lines, an `o` line
(or none), `e` lines for the (expanded) matrix clauses, then the DRAT lines.
FERP is made by unfold.py from DRAT proofs whose additions are RUP.
All dice are seeded: the same cadical makes the same files again.
Usage: make_data.py [FOLDER]; make_data.py large FOLDER for three FERP files
of nearly 1,048,576 bytes with their formulas.
"""
import itertools
import os
import random
import shutil
import subprocess
import sys
import tempfile

sys.dont_write_bytecode = True
import unfold

HERE = os.path.dirname(os.path.abspath(__file__))
DATA = os.path.join(HERE, "data")
EXPECTED = []


def line(numbers, head=""):
    return (head + " " if head else "") + " ".join(str(n) for n in list(numbers) + [0])


def store(name, formula, certificate, expected=None):
    """Writes a pair. Without a verdict given it is accepted, with the counts
    of its lines."""
    if expected is None:
        e = sum(1 for l in certificate if l.startswith("e"))
        d = sum(1 for l in certificate if l.startswith("d"))
        a = sum(1 for l in certificate if l[0] in "-0123456789")
        expected = "accepted,0,0,0,%d,%d,%d" % (e, a, d)
    write(name, "ferat", formula, certificate, expected)


def write(name, ending, formula, certificate, expected):
    """Both files, and the verdict."""
    text = "\n".join(certificate) + "\n"
    if len(text) > 1048576:
        raise SystemExit(name + " is too long")
    for file, content in [(name + ".qdimacs", "\n".join(formula) + "\n"), (name + "." + ending, text)]:
        with open(os.path.join(DATA, file), "w") as f:
            f.write(content)
    EXPECTED.append("%s.%s %s" % (name, ending, expected))


def store_ferp(name, formula, mapping_lines, expanded, drat, style):
    """Unfolds a DRAT proof of the expanded clauses (literals and number of
    the matrix clause). Style 0: all expansions, then all resolutions, indexes
    from 1. Style 1: what the end needs, each expansion before its first use.
    Style 2: what the end needs, indexes in any order and with gaps."""
    steps = unfold.unfold(expanded, drat)
    if style > 0:
        steps = unfold.needed(steps)
    if style == 1:
        steps = unfold.late(steps)
    indexes = range(1, len(steps) + 1)
    if style == 2:
        indexes = random.Random(name).sample(range(1, 65537), len(steps))
    e = sum(1 for _, reason in steps if len(reason) == 1)
    expected = "accepted,0,0,0,%d,%d,0" % (e, len(steps) - e)
    write(name, "ferp", formula, mapping_lines + unfold.lines(steps, indexes), expected)


def qdimacs(highest, prefix, clauses):
    return (["p cnf %d %d" % (highest, len(clauses))]
            + [line(variables, letter) for letter, variables in prefix]
            + [line(c) for c in clauses])


def cadical(variables, clauses, options=()):
    """The DRAT lines of a refutation, or None if there is a model."""
    with tempfile.TemporaryDirectory() as folder:
        cnf, proof = os.path.join(folder, "f.cnf"), os.path.join(folder, "f.drat")
        with open(cnf, "w") as f:
            f.write("p cnf %d %d\n" % (variables, len(clauses)))
            f.writelines(line(c) + "\n" for c in clauses)
        code = subprocess.run(["cadical", "-q", "--no-binary", *options, cnf, proof],
                              stdout=subprocess.DEVNULL).returncode
        if code == 10:
            return None
        if code != 20:
            raise SystemExit("cadical answers %d" % code)
        with open(proof) as f:
            return [l.strip() for l in f if l.strip()]


def existential(name, variables, clauses, drat, hints=True, expected=None):
    """A purely existential formula with the identity for its mapping."""
    formula, certificate = identity(variables, clauses)
    if hints:
        certificate.append(line(range(1, len(clauses) + 1), "o"))
    certificate += [line(c, "e") for c in clauses] + drat
    store(name, formula, certificate, expected)


def identity(variables, clauses):
    """A purely existential formula, and the identity for its mapping."""
    everything = list(range(1, variables + 1))
    return qdimacs(variables, [("e", everything)], clauses), [line(everything, "x") + " " + line(everything) + " 0"]


def existential_ferp(name, variables, clauses, style, options=()):
    """The same with a FERP certificate; nothing if there is a model."""
    drat = cadical(variables, clauses, options)
    if drat is not None:
        store_ferp(name, *identity(variables, clauses), list(zip(clauses, range(1, len(clauses) + 1))), drat, style)
    return drat is not None


def expansion(prefix, clauses):
    """The full expansion: copies by existential and annotation, clauses with
    the number of the matrix clause they are of."""
    order = [(letter, v) for letter, variables in prefix for v in variables]
    universals = [v for letter, v in order if letter == "a"]
    left = {}
    seen = []
    for letter, v in order:
        if letter == "a":
            seen.append(v)
        else:
            left[v] = list(seen)
    copies, lines, known = {}, [], set()
    for signs in itertools.product([1, -1], repeat=len(universals)):
        t = {v: s * v for v, s in zip(universals, signs)}
        for n, clause in enumerate(clauses, 1):
            if any(abs(l) in t and t[abs(l)] == l for l in clause):
                continue
            literals = []
            for l in clause:
                if abs(l) in t:
                    continue
                key = (abs(l), tuple(t[u] for u in left[abs(l)]))
                copy = copies.setdefault(key, len(copies) + 1)
                literals.append(copy if l > 0 else -copy)
            key = (tuple(sorted(literals)), n)
            if key not in known:
                known.add(key)
                lines.append((literals, n))
    return copies, lines


def quantified(name, highest, prefix, clauses, hints=True, grouped=True, options=()):
    """A false formula, expanded in full and refuted by cadical. Answers
    whether it was false."""
    copies, lines = expansion(prefix, clauses)
    drat = cadical(len(copies), [c for c, _ in lines], options)
    opinion = depqbf(qdimacs(highest, prefix, clauses))
    if opinion is not None and opinion != (drat is not None):
        raise SystemExit(name + ": depqbf is of another opinion")
    if drat is None:
        return False
    certificate = mapping(copies, grouped)
    if hints:
        certificate.append(line([n for _, n in lines], "o"))
    certificate += [line(c, "e") for c, _ in lines] + drat
    store(name, qdimacs(highest, prefix, clauses), certificate)
    return True


def quantified_ferp(name, highest, prefix, clauses, style, grouped=True):
    """The same with a FERP certificate; the formula is known to be false."""
    copies, lines = expansion(prefix, clauses)
    drat = cadical(len(copies), [c for c, _ in lines])
    store_ferp(name, qdimacs(highest, prefix, clauses), mapping(copies, grouped), lines, drat, style)


def mapping(copies, grouped):
    """Mapping lines, one for each annotation or one for each copy."""
    groups = {}
    for (existential_variable, annotation), copy in copies.items():
        key = annotation if grouped else (annotation, copy)
        groups.setdefault(key, []).append((copy, existential_variable))
    found = []
    for key, pairs in groups.items():
        annotation = key if grouped else key[0]
        found.append(line([p for p, _ in pairs], "x") + " " + line([e for _, e in pairs]) + " " + line(annotation))
    return found


def depqbf(formula):
    """True if depqbf says false, False if it says true, None without an answer."""
    if shutil.which("depqbf") is None:
        return None
    with tempfile.NamedTemporaryFile("w", suffix=".qdimacs") as f:
        f.write("\n".join(formula) + "\n")
        f.flush()
        try:
            code = subprocess.run(["depqbf", f.name], stdout=subprocess.DEVNULL, stderr=subprocess.DEVNULL,
                                  timeout=2).returncode
        except subprocess.TimeoutExpired:
            return None
    return {10: False, 20: True}.get(code)


# ------------------------------------------------------------- published

FIGURE_2 = """p cnf 3 3
e 1 0
a 2 0
e 3 0
1 2 3 0
-1 -2 3 0
-3 0""".split("\n")


def published():
    store("figure-2", FIGURE_2, """x 1 0 1 0 0
x 2 0 3 0 2 0
x 3 0 3 0 -2 0
o 1 2 3 3 0
e 1 3 0
e -1 2 0
e -3 0
e -2 0
0""".split("\n"))
    # The same formula with the certificate of figure 2 of source document 001.
    write("figure-2", "ferp", FIGURE_2, """x 1 0 1 0 0
x 2 0 3 0 2 0
x 3 0 3 0 -2 0
1 1 3 0 1 0
2 -1 2 0 2 0
3 -3 0 3 0
4 -2 0 3 0
5 2 3 0 1 2 0
6 2 0 5 3 0
7 0 6 4 0""".split("\n"), "accepted,0,0,0,4,3,0")
    # Figure 3.3 of source document 002, which is the example of the
    # DRAT-trim paper: the formula, a DRAT proof, the same with deletions.
    four = [[1, 2, -3], [-1, -2, 3], [2, 3, -4], [-2, -3, 4], [-1, -3, -4], [1, 3, 4], [-1, 2, 4], [1, -2, -4]]
    assert cadical(4, four) is not None
    existential("figure-3-3-b", 4, four, ["-1 0", "2 0", "0"])
    existential("figure-3-3-c", 4, four,
                ["-1 0", "d -1 -2 3 0", "d -1 -3 -4 0", "d -1 2 4 0", "2 0", "d 1 2 -3 0", "d 2 3 -4 0", "0"])
    # Figure 3.2 there: an AT clause, and one that is RAT on its literal -1.
    # The formula is true, so nothing closes. The text says that the second is
    # RAT on 3 too; it is not: the resolvent with -2 -3 is -1 -2, and with 1
    # and 2 true propagation makes 3 false and is stable (1, 2, not 3 is a
    # model).
    three = [[1, 2], [2, 3], [-2, -3]]
    existential("figure-3-2-at", 3, three, ["1 -3 0"], expected="refused,14,2,0,3,1,0")
    existential("figure-3-2-rat", 3, three, ["-1 3 0"], expected="refused,14,2,0,3,1,0")
    existential("figure-3-2-no-rat", 3, three, ["3 -1 0"], expected="refused,12,2,6,3,0,0")
    # Other proofs of the same formula, typed from memory of the paper's web
    # page, and variants.
    existential("drat-trim-drup", 4, four,
                ["1 2 0", "d 1 2 -3 0", "1 0", "d 1 2 0", "d 1 3 4 0", "d 1 -2 -4 0", "2 0", "0"])
    existential("drat-trim-rat", 4, four, ["-1 0", "d -1 2 4 0", "2 0", "0"])
    existential("drat-trim-rat-more", 4, four,
                ["-1 0", "d -1 -2 3 0", "d -1 -3 -4 0", "d -1 2 4 0", "2 0", "0"], hints=False)
    # Extended resolution as DRAT: a definition first, RAT on the new copy.
    existential("drat-trim-definition", 4, four,
                ["5 -1 -2 0", "-5 1 0", "-5 2 0", "-1 0", "d -5 1 0", "2 0", "0"])
    existential("drat-trim-definition-gone", 4, four,
                ["5 -1 -2 0", "-5 1 0", "-5 2 0", "d 5 -1 -2 0", "d -5 1 0", "d -5 2 0", "-1 0", "2 0", "0"])
    # RAT turns on the first literal: with 5 first it is RAT, with -1 it is not.
    existential("rat-pivot-first", 4, [[1, 2, -3], [1, 3, 4], [1, -2, -4]], ["-1 5 0"],
                expected="refused,12,2,6,3,0,0")
    existential("rat-pivot-other", 4, [[1, 2, -3], [1, 3, 4], [1, -2, -4]], ["5 -1 0"],
                expected="refused,14,2,0,3,1,0")
    # Deletion of a unit, which a common tool skips (Altmanninger and
    # Rebola-Pardo write of it): with the deletion done, the proof fails.
    existential("unit-deletion", 3, [[1], [-1, 2], [-2, 3], [-3, -1]], ["2 0", "d 1 0", "0"],
                expected="refused,12,2,9,4,1,1")
    existential("unit-deletion-kept", 3, [[1], [-1, 2], [-2, 3], [-3, -1]], ["2 0", "1 0", "d 1 0", "0"])
    # The same unit deletion lets a RAT addition in that is none otherwise.
    existential("unit-deletion-rat", 2, [[1], [1, 2]], ["d 1 0", "-1 -2 0", "-1 2 0"],
                expected="refused,12,2,7,2,1,1")


# ------------------------------------------- pigeons by extended resolution

def cook(holes):
    """Cook's short refutation of the pigeonhole formulas, as DRAT: new
    copies are defined (RAT), the smaller formula is derived (RUP), the
    larger one and the definitions are deleted."""
    count = 0
    p = {}
    for i in range(1, holes + 2):
        for j in range(1, holes + 1):
            count += 1
            p[i, j] = count
    variables = count
    clauses = pigeons(p, holes)
    drat, standing = [], [list(c) for c in clauses]
    for n in range(holes, 1, -1):
        q, definitions = {}, []
        for i in range(1, n + 1):
            for j in range(1, n):
                count += 1
                q[i, j] = count
                definitions += [[count, -p[i, j]], [count, -p[i, n], -p[n + 1, j]],
                                [-count, p[i, j], p[i, n]], [-count, p[i, j], p[n + 1, j]]]
        drat += [line(c) for c in definitions]
        for j in range(1, n):
            for i, k in itertools.combinations(range(1, n + 1), 2):
                helper = [p[i, j], -q[i, j], -q[k, j]]
                drat += [line(helper), line([-q[i, j], -q[k, j]]), line(helper, "d")]
        for i in range(1, n + 1):
            drat.append(line([q[i, j] for j in range(1, n)]))
        drat += [line(c, "d") for c in standing + definitions]
        standing = pigeons(q, n - 1)
        p = q
    drat.append("0")
    return variables, clauses, drat


def pigeons(p, holes):
    clauses = [[p[i, j] for j in range(1, holes + 1)] for i in range(1, holes + 2)]
    for j in range(1, holes + 1):
        clauses += [[-p[i, j], -p[k, j]] for i, k in itertools.combinations(range(1, holes + 2), 2)]
    return clauses


# ----------------------------------------------------------------- families

def random_3sat(seed, variables, ratio):
    dice = random.Random(seed)
    return [[v if dice.random() < 0.5 else -v for v in dice.sample(range(1, variables + 1), 3)]
            for _ in range(int(variables * ratio))]


def qparity(n):
    """QParity of Beyersdorff, Chew and Janota: x1..xn, then z, then t2..tn
    with ti the parity of x1..xi; z differs from tn."""
    x = {i: i for i in range(1, n + 1)}
    z = n + 1
    t = {i: n + i for i in range(2, n + 1)}

    def parity(a, b, c):
        return [[-a, -b, -c], [a, b, -c], [-a, b, c], [a, -b, c]]

    clauses = parity(x[1], x[2], t[2])
    for i in range(3, n + 1):
        clauses += parity(t[i - 1], x[i], t[i])
    clauses += [[z, t[n]], [-z, -t[n]]]
    return 2 * n, [("e", list(x.values())), ("a", [z]), ("e", list(t.values()))], clauses


def equality(n):
    """The equality formulas of Beyersdorff, Blinkhorn and Hinde."""
    x, u, t = [[k * n + i for i in range(1, n + 1)] for k in range(3)]
    clauses = []
    for a, b, c in zip(x, u, t):
        clauses += [[a, b, c], [-a, -b, c]]
    clauses.append([-c for c in t])
    return 3 * n, [("e", x), ("a", u), ("e", t)], clauses


def random_qbf(seed, universals, existentials, count):
    dice = random.Random(seed)
    variables = list(range(1, universals + existentials + 1))
    dice.shuffle(variables)
    us = set(variables[:universals])
    order = list(variables)
    dice.shuffle(order)
    prefix = []
    for v in order:
        letter = "a" if v in us else "e"
        if prefix and prefix[-1][0] == letter and dice.random() < 0.8:
            prefix[-1][1].append(v)
        else:
            prefix.append((letter, [v]))
    es = [v for v in variables if v not in us]
    clauses = []
    for _ in range(count):
        chosen = dice.sample(es, 3) + ([dice.choice(sorted(us))] if us and dice.random() < 0.6 else [])
        dice.shuffle(chosen)
        clauses.append([v if dice.random() < 0.5 else -v for v in chosen])
    return universals + existentials, prefix, clauses


def pigeon_formula(holes):
    p = {(i, j): (i - 1) * holes + j for i in range(1, holes + 2) for j in range(1, holes + 1)}
    return holes * (holes + 1), pigeons(p, holes)


def make_pigeons():
    for holes in range(2, 8):
        existential("cook-%d" % holes, *cook(holes), hints=holes % 2 == 0)
    for holes in range(3, 8):
        variables, clauses = pigeon_formula(holes)
        existential("pigeons-%d" % holes, variables, clauses, cadical(variables, clauses))
    for holes in range(3, 6):
        assert existential_ferp("pigeons-%d" % holes, *pigeon_formula(holes), style=holes % 3)


def make_random():
    made = 0
    for seed in itertools.count(1):
        variables, ratio = [(20, 5.5), (30, 5.5), (40, 5.5), (50, 5), (60, 5), (80, 5), (100, 5), (120, 4.7), (150, 4.7)][made]
        clauses = random_3sat(seed, variables, ratio)
        options = [(), ("--plain",), ("--elim=1", "--block=1", "--cover=1")][made % 3]
        drat = cadical(variables, clauses, options)
        if drat is not None:
            existential("random-%d" % variables, variables, clauses, drat, hints=made % 2 == 0)
            if variables <= 100:
                existential_ferp("random-%d" % variables, variables, clauses, made % 3, [("--plain",), ()][made % 2])
            made += 1
            if made == 9:
                break


def make_quantified():
    for n in [2, 3, 5, 8, 12, 20, 40]:
        assert quantified("qparity-%d" % n, *qparity(n), hints=n != 8, grouped=n != 5)
        quantified_ferp("qparity-%d" % n, *qparity(n), style=n % 3, grouped=n != 8)
    for n in [1, 2, 3, 4]:
        assert quantified("equality-%d" % n, *equality(n), hints=n % 2 == 0)
        quantified_ferp("equality-%d" % n, *equality(n), style=n % 3)
    made = 0
    for seed in itertools.count(1):
        universals, existentials, count = [(2, 8, 28), (3, 10, 36), (3, 14, 50), (4, 12, 44), (5, 12, 40), (4, 18, 70)][made % 6]
        formula = random_qbf(seed, universals, existentials, count)
        name = "random-qbf-%d" % (made + 1)
        if quantified(name, *formula, hints=made % 3 > 0, grouped=made % 2 == 0):
            quantified_ferp(name, *formula, style=made % 3, grouped=made % 2 == 1)
            made += 1
            if made == 12:
                break


def make_stored():
    os.makedirs(DATA, exist_ok=True)
    for name in os.listdir(DATA):
        os.remove(os.path.join(DATA, name))
    published()
    make_pigeons()
    make_random()
    make_quantified()
    with open(os.path.join(DATA, "EXPECTED"), "w") as f:
        f.write("\n".join(EXPECTED) + "\n")


def make_large():
    """Random formulas whose unfolded proofs are nearly as long as they may be."""
    os.makedirs(DATA, exist_ok=True)
    for variables, seed in [(120, 803), (140, 2), (160, 230)]:
        assert existential_ferp("large-%d" % variables, variables, random_3sat(seed, variables, 5), 1, ("--plain",))
    print("\n".join(EXPECTED))


if __name__ == "__main__":
    if sys.argv[1:2] == ["large"] and len(sys.argv) == 3:
        DATA = sys.argv[2]
        make_large()
    else:
        DATA = sys.argv[1] if len(sys.argv) > 1 else DATA
        make_stored()
