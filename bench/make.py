#!/usr/bin/env python3
"""make.py FOLDER: pairs NAME.qdimacs and NAME.ferp for the benchmark, of
five families in four sizes. Of several formulas of a family, the one whose
certificate comes nearest to the size from below is taken. Needs `cadical`;
all dice are seeded, so the same cadical makes the same files again."""
import itertools
import os
import random
import sys

sys.dont_write_bytecode = True
HERE = os.path.dirname(os.path.abspath(__file__))
sys.path.insert(0, os.path.join(HERE, "..", "tests", "outside"))
from make_data import cadical, equality, expansion, mapping, pigeons, qdimacs, qparity, random_3sat, random_qbf
from unfold import lines, unfold

SIZES = {"1-16KB": 16384, "2-64KB": 65536, "3-400KB": 400000, "4-1MB": 1048576}
MOST_INDEXES = 65536
# so many too long ones in a row end a family
TOO_LONG = 4


def existential(variables, clauses):
    return variables, [("e", list(range(1, variables + 1)))], clauses


def random_formulas():
    for variables in itertools.count(40, 5):
        for seed in range(8):
            yield existential(variables, random_3sat(seed, variables, 5))


def pigeonhole_formulas():
    """Pigeon 1 is kept out of some holes, for sizes between those of two
    numbers of holes; the order of the clauses is drawn by lot."""
    for holes in itertools.count(4):
        p = {(i, j): (i - 1) * holes + j for i in range(1, holes + 2) for j in range(1, holes + 1)}
        for first_out, seed in itertools.product(range(2, holes + 2), range(10)):
            clauses = pigeons(p, holes) + [[-p[1, j]] for j in range(first_out, holes + 1)]
            random.Random(seed).shuffle(clauses)
            yield existential(len(p), clauses)


def quantified_formulas():
    """Random QBFs of four universals, expanded fully."""
    for existentials in itertools.count(20, 5):
        for seed in range(8):
            yield random_qbf(seed, 4, existentials, 5 * existentials)


def certificate(formula):
    """The certificate's text, or None if the formula is true; with too many
    lines, a text that is too long."""
    _, prefix, clauses = formula
    copies, expanded = expansion(prefix, clauses)
    drat = cadical(len(copies), [c for c, _ in expanded], ("--plain",))
    if drat is None:
        return None
    steps = unfold(expanded, drat)
    if len(steps) > MOST_INDEXES:
        return "\n" * (max(SIZES.values()) + 1)
    return "\n".join([*mapping(copies, True), *lines(steps, range(1, len(steps) + 1))]) + "\n"


def nearest(formulas):
    """For each size the longest certificate within it, with its formula."""
    best, longer = {name: ("", None) for name in SIZES}, 0
    for formula in formulas:
        text = certificate(formula)
        if text is None:
            continue
        for name, size in SIZES.items():
            if len(best[name][0]) < len(text) <= size:
                best[name] = text, formula
        longer = longer + 1 if len(text) > max(SIZES.values()) else 0
        if longer == TOO_LONG:
            break
    return best


def main(folder):
    os.makedirs(folder, exist_ok=True)
    families = {
        "equality": map(equality, range(3, 11)),
        "pigeonhole": pigeonhole_formulas(),
        "qparity": map(qparity, itertools.count(10, 2)),
        "quantified": quantified_formulas(),
        "random": random_formulas(),
    }
    for family, formulas in families.items():
        for name, (text, formula) in nearest(formulas).items():
            path = os.path.join(folder, "%s-%s" % (family, name))
            with open(path + ".qdimacs", "w") as f:
                f.write("\n".join(qdimacs(*formula)) + "\n")
            with open(path + ".ferp", "w") as f:
                f.write(text)


main(sys.argv[1])
