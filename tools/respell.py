#!/usr/bin/env python3
"""Brings the repository's own definitions and lemmas to one spelling: words in snake case (a camel hump or a dash becomes `_`), types and facts in
camel case. Run once, after port.py:  respell.py OLD_TREE [--write]   (OLD_TREE: the repository before port.py, for the names that port.py gave)

Names that would fall together are in HEIRS below. Functions of src/, exported C names and strings keep their names: only names that a file of specs/
or proofs/ declares are touched."""
import collections
import glob
import os
import re
import sys

# the lemmas that would fall together with a definition, by the name that they have after port.py, get `_lem`: filled by `heirs`
HEIRS = {}
# one that port.py itself gave a definition's name, as the text of its file shows it
LOST = [
    ("crates/expansion/proofs/Laws.antt", "  code_at : all P", "  code_at_lem : all P"),
    ("crates/expansion/proofs/Laws.antt", "  code_at h x i =", "  code_at_lem h x i ="),
    ("crates/expansion/proofs/Laws.antt", "\u2219 code_at (in", "\u2219 code_at_lem (in"),
]

STOP = "\\s(){}\\[\\];,.\"`"
DECL = re.compile(r"^(\s*)(?:(?:abbrev|unfoldable|axiom) )?(?:pub )?(?:(?:record|data) )?((?:[^\s(){}\[\];,.\":]+ )+): ")
HEAD = re.compile(r"^\s*(?:pub )?(?:abbrev |unfoldable )?(?:pub )?(?:record|data) ([^\s(){}\[\];,.\":]+)")


def files(root, *globs):
    found = []
    for g in globs:
        found += glob.glob(os.path.join(root, g), recursive=True)
    return sorted(f for f in found if os.path.isfile(f) and "/out/" not in f)


def antt(root):
    """The files that declare definitions and lemmas: specs/ and the files right in proofs/."""
    return [f for f in files(root, "crates/*/specs/**/*.antt", "crates/*/proofs/*.antt")]


def declared(file):
    names = []
    for line in open(file, encoding="utf-8"):
        if line.lstrip().startswith("--") or line.lstrip().startswith(("use ", "let ", "unfolding ")):
            continue
        m = HEAD.match(line)
        if m:
            names.append(m.group(1))
            continue
        m = DECL.match(line)
        if m and "=" not in m.group(2) and "→" not in m.group(2):
            names += [n for n in m.group(2).split() if n not in ("pub", "abbrev", "unfoldable", "record", "data", "let")]
    return names


def spelled(name):
    if name in HEIRS:
        return HEIRS[name]
    if not re.match(r"^[a-zA-Z]", name):
        return name
    if name[0].isupper():
        return name
    out = re.sub(r"(?<=[a-z0-9])([A-Z])", lambda m: "_" + m.group(1).lower(), name)
    out = re.sub(r"([A-Z])", lambda m: m.group(1).lower(), out)
    return out.replace("-", "_").replace("\u2032", "'")


def heirs(modules, old_root):
    together = collections.defaultdict(set)
    for f in modules:
        before = os.path.join(old_root, f)
        old = declared(before) if os.path.exists(before) else modules[f]
        for a, b in zip(old if len(old) == len(modules[f]) else modules[f], modules[f]):
            together[spelled(b)].add((a, b))
    for n, pairs in together.items():
        if len({a for a, b in pairs}) > 1:
            for a, b in pairs:
                if "-" in a and all(b != d for c, d in pairs if c != a):
                    HEIRS[b] = n + "_lem"


def words(text):
    return re.findall(r"[^%s]+" % STOP, text)


def main():
    old_root, write = sys.argv[1], "--write" in sys.argv
    if write:
        for f, old, new in LOST:
            text = open(f, encoding="utf-8").read()
            if old not in text:
                print("not there:", f, old)
            open(f, "w", encoding="utf-8").write(text.replace(old, new))
    mine = {}
    modules = {}
    for f in antt("."):
        modules[f] = declared(f)
        for n in modules[f]:
            if spelled(n) != n:
                mine[n] = spelled(n)
    # names that port.py gave, by the place of the declaration in its file
    given = {}
    for f in modules:
        before = os.path.join(old_root, f)
        if not os.path.exists(before):
            continue
        old = declared(before)
        if len(old) != len(modules[f]):
            print("differs in count:", f, len(old), len(modules[f]), [x for x in zip(old, modules[f]) if x[0] != x[1]][:5])
            continue
        for a, b in zip(old, modules[f]):
            if a != b:
                given[a] = b
    heirs(modules, old_root)
    for n in HEIRS:
        mine[n] = HEIRS[n]
    # names that fall together: two names of the old tree with one name now
    final = collections.defaultdict(set)
    where = collections.defaultdict(set)
    for f in modules:
        before = os.path.join(old_root, f)
        old = declared(before) if os.path.exists(before) else []
        if len(old) != len(modules[f]):
            old = modules[f]
        for a, b in zip(old, modules[f]):
            final[spelled(b)].add(a)
            where[spelled(b)].add((f, a))
    for n, olds in sorted(final.items()):
        if len(olds) > 1:
            print("fall together:", n, sorted(where[n]))
    # a new name that is a word of a file already
    for f in files(".", "crates/*/specs/**/*.antt", "crates/*/proofs/**/*.antt", "crates/*/src/**/*.rt"):
        have = set(words(open(f, encoding="utf-8").read()))
        for n in sorted(have & set(mine)):
            if mine[n] in have:
                print("there already:", f, n, mine[n])
    if not write:
        print(len(mine), "names;", len(given), "by port.py")
        return
    both = dict(given)
    for a in list(both):
        both[a] = mine.get(both[a], both[a])
    for n in mine:
        both.setdefault(n, mine[n])
    turn(files(".", "crates/*/specs/**/*.antt", "crates/*/proofs/**/*.antt", "crates/*/src/**/*.rt"), mine)
    turn(files(".", "crates/*/must-fail/*.edit"), both)
    with open(os.path.join(os.path.dirname(os.path.realpath(__file__)), "respelled.txt"), "w", encoding="utf-8") as out:
        for n in sorted(both):
            if both[n] != n:
                out.write(f"{n} {both[n]}\n")


def of_libraries(text, own):
    """The names that a file has from the kit's libraries: they keep their spelling there."""
    names = set()
    for m in re.finditer(r"(?m)^(?:ghost )?(?:pub )?use ([^\n{;]+?)(?:\.\{([^}]*)\})?;?$", text):
        way = re.match(r"Rattle\.(\w+)", m.group(1))
        if not way or way.group(1) not in own:
            names |= {w for part in (m.group(2) or "").split(",") for w in part.strip().split(" as ")}
    return names


def turn(paths, names):
    own = {os.path.basename(f) for f in glob.glob("crates/*")}
    pattern = re.compile(r"(?<![^%s])(%s)(?![^%s])" % (STOP, "|".join(re.escape(n) for n in sorted(names, key=len, reverse=True)), STOP))
    for f in paths:
        text = open(f, encoding="utf-8").read()
        kept = of_libraries(text, own)
        new = pattern.sub(lambda m: m.group(1) if m.group(1) in kept else names[m.group(1)], text)
        if new != text:
            open(f, "w", encoding="utf-8").write(new)


if __name__ == "__main__":
    main()
