#!/usr/bin/env python3
"""Counts, in the src/ of every crate, the places that docs/DESIGN-PASS.md speaks of, point by point. Nothing calls it.

    python3 tools/places.py [TREE] [--list]

TREE is a checkout (this one if none is named). With --list each place is printed with its file and line; else the counts alone."""
import collections
import pathlib
import re
import sys

TABLES = {"prefix", "matrix", "map", "proof", "marks", "values", "table"}
GROUPS = [
    ("four or more of the six tables", lambda n: len(n & {"prefix", "matrix", "map", "proof", "marks", "values"}) >= 4),
    ("which literals are false, and the trail", lambda n: {"falses", "trail"} <= n),
    ("the proof and the marks table, and how many clauses", lambda n: "count" in n and "marks" in n),
    ("the values and the map", lambda n: {"values", "map"} <= n),
    ("marks of codes, and a list of them", lambda n: {"seen", "held"} <= n),
    ("a table and a cursor", lambda n: "@Cursor" in n and n & TABLES),
]


def functions(tree):
    """crate, file, line, name, parameters as (name, type), result, body"""
    for path in sorted(pathlib.Path(tree, "crates").glob("*/src/**/*.rt")):
        text = path.read_text()
        code = re.sub(r"//[^\n]*", lambda m: " " * len(m.group()), text)
        for m in re.finditer(r"\bfn (\w+)(<[^(]*>)?\(", code):
            i, depth = m.end(), 1
            while depth:
                depth += {"(": 1, ")": -1}.get(code[i], 0)
                i += 1
            inside = code[m.end():i - 1]
            rest = code[i:]
            result = re.match(r"\s*->\s*([^\n{]+)", rest)
            body = re.search(r"^( *)\{\n(.*?)^\1\}|\{\n(.*?)^ *\}", rest, re.S | re.M)
            parts = [p.strip() for p in re.split(r",(?![^<\[(]*[>\])])", inside) if p.strip()]
            named = [tuple(x.strip() for x in p.split(":", 1)) if ":" in p else (p, p) for p in parts]
            yield dict(crate=path.parts[-path.parts[::-1].index("src") - 2], file=str(path.relative_to(tree)), line=code.count("\n", 0, m.start()) + 1,
                       name=m.group(1), params=named, result=result.group(1).strip() if result else "", body=(body.group(2) or body.group(3) or "") if body else "")


def lines(tree, pattern):
    for path in sorted(pathlib.Path(tree, "crates").glob("*/src/**/*.rt")):
        for n, line in enumerate(path.read_text().splitlines(), 1):
            code = line.split("//")[0]
            if re.search(pattern, code):
                yield f"{path.relative_to(tree)}:{n}: {line.strip()}"


def where(f):
    return f"{f['file']}:{f['line']}: {f['name']}"


def places(tree):
    fs = list(functions(tree))
    yield "1 enums of the repository", list(lines(tree, r"\benum \w+"))
    yield "1 refusals as numbers", list(lines(tree, r"\b(Refuse|Refused|refused_early|End)\(\s*(\d+|n|k|p|q|z|number)\b|Refused\(u32|Refuse\(u32|End\(u32")) + [
        where(f) for f in fs if f["result"] == "u32" and re.search(r"^\s+(return )?(2|8|9|1\d);?$|ruled|return k;", f["body"], re.M)]
    by = collections.defaultdict(list)
    for f in fs:
        by[f["name"]].append(f)
    yield "2 functions of one name in several modules", [where(f) for n in sorted(by) if len(by[n]) > 1 and n != "main" for f in by[n]]
    yield "3 loops with while or loop", list(lines(tree, r"^\s*('\w+: )?(while|loop)\b"))
    yield "4 conversions and comparisons by hand", [
        where(f) for f in fs if re.fullmatch(r"\s*(\(?\w+(\[\w+\])? as \w+\)?( \+ \d+)?|cells::wide\(.*\)|\w+ == \w+)\s*", f["body"])
        or f["name"] in ("larger", "same", "same_bytes", "belongs")]
    for what, test in GROUPS:
        yield "5 functions that take " + what, [
            where(f) for f in fs if test({n for n, _ in f["params"]} | {"@" + t for _, t in f["params"]})]
    yield "6 functions that take a slice or an array and a place or a length of it", [
        where(f) for f in fs if any(re.match(r"&(mut |'a )*(\[\w+\]|Noted|Starts|Seen|Indexes|Trail|Falses|Watches)$", t) and f["params"][i + 1][1] in ("usize", "u32")
                                    for i, (_, t) in enumerate(f["params"][:-1]))]
    yield "7 switches on which step to run", list(lines(tree, r"match (kind_of|self\.kind|kind)\b|kind == [A-Z]+|match s \{"))


def proofs(tree):
    answers = list(pathlib.Path(tree, "crates").glob("*/proofs/**/Answers.antt"))
    count = sum(len(re.findall(r"^abbrev pub |^pub ", p.read_text(), re.M)) for p in answers)
    invariants = list(pathlib.Path(tree, "crates").glob("*/proofs/**/Invariants.antt"))
    every = [p for p in pathlib.Path(tree, "crates").glob("*/proofs/**/*.antt")]
    size = lambda ps: sum(len(p.read_bytes()) for p in ps)
    src = sum(len(p.read_text().splitlines()) for p in pathlib.Path(tree, "crates").glob("*/src/**/*.rt"))
    edits = len(list(pathlib.Path(tree, "crates").glob("*/must-fail/*.edit")))
    yield f"8 files of answers: {len(answers)}, {count} answers, {size(answers):,} bytes; of invariants: {len(invariants)}, {size(invariants):,} bytes; all of proofs/: {size(every):,} bytes"
    yield f"src/: {src:,} lines; must-fail edits: {edits}"


def main():
    args = [a for a in sys.argv[1:] if not a.startswith("--")]
    tree = args[0] if args else pathlib.Path(__file__).resolve().parent.parent
    for what, found in places(tree):
        print(f"{what}: {len(found)}")
        if "--list" in sys.argv:
            for f in found:
                print("   ", f)
    for line in proofs(tree):
        print(line)


main()
