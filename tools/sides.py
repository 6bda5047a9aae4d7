#!/usr/bin/env python3
"""Writes the part "Old and new side by side" of docs/DESIGN-PASS.md anew. Nothing calls it.

    python3 tools/sides.py OLD [NEW]

OLD and NEW are checkouts (NEW is this one if none is named). What is gone keeps the words that the page has for it ("Gone: `name`. ..");
what has none yet gets "Gone: `name`. ?", and these are listed at the end, to be written by hand."""
import collections
import pathlib
import re
import sys

HEAD = "## Old and new side by side"
WORDS = r"(?:(?:unfoldable|abbrev|pub|opaque|irrelevant|instance|tactic)\s+)*"
NAMED = re.compile(r"^(\s*)(" + WORDS + r")(data\s+|record\s+)?([^\s:(){},;]+)((?:\s+[({][^:]*?:[^:]*?[)}])*)\s+:\s(.*)$")


def without_comments(text):
    return re.sub(r"(^|\s)--[^\n]*", r"\1", text)


def indent(line):
    return len(line) - len(line.lstrip())


def declarations(path):
    """(name, headers, text of the signature, whole text) of each declaration of a file of specs/ or proofs/; helpers after a `where` are left out"""
    lines = [l.rstrip() for l in without_comments(path.read_text()).splitlines()]
    headers, i, found = [], 0, []
    while i < len(lines):
        line = lines[i]
        if not line.strip():
            i += 1
            continue
        deep = indent(line)
        while headers and headers[-1][0] >= deep:
            headers.pop()
        if deep > (headers[-1][0] + 2 if headers else 0):
            i += 1
            continue
        if re.match(r"\s*module\b.*$", line):
            j = i + 1
            header = [line.strip()]
            while not re.search(r"\bwhere$", header[-1]) and j < len(lines):
                header.append("    " + lines[j].strip())
                j += 1
            headers.append((deep, "\n".join(header)))
            i = j
            continue
        if re.match(r"\s*(use|open)\b", line):
            i += 1
            while i < len(lines) and lines[i].strip() and indent(lines[i]) > deep:
                i += 1
            continue
        j = i + 1
        while j < len(lines) and lines[j].strip() and indent(lines[j]) > deep:
            j += 1
        m = NAMED.match(line) or NAMED.match(" " * deep + " ".join(l.strip() for l in lines[i:j]))
        if m:
            signature = lines[i:j]
            whole = list(signature)
            name = m.group(4)
            k = j
            while k < len(lines):
                if not lines[k].strip():
                    n = k
                    while n < len(lines) and not lines[n].strip():
                        n += 1
                    if n < len(lines) and (indent(lines[n]) > deep or re.match(r"\s*" + re.escape(name) + r"(\s|$)", lines[n])) and not NAMED.match(lines[n]):
                        k = n
                        continue
                    break
                if indent(lines[k]) < deep or (indent(lines[k]) == deep and (NAMED.match(lines[k]) or re.match(r"\s*(module|use|open)\b", lines[k]))):
                    break
                whole.append(lines[k])
                k += 1
            cut = lambda ls: "\n".join(l[deep:] for l in ls)
            head = cut(whole if m.group(3) else signature)
            found.append((name, tuple(h for _, h in headers), head, cut(whole)))
            j = k
        i = j
    return found


def blanked(text):
    """the text without comments, and the same with strings and characters blanked, of one length"""
    text = re.sub(r"//[^\n]*", lambda m: " " * len(m.group()), text)
    return text, re.sub(r'b?"(?:\\.|[^"\\])*"|b?\'(?:\\.|[^\'\\])\'', lambda m: " " * len(m.group()), text)


def closed(code, i, pairs={"{": "}", "(": ")"}):
    depth, a = 0, code[i]
    b = pairs[a]
    for k in range(i, len(code)):
        depth += (code[k] == a) - (code[k] == b)
        if not depth:
            return k + 1
    raise ValueError("not closed")


def tidy(text):
    lines = [l.rstrip() for l in text.strip("\n").splitlines()]
    lines = [l for l in lines if l.strip()]
    if not lines:
        return ""
    base = indent(lines[0])
    return "\n".join(l[base:] if indent(l) >= base else l.strip() for l in lines)


def items(path):
    """(kind, key, text) of each function and type of a file of src/; kind: public, type or private"""
    text, code = blanked(path.read_text())
    spans, found = [], []
    for m in re.finditer(r"^(?:unsafe )?(impl|pub trait|trait)\b[^\n{]*", code, re.M):
        opening = code.index("{", m.start()) if "{" not in m.group() else m.start() + m.group().index("{")
        head = " ".join(text[m.start():opening].split())
        spans.append((m.start(), closed(code, opening), head))
    module = path.stem if path.stem not in ("lib", "main") else ""
    inside = lambda at: next((h for a, b, h in spans if a < at < b), "")
    for m in re.finditer(r"^( *)((?:pub(?:\(crate\))? )?(?:const )?(?:unsafe )?(?:extern \"C\" |extern     )?)fn (\w+)", code, re.M):
        i = code.index("(", m.end()) if "<" not in code[m.end():m.end() + 1] else code.index("(", code.index(">", m.end()))
        i = closed(code, i)
        while True:
            body = re.compile(r"\s*(?:(requires|ensures)\b[^{]*\{|(\{)|(;))|.", re.S).match(code, i)
            if body.group(1):
                i = closed(code, body.end() - 1)
            elif body.group(2) or body.group(3):
                break
            else:
                i = body.end()
        sign = tidy(text[m.start():i])
        owner = inside(m.start())
        public = "pub " in m.group(2) or owner.startswith("pub trait") or (owner.startswith("impl") and " for " in owner)
        found.append(("public" if public and "pub(crate)" not in m.group(2) else "private", (owner_name(owner), m.group(3)), (owner + ": " if owner else "") + sign))
    for m in re.finditer(r"^((?:#\[(?:derive|repr)\([^\n]*\)\]\n)*)(pub(?:\(crate\))? )?(struct|enum|trait|type|const|static) (\w+)", code, re.M):
        if m.group(3) == "trait":
            continue
        if m.group(3) in ("struct", "enum"):
            k = min(x for x in (code.find("{", m.end()), code.find(";", m.end())) if x >= 0)
            end = closed(code, k) if code[k] == "{" else k + 1
        else:
            at = m.end()
            depth = 0
            while code[at] != ";" or depth:
                depth += (code[at] in "[({") - (code[at] in "])}")
                at += 1
            end = at + 1
        body = tidy(text[m.start():end])
        if body.count("\n") > 40:
            body = "\n".join(body.splitlines()[:2] + ["    .."] + body.splitlines()[-1:])
        found.append(("type" if "pub " in (m.group(2) or "") else "private", ("", m.group(4)), body))
    for a, b, head in spans:
        for g in re.finditer(r"^    (?:ghost (\w+)|type (\w+))\b", code[a:b], re.M):
            at, depth = a + g.end(), 0
            while code[at] != ";" or depth:
                depth += (code[at] in "[({") - (code[at] in "])}")
                at += 1
            found.append(("type", (owner_name(head), "ghost " + (g.group(1) or g.group(2))), head + ": " + " ".join(text[a + g.start():at + 1].split())))
    return found


def owner_name(head):
    head = re.sub(r"<[^<>]*(?:<[^<>]*>[^<>]*)*>", "", head)
    return head.replace("pub trait", "trait").split(":")[0].replace("impl ", "").strip()


def read(tree):
    """crate -> section -> [(key, headers, text)]"""
    crates = collections.OrderedDict()
    names = [l.split(":")[0].split()[0] for l in pathlib.Path(tree, "crates.txt").read_text().splitlines() if l.strip() and not l.startswith("#")]
    for name in names:
        top = pathlib.Path(tree, "crates", name)
        sections = collections.OrderedDict((s, []) for s in SECTIONS)
        for path in sorted(top.glob("src/**/*.rt")):
            for kind, key, text in items(path):
                sections[{"public": SECTIONS[0], "type": SECTIONS[1], "private": SECTIONS[4]}[kind]].append((key, (), text))
        for path in sorted(top.glob("specs/**/*.antt")):
            for key, headers, _, text in declarations(path):
                sections[SECTIONS[2]].append((("", key), headers, text))
        for path in sorted(top.glob("proofs/**/*.antt")):
            if path.name in ("Answers.antt", "Invariants.antt"):
                continue
            for key, headers, text, _ in declarations(path):
                sections[SECTIONS[3]].append((("", key), headers, text))
        crates[name] = sections
    return crates


SECTIONS = ["Public functions", "Types", "Definitions", "Theorems and lemmas of proofs/", "Functions and types within the crate"]


def notes_of(page):
    """(crate, name) -> the sentence of what is gone or moved"""
    notes, crate = {}, ""
    for line in page.splitlines():
        if m := re.match(r"### `(\w+)`", line):
            crate = m.group(1)
        elif m := re.match(r"Gone: `([^`]+)`\. (.*)$", line):
            notes[(crate, m.group(1))] = m.group(2)
    return notes


def diff(old, new):
    mark = lambda sign, text: [sign + " " + l for l in text.splitlines()]
    return ["```diff"] + (mark("-", old) if old else []) + (mark("+", new) if new else []) + ["```"]


def pairs(old, new):
    """matches equal keys, those of one text first; old left over, new left over, [(old, new)]"""
    olds, together = list(old), []
    rest = []
    for n in new:
        o = next((o for o in olds if o[0] == n[0] and o[2] == n[2] and o[1] == n[1]), None) or next((o for o in olds if o[0] == n[0] and o[2] == n[2]), None)
        if o:
            olds.remove(o)
            together.append((o, n))
        else:
            rest.append(n)
    left = []
    for n in rest:
        o = next((o for o in olds if o[0] == n[0]), None) or (next((o for o in olds if o[0][1] == n[0][1]), None) if not n[0][1].startswith("ghost") and n[0][1] not in ("new", "next", "from") else None)
        if o:
            olds.remove(o)
            together.append((o, n))
        else:
            left.append(n)
    order = {id(n): i for i, n in enumerate(new)}
    together.sort(key=lambda p: order[id(p[1])])
    return olds, left, together


def around(together):
    """module headers that changed, with the names below them"""
    groups = collections.OrderedDict()
    for o, n in together:
        if o[1] != n[1]:
            groups.setdefault((o[1], n[1]), []).append(n[0][1])
    out = []
    for (o, n), names in groups.items():
        out += ["", "Around " + ", ".join(f"`{x}`" for x in names) + ":"] + diff("\n".join(o), "\n".join(n))
    return out


def written(old, new, notes, missing):
    out = [HEAD, "", INTRO, ""]
    everywhere = collections.defaultdict(list)
    for crate, sections in new.items():
        for s, entries in sections.items():
            for key, headers, text in entries:
                everywhere[key[1]].append((crate, text))
    for crate in list(new) + [c for c in old if c not in new]:
        part = []
        for s in SECTIONS:
            gone, fresh, together = pairs(old.get(crate, {}).get(s, []), new.get(crate, {}).get(s, []))
            mine = []
            for o, n in together:
                if o[2] != n[2]:
                    mine += diff(o[2], n[2])
            mine += around(together)
            lemmas = s == SECTIONS[3]
            if lemmas and fresh:
                mine += ["", "New: " + ", ".join(f"`{n[0][1]}`" for n in fresh) + "."]
            elif s != SECTIONS[4]:
                for n in fresh:
                    mine += diff("", "\n".join(n[1] + (n[2],)))
            for o in gone:
                name = o[0][1].replace("ghost ", "")
                elsewhere = next((c for c, t in everywhere[o[0][1]] if c != crate and t == o[2]), None)
                note = notes.get((crate, name))
                if elsewhere and not note:
                    mine += ["", f"Moved: `{name}` stands in crate `{elsewhere}`, as it was."]
                    continue
                if not note and lemmas and o[2].startswith("abbrev ") and not o[2].startswith("abbrev pub "):
                    note = "It was a short name in the laws beside it, which are written without it."
                if not note:
                    note = "?"
                    missing.append(f"{crate} {s}: {name}")
                mine += ["", f"Gone: `{name}`. {note}"] + diff("\n".join(o[1] + (o[2],)), "")
            if mine:
                part += ["", "#### " + s, ""] + mine
        if part:
            out += ["", f"### `{crate}`"] + part
    text = "\n".join(out) + "\n"
    return re.sub(r"\n{3,}", "\n\n", text)


INTRO = ("Crate by crate: public functions with their clauses, types with their ghost members, definitions, and theorems and lemmas. `-` is the commit of the first line, `+` is today. "
         "What is gone names what states its promise now. Most lemmas that changed did so by a type alone (`Literal.Of x e` is `Some (x, e)`).")


def main():
    args = sys.argv[1:]
    here = pathlib.Path(args[1] if len(args) > 1 else pathlib.Path(__file__).resolve().parent.parent)
    page = here / "docs" / "DESIGN-PASS.md"
    text = page.read_text()
    before = text[:text.index(HEAD)]
    missing = []
    new = written(read(args[0]), read(here), notes_of(text), missing)
    page.write_text(before + new)
    print("\n".join(missing))
    print(f"{len(missing)} without a word")


if __name__ == "__main__":
    main()
