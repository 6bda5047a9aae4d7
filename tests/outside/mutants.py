#!/usr/bin/env python3
"""How well do the fixed cases and the corpus tell a wrong checker?

Makes copies of src/reference.rs and src/ferp.rs, each with one mistake (those
of document 01's list among them), in a package of its own under a temporary
folder, and counts for each copy the fixed cases and corpus cases of both
kinds whose report differs. A mistake in what both checks share must be seen
by the cases of both, any other by those of its own check.
Usage: mutants.py [CORPUS CASES [WORDS OF A MISTAKE]]. Stored result:
MUTANTS.txt.
"""
import os
import subprocess
import sys
import tempfile

HERE = os.path.dirname(os.path.abspath(__file__))
COUNT = sys.argv[1] if len(sys.argv) > 1 else "4000"
WORDS = sys.argv[2] if len(sys.argv) > 2 else ""

M = []


def mutant(name, *changes, file="reference.rs", kinds=("ferat",)):
    if WORDS in name:
        M.append((name, changes, file, kinds))


def shared(name, *changes):
    mutant(name, *changes, kinds=("ferat", "ferp"))


def ferp(name, *changes):
    mutant(name, *changes, file="ferp.rs", kinds=("ferp",))


# Document 01: "Mistakes that accept too much".
shared("universal literal unassigned in t is dropped",
       ("let mut t: BTreeSet<i64> = clause.iter().filter(|l| formula.is_universal(l.abs())).map(|l| -*l).collect();",
        "let mut t: BTreeSet<i64> = BTreeSet::new();"),
       ("if t.iter().any(|l| t.contains(&-*l)) {", "if t.iter().any(|l| t.contains(&-*l) || clause.contains(l)) {"))
shared("annotation only has to agree with t", ("        part == pair.annotation\n", "        pair.annotation.is_subset(&part)\n"))
mutant("RAT on any literal",
       ("let Some(first) = literals.first() else { return false };\n        let Some(candidates) = self.holding.get(&-*first) else { return true };\n        candidates.iter().all(|id| {",
        "literals.iter().any(|first| { let none = BTreeSet::new(); let candidates = self.holding.get(&-*first).unwrap_or(&none);\n        candidates.iter().all(|id| {"),
       ("            self.is_rup(&joined)\n        })", "            self.is_rup(&joined)\n        }) })"))
mutant("values kept for the next RAT candidate",
       ("        candidates.iter().all(|id| {\n            let mut joined = clause.clone();",
        "        let mut joined = clause.clone();\n        candidates.iter().all(|id| {"))
mutant("deletion takes every equal clause",
       ("        self.equal.get_mut(&clause).unwrap().remove(&id);\n",
        "        self.equal.get_mut(&clause).unwrap().remove(&id);\n        if self.equal[&clause].len() > 0 { self.remove(literals); }\n"))
mutant("deletion matches a subset",
       ("let Some(id) = self.equal.get(&clause).and_then(|ids| ids.first().copied()) else { return false };",
        "let Some(id) = (0..self.clauses.len()).find(|i| self.clauses[*i].as_ref().is_some_and(|c| clause.iter().all(|l| c.contains(l)))) else { return false };\n        let clause = self.clauses[id].clone().unwrap();"))
# Other ways to be wrong.
mutant("unit deletions skipped", ("        self.short.remove(&id);\n", "        if clause.len() == 1 { self.clauses[id] = Some(clause.clone()); self.holding.get_mut(&clause[0]).unwrap().insert(id); return true; }\n        self.short.remove(&id);\n"))
mutant("no RAT at all", ("let Some(candidates) = self.holding.get(&-*first) else { return true };", "let Some(candidates) = self.holding.get(&-*first) else { return false };\n        if candidates.is_empty() || !candidates.is_empty() { return false; }"))
mutant("RAT on the least literal, not the first written", ("let Some(first) = literals.first() else", "let Some(first) = clause.first() else"))
mutant("empty clause is RAT", ("let Some(first) = literals.first() else { return false };", "let Some(first) = literals.first() else { return true };"))
mutant("both signs true is no conflict", ("let mut queue: VecDeque<i64> = start.iter().copied().collect();", "if start.iter().any(|l| start.contains(&-*l)) { return Outcome::Stable; }\n        let mut queue: VecDeque<i64> = start.iter().copied().collect();"))
mutant("units of the standing clauses not used", ("Some(literal) => queue.push_back(*literal),", "Some(_) => {}"))
mutant("propagation stops after two rounds", ("while let Some(literal) = queue.pop_front() {", "let mut left = 2 + queue.len();\n        while let Some(literal) = queue.pop_front() {\n            if left == 0 { break; }\n            left -= 1;"))
mutant("repeated literal counts twice for units", ("        let clause = as_set(literals);\n        for literal in &clause {\n            self.holding.entry", "        let mut clause = as_set(literals);\n        if literals.len() > clause.len() && clause.len() == 1 { clause.push(clause[0]); }\n        for literal in &clause {\n            self.holding.entry"))
mutant("closed if an empty clause ever stood", ("        self.short.remove(&id);\n", "        self.short.remove(&id);\n        if clause.is_empty() { self.equal.get_mut(&clause).unwrap().insert(usize::MAX); }\n"))
mutant("stops at the first empty clause", ("                counts.additions += 1;\n", "                counts.additions += 1;\n                if literals.is_empty() { return Ok(()); }\n"))
mutant("hints ignored", ("Some(n) => is_expansion(formula, &mapped, &formula.matrix[*n as usize - 1]),", "Some(_) => formula.matrix.iter().any(|clause| is_expansion(formula, &mapped, clause)),"))
mutant("missing hint searches", ("None => return refuse(10),", "None => formula.matrix.iter().any(|clause| is_expansion(formula, &mapped, clause)),"))
mutant("hints left over unseen at additions", ("                if part != Part::Steps && hints_left_over(&hints, counts) {\n                    return refuse(10);\n                }\n                part = Part::Steps;\n                if !standing.allows", "                part = Part::Steps;\n                if !standing.allows"))
mutant("hints left over unseen at deletions", ("                if part != Part::Steps && hints_left_over(&hints, counts) {\n                    return refuse(10);\n                }\n                part = Part::Steps;\n                if !standing.remove", "                part = Part::Steps;\n                if !standing.remove"))
mutant("hints left over unseen at the end", ("    if part != Part::Steps && hints_left_over(&hints, counts) {\n        return Err(Refusal { number: 10, line: 0 });", "    if false {\n        return Err(Refusal { number: 10, line: 0 });"))
mutant("hints zero-based by one", ("match named.get(counts.expansions as usize) {", "match named.get(counts.expansions as usize).map(|n| if *n > 1 { n } else { &1 }).or(named.last()) {"))
shared("mapped twice in its own line unseen", ("own.len() < copies.len() || ", ""))
shared("8 before 7", ("        return Err(7);\n", "        if !existentials.iter().all(|e| formula.is_existential(*e)) { return Err(8); }\n        return Err(7);\n"))
shared("L not held left of E", ("formula.is_universal(l.abs()) && existentials.iter().all(|e| formula.is_left(l.abs(), *e))", "formula.is_universal(l.abs())"))
shared("L left of one E is enough", ("existentials.iter().all(|e| formula.is_left(l.abs(), *e))", "(existentials.is_empty() || existentials.iter().any(|e| formula.is_left(l.abs(), *e)))"))
shared("L may be existential", ("formula.is_universal(l.abs()) && existentials", "existentials"))
shared("L twice unseen", ("!good_existentials || !good_annotation || variables.len() < annotation.len()", "!good_existentials || !good_annotation"))
shared("L of both signs unseen", ("let variables: BTreeSet<i64> = annotation.iter().map(|l| l.abs()).collect();", "let variables: BTreeSet<i64> = annotation.iter().copied().collect();"))
shared("L unchecked without pairs", ("!good_existentials || !good_annotation ||", "!copies.is_empty() && (!good_existentials || !good_annotation) ||"))
shared("E universal unseen", ("!good_existentials || !good_annotation", "!good_annotation"))
shared("left by number", ("(Some((_, first)), Some((_, second))) => first < second,", "(Some(_), Some(_)) => u < v,"))
shared("extra universals in t refused", ("    // \"never both signs", "    if t.len() > clause.iter().filter(|l| formula.is_universal(l.abs())).count() { return false; }\n    // \"never both signs"))
shared("e line as subset of the clause", ("if wanted != written {", "if !written.is_subset(&wanted) {"))
shared("clause as subset of the e line", ("if wanted != written {", "if !wanted.is_subset(&written) {"))
shared("signs of e literals dropped", ("if *negative { -pair.existential } else { pair.existential }).collect();\n    if wanted != written", "{ let _ = negative; pair.existential }).collect();\n    let wanted: BTreeSet<i64> = wanted.iter().map(|l| l.abs()).collect();\n    if wanted != written"))
mutant("10 before 9", ("                let Some(mapped) = looked_up(", "                if hints.as_ref().is_some_and(|h| h.len() as u64 <= counts.expansions) { return refuse(10); }\n                let Some(mapped) = looked_up("))
mutant("11 before 10 at a missing hint", ("None => return refuse(10),", "None => return refuse(if formula.matrix.iter().any(|clause| is_expansion(formula, &mapped, clause)) { 10 } else { 11 }),"))
mutant("deletions out of range unseen", ("            CertificateLine::Deletion { literals } => {\n                if above(&literals, COPY_LIMIT) {\n                    return refuse(3);\n                }", "            CertificateLine::Deletion { literals } => {"))
mutant("deletions raise values", ("            CertificateLine::Deletion { literals } => {\n                if above(&literals, COPY_LIMIT) {\n                    return refuse(3);\n                }", "            CertificateLine::Deletion { literals } => {\n                if above(&literals, COPY_LIMIT) {\n                    return refuse(3);\n                }\n                raise(&mut needs[VALUES], &literals);\n                if full(needs, lengths) { return refuse(15); }"))
mutant("deletions need proof", ("                if !standing.remove(&literals) {", "                needs[PROOF] += 1;\n                if full(needs, lengths) { return refuse(15); }\n                if !standing.remove(&literals) {"))
mutant("deletions give proof back", ("                counts.deletions += 1;\n", "                counts.deletions += 1;\n                needs[PROOF] -= as_set(&literals).len() + 1;\n"))
shared("proof need by sets", ("    needs[PROOF] += literals.len() + more;\n", "    needs[PROOF] += as_set(literals).len() + more;\n"))
shared("matrix need by sets", ("needs[MATRIX] += literals.len() + 1;", "needs[MATRIX] += as_set(&literals).len() + 1;"))
mutant("o line needs nothing", ("needs[PROOF] += clauses.len() + 1;", ""))
mutant("o line without its zero", ("needs[PROOF] += clauses.len() + 1;", "needs[PROOF] += clauses.len();"))
shared("mapping need without zeros", ("+ annotation.len() + 3;", "+ annotation.len();"))
shared("mapping raises no values", ("raise(&mut needs[VALUES], &copies);", ""))
shared("E raises values", ("raise(&mut needs[VALUES], &copies);", "raise(&mut needs[VALUES], &copies);\n                raise(&mut needs[VALUES], &existentials);"))
shared("prefix need by the variables bound", ("needs[PREFIX] = highest as usize;", "needs[PREFIX] = 0;"))
shared("full at the exact need", ("needs[table] > lengths[table])", "needs[table] >= lengths[table] && needs[table] > 0)"))
shared("15 after 7", ("    if full(needs, lengths) {\n        return Err(15);\n    }\n    let own: BTreeSet<i64> = copies.iter().copied().collect();", "    let own: BTreeSet<i64> = copies.iter().copied().collect();\n    if full(needs, lengths) && own.len() == copies.len() && !own.iter().any(|copy| map.contains_key(copy)) {\n        return Err(15);\n    }"))
shared("15 before 3 at the p line", ("if highest > VARIABLE_LIMIT || count > CLAUSE_LIMIT {", "if highest as usize > lengths[PREFIX] { return refuse(15); }\n                if highest > VARIABLE_LIMIT || count > CLAUSE_LIMIT {"))
mutant("a line refused 3 adds needs", ("                if above(&literals, COPY_LIMIT) {\n                    return refuse(3);\n                }\n                need_clause", "                if above(&literals, COPY_LIMIT) {\n                    needs[PROOF] += 1;\n                    return refuse(3);\n                }\n                need_clause"))
shared("6 before 5", ("                if literals.iter().any(|literal| !formula.is_bound", "                if formula.matrix.len() as i64 == count { return refuse(6); }\n                if literals.iter().any(|literal| !formula.is_bound"))
shared("6 before 15", ("                needs[MATRIX] +=", "                if formula.matrix.len() as i64 == count { return refuse(6); }\n                needs[MATRIX] +="))
shared("extra clauses at the end", ("return refuse(6);\n", "continue;\n"))
shared("too few clauses unseen", ("(formula.matrix.len() as i64) < count", "(formula.matrix.len() as i64) < count.min(0)"))
shared("prefix line after clauses allowed", ("header.is_none() || !formula.matrix.is_empty()", "header.is_none()"))
shared("prefix line without variables allowed", ("            if variables.is_empty() {\n                return None;\n            }\n", ""))
shared("last prefix line a refused", ("    match header {\n        None => Err", "    if formula.prefix.last().is_some_and(|b| b.0) { return Err(Refusal { number: 2, line: 0 }); }\n    match header {\n        None => Err"))
shared("bound twice by another letter only", ("self.bound.insert(variable, (universal, place)).is_none()", "self.bound.insert(variable, (universal, place)).is_none_or(|b| b.0 == universal)"))
shared("overlong certificate after the formula", ("    if files[1].len() > limits[1] {\n        return report(2, overlong, counts, needs);\n    }\n", ""), ("    let end = certificate(&read,", "    if files[1].len() > limits[1] {\n        return report(2, overlong, counts, needs);\n    }\n    let end = certificate(&read,"))
shared("file limit one less", ("pub const FILE_LIMIT: usize = 1_048_576;", "pub const FILE_LIMIT: usize = 1_048_575;"))
shared("file limit one more", ("pub const FILE_LIMIT: usize = 1_048_576;", "pub const FILE_LIMIT: usize = 1_048_577;"))
shared("V limit one less", ("VARIABLE_LIMIT: i64 = 4_096", "VARIABLE_LIMIT: i64 = 4_095"))
shared("V limit one more", ("VARIABLE_LIMIT: i64 = 4_096", "VARIABLE_LIMIT: i64 = 4_097"))
shared("C limit one less", ("CLAUSE_LIMIT: i64 = 8_192", "CLAUSE_LIMIT: i64 = 8_191"))
shared("C limit one more", ("CLAUSE_LIMIT: i64 = 8_192", "CLAUSE_LIMIT: i64 = 8_193"))
shared("copy limit one less", ("COPY_LIMIT: i64 = 16_384", "COPY_LIMIT: i64 = 16_383"))
shared("copy limit one more", ("COPY_LIMIT: i64 = 16_384", "COPY_LIMIT: i64 = 16_385"))
shared("numbers wrap at 2^32", ("    if token.len() > 15 {\n        return Some(BEYOND);\n    }\n", ""), ("value = value * 10 + i64::from(byte - b'0');", "value = (value * 10 + i64::from(byte - b'0')) & 0xffff_ffff;"))
shared("long numbers malformed", ("return Some(BEYOND);", "return None;"))
shared("leading zeros allowed", ("return if token.len() == 1 { Some(0) } else { None };", "if token.len() == 1 { return Some(0); }"))
shared("minus in the prefix allowed", ("closed_list(&line[1..], positive)?;\n            if variables", "closed_list(&line[1..], |t| literal(t).map(|l| l.abs()))?;\n            if variables"))
shared("byte 13 no blank", ("byte == 32 || byte == 9 || byte == 13", "byte == 32 || byte == 9"))
shared("bytes 11 and 12 blanks", ("byte == 32 || byte == 9 || byte == 13", "byte == 32 || (9..14).contains(&byte)"))
shared("tab no blank", ("byte == 32 || byte == 9 || byte == 13", "byte == 32 || byte == 13"))
shared("c only as a token of its own", ("found[0][0] == b'c'", "found[0] == b\"c\""))
shared("c only at the line's start", ("found[0][0] == b'c'", "line[0] == b'c'"))
shared("skipped lines not counted", ("for (index, line) in lines(file).into_iter().enumerate() {", "for (index, line) in lines(file).into_iter().filter(|l| tokens(l).is_some()).enumerate() {"))
shared("last line without byte 10 dropped", ("    file.split(|byte| *byte == 10).collect()", "    let mut all: Vec<&[u8]> = file.split(|byte| *byte == 10).collect();\n    all.pop();\n    all"))
shared("tokens after the zero ignored", ("    if *last != b\"0\" {\n        return None;\n    }\n", "    let mut items = items;\n    if let Some(end) = list.iter().position(|t| *t == b\"0\") { items = &list[..end]; } else if *last != b\"0\" {\n        return None;\n    }\n"))
shared("unequal lists are 8", ("    if copies.len() != existentials.len() {\n        return None;\n    }\n", ""))
mutant("two o lines allowed", ("            CertificateLine::Hints { clauses } => {\n                if part != Part::Mapping {", "            CertificateLine::Hints { clauses } => {\n                if part > Part::Hints {"))
mutant("x after o allowed", ("            CertificateLine::Mapping(mapping) => {\n                if part != Part::Mapping {", "            CertificateLine::Mapping(mapping) => {\n                if part > Part::Hints {"))
mutant("x after e allowed", ("            CertificateLine::Mapping(mapping) => {\n                if part != Part::Mapping {", "            CertificateLine::Mapping(mapping) => {\n                if part > Part::Expansions || part == Part::Hints {"))
mutant("e after steps allowed", ("                if part == Part::Steps {\n                    return refuse(2);\n                }\n", ""))
mutant("14 before 10 at the end", ("    if part != Part::Steps && hints_left_over(&hints, counts) {\n        return Err(Refusal { number: 10, line: 0 });", "    if part != Part::Steps && standing.closed() && hints_left_over(&hints, counts) {\n        return Err(Refusal { number: 10, line: 0 });"))
shared("missing p line at line 1", ("None => Err(Refusal { number: 2, line: 0 }),", "None => Err(Refusal { number: 2, line: 1 }),"))
mutant("hint above C unseen", ("if above(&clauses, formula.matrix.len() as i64) {", "if above(&clauses, CLAUSE_LIMIT) {"))
shared("L above V is 8", (" || above(&annotation, formula.highest)", ""))
shared("E above V is 8", (" || above(&existentials, formula.highest)", ""))


# FERP.
OUT_OF_RANGE = "        if self.out_of_range(&line) {\n            return Err(3);\n        }\n"
NEEDED = "        need_clause(needs, &line.literals, 2);\n"
FULL = "        if full(needs, lengths) {\n            return Err(15);\n        }\n"
USED = "        if self.clauses.contains_key(&line.index) {\n            return Err(17);\n        }\n"
KEPT = "        self.clauses.insert(line.index, line.literals.into_iter().collect());\n"
IS_RESOLVENT = "    resolvents(one, other).chain(resolvents(other, one)).any(|resolvent| resolvent == *clause)\n"
LINE = "    for (index, line) in lines(file).into_iter().enumerate() {\n"
PARENTS = "let [Some(one), Some(other)] = parents.map(|parent| self.clauses.get(&parent)) else { return Err(16) };"
JUDGE = "            Some(Line::Clause(line)) => proof.clause_line(line, lengths, needs, counts),\n"
MAPPING_LATE = "            Some(Line::Mapping(_)) if !proof.clauses.is_empty() => Err(2),\n"
CLOSED = "    if proof.clauses.values().any(|clause| clause.is_empty()) {\n"

ferp("a parent may be a later line",
     (PARENTS, "let [Some(one), Some(other)] = parents.map(|parent| self.clauses.get(&parent).or(self.later.get(&parent))) else { return Err(16) };"),
     ("    clauses: HashMap<i64, Clause>,\n", "    clauses: HashMap<i64, Clause>,\n    later: HashMap<i64, Clause>,\n"),
     ("clauses: HashMap::new() };", "clauses: HashMap::new(), later: lines(file).into_iter().filter_map(tokens).filter_map(|line| match form(&line) { Some(Line::Clause(line)) => Some((line.index, line.literals.into_iter().collect())), _ => None }).collect() };"))
ferp("a line may be its own parent", (USED, USED + "        self.clauses.insert(line.index, line.literals.iter().copied().collect());\n"))
ferp("a missing second parent unseen", (PARENTS, "let [Some(one), other] = parents.map(|parent| self.clauses.get(&parent)) else { return Err(16) };\n        let Some(other) = other else { return Ok(()) };"))
ferp("parents by the count of clause lines", (KEPT, "        let place = self.clauses.len() as i64 + 1;\n        self.clauses.insert(place, line.literals.into_iter().collect());\n"))
ferp("the copy held by one parent only", (".filter(|v| *v > 0 && other.contains(&-*v));", ".filter(|v| *v > 0);"))
ferp("the copy not tested in the parent that holds it negative", (IS_RESOLVENT, "    resolvents(one, other).chain(resolvents(other, one)).any(|resolvent| resolvent == *clause) || one.iter().any(|v| *v < 0 && one.iter().filter(|l| **l != *v).chain(other.iter()).copied().collect::<Clause>() == *clause)\n"))
ferp("a union without a clash", (IS_RESOLVENT, "    let joined: Clause = one.union(other).copied().collect();\n    (!one.iter().any(|l| other.contains(&-*l)) && joined == *clause) ||" + IS_RESOLVENT))
ferp("both signs leave both parents", (".filter(|l| *l != v)", ".filter(|l| l.abs() != v)"), (".filter(|l| *l != -v)", ".filter(|l| l.abs() != v)"))
ferp("both signs leave the parent that holds the copy positive", (".filter(|l| *l != v)", ".filter(|l| l.abs() != v)"))
ferp("both signs leave the parent that holds the copy negative", (".filter(|l| *l != -v)", ".filter(|l| l.abs() != v)"))
ferp("on two copies at once", (IS_RESOLVENT, "    let joined: Clause = one.iter().filter(|l| !other.contains(&-**l)).chain(other.iter().filter(|l| !one.contains(&-**l))).copied().collect();\n    (joined == *clause && one.iter().any(|l| other.contains(&-*l))) ||" + IS_RESOLVENT))
ferp("a subset of the resolvent", ("any(|resolvent| resolvent == *clause)", "any(|resolvent| clause.is_subset(&resolvent))"))
ferp("a superset of the resolvent", ("any(|resolvent| resolvent == *clause)", "any(|resolvent| resolvent.is_subset(clause))"))
ferp("the resolvent by its size", ("any(|resolvent| resolvent == *clause)", "any(|resolvent| resolvent.len() == clause.len())"))
ferp("only the first parent holds the copy positive", (".chain(resolvents(other, one))", ""))
ferp("only the first copy that clashes", (IS_RESOLVENT, "    resolvents(one, other).take(1).chain(resolvents(other, one).take(1)).any(|resolvent| resolvent == *clause)\n"))
ferp("no resolvent if two copies clash", (IS_RESOLVENT, "    one.iter().filter(|l| other.contains(&-**l)).count() == 1 &&" + IS_RESOLVENT))
ferp("a parent's literals dropped but the first", ("        rest.chain(", "        rest.take(1).chain("))
ferp("a tautology is no resolvent", (IS_RESOLVENT, "    !clause.iter().any(|l| clause.contains(&-*l)) &&" + IS_RESOLVENT))
ferp("a tautology is no parent", (IS_RESOLVENT, "    ![one, other].iter().any(|parent| parent.iter().any(|l| parent.contains(&-*l))) &&" + IS_RESOLVENT))
ferp("the parents must be two lines", ("        if is_resolvent(", "        if parents[0] != parents[1] && is_resolvent("))
ferp("repeats count in a resolvent", ("        if is_resolvent(", "        if literals.len() == literals.iter().collect::<BTreeSet<_>>().len() && is_resolvent("))
ferp("an unmapped copy in a resolution is 9", ("                self.resolve(", "                looked_up(&self.map, &line.literals).ok_or(9u64)?;\n                self.resolve("))
ferp("16 before 17", (USED, "        if let Reason::Resolution(parents) = line.reason {\n            self.resolve(&line.literals, parents)?;\n        }\n" + USED))
ferp("9 and 11 before 17", (USED, "        if let Reason::Expansion(n) = line.reason {\n            self.expand(&line.literals, n)?;\n        }\n" + USED))
ferp("17 before 15", (FULL, ""), (USED, USED + FULL))
ferp("17 before 3", (OUT_OF_RANGE, USED + OUT_OF_RANGE))
ferp("16 before 15", (FULL, "        if let (Reason::Resolution(parents), false) = (&line.reason, self.clauses.contains_key(&line.index)) {\n            self.resolve(&line.literals, *parents)?;\n        }\n" + FULL))
ferp("15 before 3", (OUT_OF_RANGE, "        let mut more = *needs;\n        need_clause(&mut more, &line.literals, 2);\n        if full(&more, lengths) {\n            return Err(15);\n        }\n" + OUT_OF_RANGE))
ferp("an index may be used again", (USED, ""))
ferp("an index used again is passed over", (USED, "        if self.clauses.contains_key(&line.index) {\n            return Ok(());\n        }\n"))
ferp("an index used by an expansion may be used by a resolution", ("self.clauses.contains_key(&line.index)", "matches!(line.reason, Reason::Expansion(_)) && self.clauses.contains_key(&line.index)"))
ferp("indexes must rise", (USED, "        if self.clauses.keys().any(|index| *index >= line.index) {\n            return Err(17);\n        }\n"))
ferp("indexes without gaps", (USED, USED + "        if line.index > self.clauses.len() as i64 + 1 {\n            return Err(16);\n        }\n"))
ferp("the number names clause n + 1", ("self.formula.matrix[n as usize - 1]", "self.formula.matrix[n as usize % self.formula.matrix.len()]"))
ferp("the number is not looked at", ("is_expansion(self.formula, &mapped, &self.formula.matrix[n as usize - 1])", "{ let _ = n; self.formula.matrix.iter().any(|clause| is_expansion(self.formula, &mapped, clause)) }"))
ferp("11 before 9", ("let mapped = looked_up(&self.map, literals).ok_or(9u64)?;", "let known: Vec<i64> = literals.iter().copied().filter(|l| self.map.contains_key(&l.abs())).collect();\n        let some = looked_up(&self.map, &known).unwrap();\n        let mapped = looked_up(&self.map, literals).ok_or(if is_expansion(self.formula, &some, &self.formula.matrix[n as usize - 1]) { 9u64 } else { 11 })?;"))
ferp("the proof need with 1 more", (NEEDED, "        need_clause(needs, &line.literals, 1);\n"))
ferp("the proof need with 3 more", (NEEDED, "        need_clause(needs, &line.literals, 3);\n"))
ferp("the proof need with the numbers as written", (NEEDED, "        need_clause(needs, &line.literals, if matches!(line.reason, Reason::Expansion(_)) { 2 } else { 3 });\n"))
ferp("a resolution needs no mark", (NEEDED, NEEDED + "        needs[4] -= usize::from(matches!(line.reason, Reason::Resolution(_)));\n"))
ferp("a resolution raises no values", (NEEDED, "        let values = needs[5];\n" + NEEDED + "        if matches!(line.reason, Reason::Resolution(_)) {\n            needs[5] = values;\n        }\n"))
ferp("an index raises values", (NEEDED, NEEDED + "        needs[5] = needs[5].max(line.index as usize);\n"))
ferp("a line refused 3 adds needs", (OUT_OF_RANGE, "        if self.out_of_range(&line) {\n            need_clause(needs, &line.literals, 2);\n            return Err(3);\n        }\n"))
ferp("a line refused 17 adds no needs", (USED, "        if self.clauses.contains_key(&line.index) {\n            needs[3] -= line.literals.len() + 2;\n            needs[4] -= 1;\n            return Err(17);\n        }\n"))
ferp("a line refused 16 adds no needs", ("                self.resolve(&line.literals, parents)?;\n", "                if let Err(number) = self.resolve(&line.literals, parents) {\n                    needs[3] -= line.literals.len() + 2;\n                    needs[4] -= 1;\n                    return Err(number);\n                }\n"))
ferp("index limit one less", ("INDEX_LIMIT: i64 = 65_536", "INDEX_LIMIT: i64 = 65_535"))
ferp("index limit one more", ("INDEX_LIMIT: i64 = 65_536", "INDEX_LIMIT: i64 = 65_537"))
ferp("an index above the limit unseen", ("line.index > INDEX_LIMIT || ", ""))
ferp("a parent above the limit is 16", ("Reason::Resolution(parents) => above(&parents, INDEX_LIMIT),", "Reason::Resolution(_) => false,"))
ferp("the second parent above the limit is 16", ("above(&parents, INDEX_LIMIT)", "above(&parents[..1], INDEX_LIMIT)"))
ferp("parents bound by C", ("above(&parents, INDEX_LIMIT)", "above(&parents, self.formula.matrix.len() as i64)"))
ferp("n above C is 11", ("n > self.formula.matrix.len() as i64,", "n > INDEX_LIMIT,"), ("let mapped = looked_up(", "if n > self.formula.matrix.len() as i64 { return Err(11); }\n        let mapped = looked_up("))
ferp("copies of a resolution above the limit are 16", ("|| above(&line.literals, COPY_LIMIT) ||", "|| matches!(line.reason, Reason::Expansion(_)) && above(&line.literals, COPY_LIMIT) ||"))
ferp("three numbers allowed", ("        [one, other] => Reason::Resolution([one, other]),", "        [one, other] | [one, other, _] => Reason::Resolution([one, other]),"))
ferp("no number is an expansion of clause 1", ("        [n] => Reason::Expansion(n),", "        [] => Reason::Expansion(1),\n        [n] => Reason::Expansion(n),"))
ferp("a minus index allowed", ("let index = positive(line[0])?;", "let index = literal(line[0])?.abs();"))
ferp("a minus number allowed", ("closed_list(&line[zero + 1..], positive)?", "closed_list(&line[zero + 1..], |token| literal(token).map(|n| n.abs()))?"))
ferp("an addition is passed over", ("            None => Err(2),\n", "            None if closed_list(&line, literal).is_some() => Ok(()),\n            None => Err(2),\n"))
ferp("deletions are passed over", ("            None => Err(2),\n", "            None if line[0] == b\"d\" => Ok(()),\n            None => Err(2),\n"))
ferp("o lines are passed over", ("            None => Err(2),\n", "            None if line[0] == b\"o\" => Ok(()),\n            None => Err(2),\n"))
ferp("mapping lines anywhere", (MAPPING_LATE, ""))
ferp("out of sequence after out of range", (MAPPING_LATE, ""), ("Some(Line::Mapping(mapping)) => map_copies(formula, mapping, lengths, needs, &mut proof.map),", "Some(Line::Mapping(mapping)) => { let late = !proof.clauses.is_empty(); match map_copies(formula, mapping, lengths, needs, &mut proof.map) { Ok(()) | Err(15) if late => Err(2), other => other } }"))
ferp("expansions before resolutions only", (JUDGE, "            Some(Line::Clause(line)) if counts.additions > 0 && matches!(line.reason, Reason::Expansion(_)) => Err(2),\n" + JUDGE))
ferp("skipped lines not counted", (LINE, "    for (index, line) in lines(file).into_iter().filter(|line| tokens(line).is_some()).enumerate() {\n"))
ferp("stops at the empty clause", (LINE, LINE + "        if proof.clauses.values().any(|clause| clause.is_empty()) { break; }\n"))
ferp("the last line must be the empty clause", (CLOSED, "    if lines(file).into_iter().filter_map(tokens).last().is_some_and(|line| line.get(1) == Some(&b\"0\".as_slice()) && line[0] != b\"x\") {\n"))
ferp("the empty clause by a resolution only", (CLOSED, "    if counts.additions > 0 && proof.clauses.values().any(|clause| clause.is_empty()) {\n"))
ferp("an empty matrix clause closes", (CLOSED, "    if formula.matrix.iter().any(|clause| clause.is_empty()) || proof.clauses.values().any(|clause| clause.is_empty()) {\n"))
ferp("not closed is accepted", (CLOSED, "    if true {\n"))
ferp("not closed names the last line", ("Err(Refusal { number: 14, line: 0 })", "Err(Refusal { number: 14, line: lines(file).len() as u64 })"))
ferp("resolutions counted as expansions", ("counts.additions += 1;", "counts.expansions += 1;"))
ferp("resolutions counted as deletions", ("counts.additions += 1;", "counts.deletions += 1;"))


MAIN = """
use outside::{corpus::Case, ferp_fixed, fixed, Kind};
type Run = fn(Kind, &[u8], &[u8], [usize; 6]) -> ([u64; 7], [usize; 6]);
fn differs(run: Run, kind: Kind, f: &[u8], c: &[u8], l: [usize; 6]) -> bool {
    let right = kind.check(f, c, l);
    match std::panic::catch_unwind(|| run(kind, f, c, l)) {
        Ok(found) => found != (right.verdict.fields(), right.needs),
        Err(_) => true,
    }
}
fn main() {
    std::panic::set_hook(Box::new(|_| {}));
    let count: u64 = std::env::args().nth(1).unwrap().parse().unwrap();
    let lists = [fixed::cases(), ferp_fixed::cases()];
    let corpora = Kind::ALL.map(|kind| (0..count).map(|i| Case::of(kind, 1, i)).collect::<Vec<_>>());
    let mut missed = 0;
    println!("      FERAT            FERP");
    println!("{:>6} {:>7}  {:>6} {:>7}  mistake ({} and {} fixed, {} corpus cases each)", "fixed", "corpus", "fixed", "corpus", lists[0].len(), lists[1].len(), count);
    for (name, kinds, run) in mutants() {
        let mut seen = true;
        for kind in Kind::ALL {
            let a = lists[kind as usize].iter().filter(|k| differs(run, kind, &k.formula, &k.certificate, k.lengths)).count();
            let b = corpora[kind as usize].iter().filter(|k| differs(run, kind, &k.formula, &k.certificate, k.lengths)).count();
            print!("{a:>6} {b:>7}  ");
            seen &= a > 0 && b > 0 || !kinds.contains(&kind.name());
        }
        println!("{name}");
        missed += usize::from(!seen);
    }
    println!("{missed} mistakes not seen by both");
}
"""


def mutated(source, name, changes):
    for old, new in changes:
        if old not in source:
            raise SystemExit("%s: nothing to change: %s" % (name, old))
        source = source.replace(old, new)
    return source


def main():
    sources = {}
    for file in ["reference.rs", "ferp.rs"]:
        with open(os.path.join(HERE, "src", file)) as f:
            sources[file] = f.read()
    with tempfile.TemporaryDirectory() as folder:
        os.makedirs(os.path.join(folder, "src"))
        with open(os.path.join(folder, "Cargo.toml"), "w") as f:
            f.write('[package]\nname = "mutants"\nversion = "0.1.0"\nedition = "2021"\n[dependencies]\noutside = { path = "%s" }\n[workspace]\n[profile.release]\nopt-level = 1\n' % HERE)
        modules, table = "", "fn mutants() -> Vec<(&'static str, &'static [&'static str], Run)> {\n    vec![\n"
        for n, (name, changes, changed, kinds) in enumerate(M):
            module = os.path.join(folder, "src", "m%d" % n)
            os.makedirs(module)
            for file, source in sources.items():
                with open(os.path.join(module, file), "w") as f:
                    f.write("#![allow(warnings)]\n" + (mutated(source, name, changes) if file == changed else source))
            modules += "mod m%d { pub mod reference; pub mod ferp; }\n" % n
            table += '        ("%s", &[%s], |k, f, c, l| { let r = if k == Kind::Ferat { m%d::reference::check(f, c, l) } else { m%d::ferp::check(f, c, l) }; (r.verdict.fields(), r.needs) }),\n' % (name, ", ".join('"%s"' % kind for kind in kinds), n, n)
        with open(os.path.join(folder, "src", "main.rs"), "w") as f:
            f.write(modules + table + "    ]\n}\n" + MAIN)
        subprocess.run(["cargo", "build", "-q", "--release", "--offline", "-j", "1"], cwd=folder, check=True)
        subprocess.run([os.path.join(os.environ.get("CARGO_TARGET_DIR", os.path.join(folder, "target")), "release", "mutants"), COUNT], check=True)


main()
