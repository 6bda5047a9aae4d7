"""Unfolds a DRAT proof into binary resolutions, for FERP.

Each addition must be RUP. It is propagated from the negations of its
literals; the clause that becomes false is resolved backward along the trail
with the reasons, and each resolvent is a step of its own. The last one holds
no literal that the addition has not; where it is a proper subset, it stands
for the addition from then on, and where the false clause itself is one, no
step is made. Deletions are passed over, since FERP has none.
"""


class Clauses:
    """Clauses for propagation; each is watched at two of its literals."""

    def __init__(self):
        self.list = []
        self.units = []
        self.watching = {}

    def add(self, clause):
        place = len(self.list)
        self.list.append(list(clause))
        if len(clause) < 2:
            self.units.append(place)
        for literal in clause[:2]:
            self.watching.setdefault(literal, []).append(place)
        return place

    def visit(self, literal, reasons, trail):
        """After `literal` became false: a false clause's place, or None."""
        kept = []
        places = self.watching.get(literal, [])
        for at, place in enumerate(places):
            clause = self.list[place]
            if clause[0] == literal and len(clause) > 1:
                clause[0], clause[1] = clause[1], clause[0]
            if clause[0] in reasons:
                kept.append(place)
                continue
            free = next((i for i in range(2, len(clause)) if -clause[i] not in reasons), None)
            if free is not None:
                clause[1], clause[free] = clause[free], clause[1]
                self.watching.setdefault(clause[1], []).append(place)
                continue
            kept.append(place)
            if -clause[0] in reasons or len(clause) == 1:
                self.watching[literal] = kept + places[at + 1:]
                return place
            reasons[clause[0]] = place
            trail.append(clause[0])
        self.watching[literal] = kept
        return None

    def refute(self, literals):
        """A false clause's place, the true literals in order, and the place
        of each one's reason, from the negations of these literals; None if
        propagation is stable."""
        reasons = {-literal: None for literal in literals}
        trail = list(reasons)
        for place in self.units:
            unit = self.list[place]
            if not unit or -unit[0] in reasons:
                return place, trail, reasons
            if unit[0] not in reasons:
                reasons[unit[0]] = place
                trail.append(unit[0])
        done = 0
        while done < len(trail):
            conflict = self.visit(-trail[done], reasons, trail)
            if conflict is not None:
                return conflict, trail, reasons
            done += 1
        return None


def resolvent(one, other, literal):
    """`one` holds the literal, `other` its negation."""
    return list(dict.fromkeys([l for l in one if l != literal] + [l for l in other if l != -literal]))


def derive(clauses, steps, places, addition):
    """The place in `clauses` of a clause that is a subset of the addition;
    the steps to it are written. `places` has the step of each clause."""
    found = clauses.refute(addition)
    if found is None:
        raise SystemExit("not RUP: %s" % addition)
    conflict, trail, reasons = found
    step, clause = places[conflict], steps[places[conflict]][0]
    for literal in reversed(trail):
        if -literal in clause and reasons[literal] is not None:
            other = places[reasons[literal]]
            clause = resolvent(clause, steps[other][0], -literal)
            steps.append((clause, (step, other)))
            step = len(steps) - 1
    if step != places[conflict]:
        conflict = clauses.add(clause)
        places.append(step)
    return conflict


def unfold(expanded, drat):
    """Steps: literals, and the number of a matrix clause or the places of two
    earlier steps. `expanded` has the first of them: literals and number. The
    last step is the empty clause."""
    clauses, steps, places = Clauses(), [], []
    for literals, number in expanded:
        steps.append((literals, (number,)))
        clause = list(dict.fromkeys(literals))
        if not any(-l in clause for l in clause):
            clauses.add(clause)
            places.append(len(steps) - 1)
    for text in drat:
        if text.startswith("d"):
            continue
        place = derive(clauses, steps, places, [int(t) for t in text.split()[:-1]])
        if not clauses.list[place]:
            return steps[:places[place] + 1]
    raise SystemExit("no empty clause")


def reordered(steps, order):
    """These steps in this order."""
    place = {old: new for new, old in enumerate(order)}
    return [(literals, reason if len(reason) == 1 else tuple(place[p] for p in reason))
            for literals, reason in (steps[old] for old in order)]


def needed(steps):
    """The steps that the last one rests on."""
    marked = {len(steps) - 1}
    for place in reversed(range(len(steps))):
        if place in marked and len(steps[place][1]) == 2:
            marked.update(steps[place][1])
    return reordered(steps, sorted(marked))


def late(steps):
    """Each expansion directly before its first use; those without a use are
    left out."""
    used = [p for place, (_, reason) in enumerate(steps) if len(reason) == 2 for p in (*reason, place)]
    return reordered(steps, list(dict.fromkeys(used)) or range(len(steps)))


def lines(steps, indexes):
    """The clause lines with these indexes."""
    def line(place, literals, reason):
        named = reason if len(reason) == 1 else [indexes[p] for p in reason]
        return " ".join(str(n) for n in [indexes[place], *literals, 0, *named, 0])
    return [line(place, *step) for place, step in enumerate(steps)]
