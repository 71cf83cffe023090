"""The corner form: hints by which what has degree 1 in each of its operands keeps the range of its
corners.

x + (z - x) * k with all three in [0,1] is in [0,1], and by intervals in [-1,2]. Written as 1 - ((1
- x) * (1 - k) + (1 - z) * k) it is at most 1, since each factor is at least 0; from below it is
the same. In general f = high - (high - f), and high - f is a sum of products of (v - low), (high -
v) and of what has degree 1.
"""

from fractions import Fraction

from hint_pairs import Pairs
from hint_texts import TooLong


def joined_parts(p):
    """The polynomial's parts that share no atom: [(atoms, polynomial)]; the constant is one of
    its own."""
    parts = []
    for m, c in sorted(p.items()):
        atoms, one = {atom for atom, _ in m}, {m: c}
        for old in [part for part in parts if part[0] & atoms]:
            parts.remove(old)
            atoms |= old[0]
            one.update(old[1])
        parts.append((atoms, one))
    return parts


def linear(p):
    """Whether each monomial has at most one atom."""
    return all(sum(power for _, power in m) <= 1 for m in p)


def fits(part, most=8, work=1500):
    """Whether a part has degree 1 in each of a few operands, and isn't linear, so that its
    corners are worth the work."""
    if linear(part) or any(power != 1 for m in part for _, power in m):
        return False
    curved = {atom for m in part if len(m) > 1 for atom, _ in m}
    return len({atom for m in part for atom, _ in m}) <= most and len(part) << len(curved) <= work


def at_end(p, atom, end):
    """The polynomial with a number for an atom."""
    made = {}
    for m, c in p.items():
        rest, factor = [], c
        for x, power in m:
            if x == atom:
                factor *= end**power
            else:
                rest.append((x, power))
        made[tuple(rest)] = made.get(tuple(rest), 0) + factor
    return {m: c for m, c in made.items() if c}


def corners(p, ranges):
    """The least and the greatest value at the corners of the ranges."""
    count = {}
    for m in p:
        if len(m) > 1:
            for atom, _ in m:
                count[atom] = count.get(atom, 0) + 1
    if not count:
        low = high = p.get((), Fraction(0))
        for m, c in p.items():
            if m:
                ends = [c * end for end in ranges[m[0][0]]]
                low, high = low + min(ends), high + max(ends)
        return low, high
    most = max(sorted(count), key=lambda atom: count[atom])
    found = [corners(at_end(p, most, end), ranges) for end in ranges[most]]
    return min(low for low, _ in found), max(high for _, high in found)


def by_horner(p, ranges):
    """The interval that the text of `Patterns.horner` gives by intervals."""
    count = {}
    for m in p:
        for atom, _ in m:
            count[atom] = count.get(atom, 0) + 1
    if not count:
        return (p.get((), Fraction(0)),) * 2
    most = max(sorted(count), key=lambda atom: count[atom])
    if count[most] == 1 or len(p) == 1:
        low = high = Fraction(0)
        for m, c in p.items():
            one = (c, c)
            for atom, power in m:
                for _ in range(power):
                    ends = [a * b for a in one for b in ranges[atom]]
                    one = min(ends), max(ends)
            low, high = low + one[0], high + one[1]
        return low, high
    inside, rest = {}, {}
    for m, c in p.items():
        powers = dict(m)
        if most in powers:
            powers[most] -= 1
            inside[tuple(sorted((a, n) for a, n in powers.items() if n))] = c
        else:
            rest[m] = c
    ends = [a * b for a in by_horner(inside, ranges) for b in ranges[most]]
    more = by_horner(rest, ranges) if rest else (0, 0)
    return min(ends) + more[0], max(ends) + more[1]


def shortened(end, up, digits=24):
    """An end with at most so many binary digits, outward."""
    size = abs(end)
    if size == 0:
        return end
    power = size.numerator.bit_length() - size.denominator.bit_length() - digits + 8
    if size.denominator & (size.denominator - 1) == 0 and size.numerator.bit_length() <= digits:
        return end
    unit = Fraction(2) ** power
    scaled = end / unit
    floor = scaled.numerator // scaled.denominator
    return (floor if not up or floor == scaled else floor + 1) * unit


def evened(ranges):
    """Ranges with ends that are nearly equal made equal, outward, so that less is to be told
    apart."""
    made = {}
    sizes = {abs(end) for low, high in ranges.values() for end in (low, high)}
    same = {}
    for size in sorted(sizes, reverse=True):
        near = [s for s in same if size and s - size <= s / 1000]
        same[size] = near[0] if near else size
        same.setdefault(same[size], same[size])
    for atom, (low, high) in ranges.items():
        made[atom] = (-same[-low] if low < 0 else low, same[high] if high > 0 else high)
    return made


def rounder(part, ranges):
    """Ranges whose ends are 0 or powers of two if the corners stay as they are with these: 255
    becomes 256. All ends are tried at once, then each by itself."""
    wide, changes = corners(part, ranges), []
    for atom, (low, high) in sorted(ranges.items()):
        for end in (low, high):
            size = Fraction(2) ** (
                abs(end).numerator.bit_length() - abs(end).denominator.bit_length()
            )
            size = size if size >= abs(end) else 2 * size
            if end and size != abs(end) and (end == low) == (end < 0):
                changes.append((atom, end == low, -size if end == low else size))
    for some in [changes] + [[change] for change in changes]:
        more = dict(ranges)
        for atom, is_low, end in some:
            more[atom] = (end, more[atom][1]) if is_low else (more[atom][0], end)
        if corners(part, more) == wide:
            ranges = more
            if some is changes:
                break
    return ranges


class Corners(Pairs):
    """Corner forms of the goals, of their operands and of what `pair_hints` gives."""

    def targets(self, pairs, goals):
        """[(left text, polynomial)]: what a corner form may serve. These are the values of goals
        that aren't pairs, one level down and whole, those of their operands, one level down, and
        what `pair_hints` gave."""
        found, seen, pair = [], set(), {left for left, _, _ in pairs}
        todo = [at for at in goals if self.text(at, 0, True) not in pair]
        while todo:
            at = todo.pop(0)
            if at in seen or self.kind(at) in ("var", "lit"):
                continue
            seen.add(at)
            below = self.script.below([at]) - {at}
            named = {k for k in below if k in self.name and self.kind(k) != "lit"}
            todo += sorted(named, reverse=True)
            left = self.name.get(at) or self.text(at, 0, True)
            whole = at in goals and any(self.kind(k) != "var" for k in named)
            for stops in (named, set()) if whole else (named,):
                for kept in ((), self.bounded) if self.bounded & below else ((),):
                    try:
                        found.append((left, self.level(at, stops, kept)))
                    except TooLong:
                        pass
        return found + [(left, p) for left, p, _ in pairs if p is not None]

    def wanted(self, p):
        """The texts of the atoms whose ranges a corner form of the polynomial needs: {atom:
        text}."""
        found = {}
        for atoms, part in joined_parts(p):
            if fits(part):
                for atom in atoms:
                    found[atom] = self.atom(atom, 0)
        return found

    def corner_texts(self, p, ranges):
        """The polynomial from above and from below, by the corners of each part that these
        serve."""
        texts, better = {False: [], True: []}, False
        for atoms, part in joined_parts(p):
            if fits(part) and all(atom in ranges for atom in atoms):
                some = rounder(part, evened({atom: ranges[atom] for atom in atoms}))
                low, high = corners(part, some)
                near = by_horner(part, {atom: ranges[atom] for atom in atoms})
                if high - low < (near[1] - near[0]) * Fraction(99, 100):
                    better = True
                    for up, sign, end in ((True, -1, high), (False, 1, low)):
                        rest = (
                            self.plus({(): end} if end else {}, part, -1)
                            if up
                            else self.plus(part, {(): end}, -1)
                        )
                        texts[up].append((end < 0, self.number(abs(end), 1) if end else ""))
                        texts[up].append((up, self.products(rest, some)))
                    continue
            for up in (True, False):
                texts[up].append((False, self.horner(part, 2)))
        if not better:
            return []
        return [
            self.joined(
                [
                    (minus, "(" + text + ")" if minus and " " in text else text)
                    for minus, text in some
                    if text
                ],
                0,
            )
            for some in (texts[True], texts[False])
        ]

    def products(self, p, ranges):
        """What is at least 0 at each corner, as a sum of products of such things."""
        if linear(p):
            return self.horner(p, 0, False)
        count = {}
        for m in p:
            if len(m) > 1:
                for atom, _ in m:
                    count[atom] = count.get(atom, 0) + 1
        most = max(sorted(count), key=lambda atom: (count[atom], -len(self.atom(atom, 0))))
        low, high = ranges[most]
        parts = []
        for end, text in (
            (low, self.linear_text(most, -1, high)),
            (high, self.linear_text(most, 1, -low)),
        ):
            rest = at_end(p, most, end)
            rest = {m: c / (high - low) for m, c in rest.items()}
            if not rest:
                continue
            if rest == {(): 1}:
                parts.append(text)
                continue
            inner = self.products(rest, ranges)
            parts.append(
                "%s * %s" % (text, "(" + inner + ")" if " " in inner or inner[0] == "-" else inner)
            )
        return " + ".join(parts)

    def linear_text(self, atom, sign, end):
        """sign * atom + end, as a factor."""
        if sign == 1:
            return "(" + self.atom(atom, 1) + self.added(end) + ")" if end else self.atom(atom, 3)
        return (
            "(%s - %s)" % (self.number(end, 1), self.atom(atom, 2))
            if end
            else "(-%s)" % self.atom(atom, 3)
        )

    def corner_hints(self, targets, ranges):
        """Hints by corner forms, for targets [(left, polynomial)] and ranges {atom: (low, high)}:
        {(target, up): hint}."""
        found = {}
        for number, (left, p) in enumerate(targets):
            try:
                for up, text in enumerate(self.corner_texts(p, ranges)):
                    found[number, up] = "%s -> %s;" % (left, text)
            except TooLong:
                continue
        return found
