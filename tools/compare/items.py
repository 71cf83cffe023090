"""Certificates that several comparisons use: of random scripts, of random items, and changed ones.

`proved` gives a random script with the certificate that the reference writes for it.
`random_items` are of no script; `changed` changes items of a certificate, so that bytes stay well
formed. Items are as the reference's module `certificate` reads and writes them.
"""

import runs
import texts


def proved(rng, options, most):
    """A random script and the reference's certificate of it, of fewer bytes than `most`."""
    for _ in range(100):
        text = texts.script(rng)
        try:
            found = runs.answered({"a": text}, ["prove", "a", "--cert", "c"] + options)
        except runs.Skipped:
            continue
        if found.status == 0 and len(found.files["c"]) < most:
            return text, found.files["c"]
    raise runs.Skipped("no script is proved")


def in_version(cert, version):
    """The certificate in this version."""
    certificate = runs.module("certificate")
    return certificate.write(certificate.read(cert), version)


def with_damages(rng, cert, many):
    """The certificate in one of the versions, and so many damaged ones."""
    cert = in_version(cert, rng.choice([1, 2]))
    return [cert] + [texts.damaged(rng, cert, texts.BYTES) for _ in range(many)]


# -- random items


def grid_number(r):
    """A number of the grid, as a multiple of 2^-512."""
    if r.randrange(6) == 0:
        most = ((1 << 60) - 1) << 1024
        return r.choice([0, 1 << 512, -(1 << 512), 1, -1, most, -most])
    return r.randrange(-(1 << r.randrange(1, 60)), 1 << r.randrange(1, 60)) << r.randrange(0, 1024)


def random_interval(r):
    grid = runs.module("grid")
    a, b = sorted((grid_number(r), grid_number(r)))
    return (grid.LOW if r.random() < 0.15 else a, grid.HIGH if r.random() < 0.15 else b)


def random_size(r):
    """An interval of numbers that aren't negative."""
    a, b = sorted((abs(grid_number(r)), abs(grid_number(r))))
    return (a, runs.module("grid").HIGH if r.random() < 0.2 else b)


def random_fact(r):
    facts = runs.module("facts")
    x, y = r.randrange(0, 40), r.randrange(0, 1 << 16)
    k = r.randrange(6)
    if k == 0:
        return facts.VOID
    if k == 1:
        return (("B", x), random_interval(r))
    if k == 2:
        return (("A", y), random_size(r))
    if k == 3 and r.random() < 0.3:
        return (("R", x, y), facts.NONE)
    if k == 3:
        a, b = random_size(r)
        return (("R", x, y), (r.choice([a, 0, (1 << 453) - (1 << 512), -(1 << 511)]), b))
    if k == 4:
        return (("F", x), r.choice([-1024, 512, r.randrange(-1024, 513)]))
    return (("N", y), True)


def random_literal(r):
    return r.choice([
        ("lit", 0, 0, 0), ("lit", 1, 0, 8), ("lit", 7, 0, -30), ("lit", 3, 611, 0),
        ("lit", (1 << 100) - 1, 512, 0), ("lit", 10 ** 30 - 1, 0, r.randrange(-30, 9)),
        ("lit", 2 * r.randrange(1 << 99) + 1, r.randrange(-512, 513), 0)])


def random_node(r):
    k = r.randrange(9)
    x, y = r.randrange(0, 40), r.randrange(0, 1 << 16)
    if k == 0:
        return ("var", y)
    if k == 1:
        return random_literal(r)
    if k == 8:
        return ("rnd", r.choice(texts.DIRECTIONS), r.choice([-512, 512, r.randrange(-512, 513)]), x)
    if k in (2, 7):
        return ("neg" if k == 2 else "abs", y)
    return (["add", "sub", "mul", "div"][k - 3], x, y)


def random_step_number(r):
    return r.choice([r.randrange(50), r.randrange(1 << 64)])


def random_step(r):
    met = random_step_number(r) if r.random() < 0.3 else None
    premises = [random_step_number(r) for _ in range(r.choice([0, 1, 2, 3, 7]))]
    return ("Step", r.randrange(256), r.randrange(1 << 16), random_fact(r), met, premises)


def random_items(r):
    """Items in an order that certificates allow, of no script."""
    nodes, marks = r.randrange(6), r.randrange(4)
    items = [("Nodes", nodes)] + [("Node", random_node(r)) for _ in range(nodes)]
    items += [("Marks", marks)] + [("Mark", r.random() < 0.5) for _ in range(marks)]
    sections = 1
    if r.random() < 0.2:
        sections = r.choice([2, 3, 64])
        items.append(("Cases", sections))
    while sections:
        items += [random_step(r) for _ in range(r.randrange(4))]
        if sections < 12 and r.random() < 0.3:
            points = sorted({grid_number(r) for _ in range(r.choice([1, 2, 3, 63]))})
            items.append(("Cut", r.randrange(40), points))
            sections += len(points)
        elif r.random() < 0.3:
            items.append(("Dead", random_step_number(r)))
            sections -= 1
        else:
            items.append(("Leaf", [random_step_number(r) for _ in range(r.randrange(4))]))
            sections -= 1
    return items + [("End",)]


# -- changed items


def number_near(r, n, most):
    """A number of a step, a node or the like, mostly near one that is there."""
    return max(0, r.choice([n + 1, n - 1, n + 2, 0, most, most - 1, r.randrange(most + 2)]))


def interval_near(r, ends, least):
    """An interval of which an end is moved, or None where that is none."""
    grid = runs.module("grid")
    lo, hi = ends
    step = r.choice([1, 1 << 300, 1 << 500, 1 << 512])
    lo, hi = r.choice([(lo, hi + step), (lo - step, hi), (lo + step, hi), (lo, hi - step), (lo, lo),
                       (grid.LOW, hi), (lo, grid.HIGH), (grid.LOW, grid.HIGH)])
    lo = max(least, lo)
    return (lo, hi) if lo <= hi and lo != grid.HIGH and hi != grid.LOW else None


def fact_near(r, fact):
    facts = runs.module("facts")
    slot, value = fact
    k = r.randrange(5)
    if k == 0:
        return random_fact(r)
    if k == 1 and slot[0] in "BARFN":
        return ((slot[0],) + tuple(number_near(r, x, 20) for x in slot[1:]), value)
    if isinstance(value, tuple) and value != facts.NONE:
        moved = interval_near(r, value, 0 if slot[0] == "A" else runs.module("grid").LOW)
        if moved:
            return (slot, moved)
    if slot[0] == "F":
        return (slot, max(-1024, min(512, value + r.choice([-1, 1, 2, -30]))))
    return facts.VOID if r.random() < 0.2 else fact


def changed_step(r, item, steps):
    _, rule, arg, fact, met, premises = item
    premises = list(premises)
    k = r.randrange(7)
    if k == 0:
        near = [rule + 1, abs(rule - 1), 100, 101, 102, r.randrange(1, 93)]
        rule = r.choice(near) % 256
    elif k == 1:
        arg = number_near(r, arg, 4)
    elif k <= 3:
        fact = fact_near(r, fact)
    elif k == 4:
        met = None if met is not None and r.random() < 0.5 else r.randrange(steps + 1)
    elif premises and r.random() < 0.8:
        p = r.randrange(len(premises))
        premises[p] = number_near(r, premises[p], steps)
    elif premises and r.random() < 0.5:
        premises.reverse()
    else:
        premises.append(r.randrange(steps + 1))
    return ("Step", rule, arg, fact, met, premises)


def changed_leaf(r, item, steps):
    cited = list(item[1])
    if r.random() < 0.15:
        return ("Dead", r.randrange(steps + 1))
    if cited and r.random() < 0.8:
        p = r.randrange(len(cited))
        cited[p] = number_near(r, cited[p], steps)
    elif r.random() < 0.5:
        cited.append(r.randrange(steps + 1))
    else:
        cited = cited[1:]
    return ("Leaf", cited)


def changed_dead(r, item, steps):
    if r.random() < 0.3:
        return ("Leaf", [r.randrange(steps + 1)])
    return ("Dead", number_near(r, item[1], steps))


def changed_cut(r, item, steps):
    node, points = item[1], list(item[2])
    if r.random() < 0.4:
        return ("Cut", number_near(r, node, 12), points)
    p = r.randrange(len(points))
    points[p] += r.choice([1, -1]) * r.choice([1, 1 << 500, 1 << 512])
    return ("Cut", node, sorted(set(points)))


def changed_node(r, item, steps):
    return ("Node", random_node(r))


CHANGES = {"Step": changed_step, "Leaf": changed_leaf, "Dead": changed_dead, "Cut": changed_cut,
           "Node": changed_node, "Mark": lambda r, item, steps: ("Mark", not item[1])}


def with_a_node_more(r, items):
    n = items[0][1]
    near = [("sub", r.randrange(n + 1), r.randrange(n + 1)), ("var", r.randrange(4)),
            ("neg", r.randrange(n + 1)), ("mul", r.randrange(n + 1), r.randrange(n + 2))]
    at = 1 + n if r.random() < 0.7 else r.randrange(1, n + 2)
    node = ("Node", r.choice(near + [random_node(r)]))
    return [("Nodes", n + 1)] + items[1:at] + [node] + items[at:]


def with_other_marks(r, items):
    """The items with a mark more, or one fewer."""
    at = next(k for k, item in enumerate(items) if item[0] == "Marks")
    many = items[at][1]
    if many and r.random() < 0.5:
        return items[:at] + [("Marks", many - 1)] + items[at + 2:]
    more = [("Marks", many + 1), ("Mark", r.random() < 0.5)]
    return items[:at] + more + items[at + 1:]


def changed(r, items):
    """The items with one or two of them changed, left out or added."""
    items = list(items)
    for _ in range(1 if r.random() < 0.7 else 2):
        k = r.random()
        if k < 0.05:
            items = with_a_node_more(r, items)
            continue
        if k < 0.1:
            items = with_other_marks(r, items)
            continue
        kinds = ("Step", "Leaf", "Dead", "Cut") if k < 0.7 else tuple(CHANGES)
        at = r.choice([n for n, item in enumerate(items) if item[0] in kinds])
        steps = sum(1 for item in items if item[0] == "Step")
        items[at] = CHANGES[items[at][0]](r, items[at], steps)
    return items
