"""Scripts with certificates whose steps are by one rule, again and again, for `costs.py`.

`certificate(row, many)` gives the script and the certificate of a row of `RULES` as bytes. `check`
accepts both: the certificate has `many` steps by the rule, which cite up to 16 lists of premises
in turn. Numbers and items are those of the package `reference`.
"""

import os
import sys
from collections import namedtuple

sys.path.append(os.path.dirname(os.path.dirname(os.path.abspath(__file__))))
from reference import certificate as writing  # noqa: E402
from reference import facts, grid, parser, rules  # noqa: E402
from reference.dag import Dag  # noqa: E402

# How many lists of premises a rule has.
LISTS = 16

# A rule: its number, what it is about, the slots of its premises, and that of its conclusion. A
# slot is a kind (B, A, R, F, N, V as in facts.py) and the names of its expressions.
Rule = namedtuple("Rule", "number about premises target")

# The expressions, each by its name: what is made of the leaves, in the order of the list.
LEAVES = {"x": 0, "y": 1, "z": 2, "w": 3}
NODES = [
    ("0.1", "lit", 1, 0, -1), ("0.5", "lit", 5, 0, -1), ("-x", "neg", "x"), ("-z", "neg", "z"),
    ("|x|", "abs", "x"), ("dn(x)", "rnd", "dn", -40, "x"), ("zr(x)", "rnd", "zr", -40, "x"),
    ("x+y", "add", "x", "y"), ("x-y", "sub", "x", "y"), ("x*y", "mul", "x", "y"),
    ("x/y", "div", "x", "y"), ("x-x", "sub", "x", "x"), ("x*x", "mul", "x", "x"),
    ("x/x", "div", "x", "x"), ("z+w", "add", "z", "w"), ("z-w", "sub", "z", "w"),
    ("z*w", "mul", "z", "w"), ("z/w", "div", "z", "w"), ("dn(x)-x", "sub", "dn(x)", "x"),
    ("zr(x)-x", "sub", "zr(x)", "x"), ("x-z", "sub", "x", "z"), ("y-w", "sub", "y", "w"),
    ("y-z", "sub", "y", "z"), ("z-y", "sub", "z", "y"), ("(x+y)-(z+w)", "sub", "x+y", "z+w"),
    ("(x-y)-(z-w)", "sub", "x-y", "z-w"), ("x*y-z*w", "sub", "x*y", "z*w"),
    ("-x--z", "sub", "-x", "-z"), ("z/(z+w)", "div", "z", "z+w"),
]

RULES = [Rule(number, about, premises.split(), target) for number, about, premises, target in [
    (1, "a literal", "", "B:0.1"),
    (2, "a negation", "B:x", "B:-x"),
    (3, "a sum", "B:x B:y", "B:x+y"),
    (4, "a difference", "B:x B:y", "B:x-y"),
    (5, "a difference with itself", "B:x", "B:x-x"),
    (6, "a product", "B:x B:y", "B:x*y"),
    (7, "a square", "A:x", "B:x*x"),
    (8, "a quotient", "B:x B:y", "B:x/y"),
    (9, "a quotient by what isn't 0", "B:x N:y", "B:x/y"),
    (10, "a quotient by itself", "N:x", "B:x/x"),
    (11, "the size of a value", "B:x", "A:x"),
    (12, "a value by its size", "A:x", "B:x"),
    (13, "a value by its size and sign", "B:x A:x", "B:x"),
    (14, "an absolute value", "A:x", "B:|x|"),
    (15, "the size of what stands in bars", "B:|x|", "A:x"),
    (16, "the size of a negation", "A:x", "A:-x"),
    (17, "the size of a product", "A:x A:y", "A:x*y"),
    (18, "the size of a quotient", "A:x A:y", "A:x/y"),
    (19, "the size of a sum", "A:x A:y", "A:x+y"),
    (21, "a literal is a multiple", "", "F:0.5"),
    (22, "a multiple's negation", "F:x", "F:-x"),
    (23, "a sum of multiples", "F:x F:y", "F:x+y"),
    (24, "a product of multiples", "F:x F:y", "F:x*y"),
    (25, "a rounding is a multiple", "B:x", "F:dn(x)"),
    (26, "a rounding that changes nothing", "F:x", "F:dn(x)"),
    (27, "a number's last digit", "B:x", "F:x"),
    (28, "the multiples in an interval", "B:x F:x", "B:x"),
    (31, "not 0 by its bounds", "B:x", "N:x"),
    (32, "not 0 by its size", "A:x", "N:x"),
    (33, "a product of what isn't 0", "N:x N:y", "N:x*y"),
    (34, "a quotient of what isn't 0", "N:x N:y", "N:x/y"),
    (35, "a negation of what isn't 0", "N:x", "N:-x"),
    (36, "not 0 by its relative error", "R:x,y N:x", "N:y"),
    (41, "a rounded value", "B:x", "B:dn(x)"),
    (42, "a rounding's error", "B:x", "B:dn(x)-x"),
    (43, "the error by the sign", "B:x", "B:zr(x)-x"),
    (44, "the error of a multiple", "F:x", "B:dn(x)-x"),
    (51, "a value with itself", "B:x", "R:x,x"),
    (52, "a difference by the second value", "B:x-z B:z", "R:x,z"),
    (53, "a difference by its relative error", "R:x,z B:z", "B:x-z"),
    (54, "a value by its relative error", "R:x,z B:z", "B:x"),
    (55, "a quotient by its relative error", "R:x,y N:y", "B:x/y"),
    (56, "relative errors of products", "R:x,z R:y,w", "R:x*y,z*w"),
    (57, "relative errors of quotients", "R:x,z R:y,w N:w", "R:x/y,z/w"),
    (58, "relative errors in a chain", "R:x,y R:y,z", "R:x,z"),
    (59, "a relative error turned round", "R:x,y", "R:y,x"),
    (60, "relative errors of negations", "R:x,z", "R:-x,-z"),
    (61, "relative errors of sums", "R:x,z R:y,w B:z/(z+w)", "R:x+y,z+w"),
    (71, "a difference of sums", "B:x-z B:y-w", "B:(x+y)-(z+w)"),
    (72, "a difference of differences", "B:x-z B:y-w", "B:(x-y)-(z-w)"),
    (73, "a difference of products", "B:x B:y-w B:x-z B:w", "B:x*y-z*w"),
    (74, "a difference of negations", "B:x-z", "B:-x--z"),
    (75, "a difference through a third", "B:x-y B:y-z", "B:x-z"),
    (76, "a difference against a third", "B:x-y B:z-y", "B:x-z"),
    (77, "the first value by a difference", "B:y B:x-y", "B:x"),
    (78, "the second value by a difference", "B:x B:x-y", "B:y"),
    (80, "a hint", "B:y", "B:x"),
    (90, "no multiple is left", "B:x F:x", "V"),
    (91, "0 and not 0", "B:x N:x", "V"),
    (92, "both 0 and not 0", "R:x,y N:y", "V"),
]]


class Draw:
    """Pseudo-random numbers that are the same in each version of Python."""

    def __init__(self):
        self.bits = 88172645463325252 << 64

    def next(self, many):
        """The next number from 0, below `many`."""
        self.bits = (self.bits * 6364136223846793005 + 1442695040888963407) % (1 << 128)
        return (self.bits >> 64) % many

    def size(self, scale, bits):
        """A number of so many binary digits, from 2^(scale - 8) up to 2^scale: a pair m, e."""
        odd = self.next(1 << bits - 2) * 2 + (1 << bits - 1) + 1
        return odd, scale - bits - self.next(8)

    def interval(self, side, scale, bits=60):
        """An interval as two numbers, above 0 (+), below it (-), around it (0) or a point (.)."""
        low, high = sorted([self.size(scale, bits), self.size(scale, bits)], key=value)
        if side == "-":
            return minus(high), minus(low)
        return {"0": (minus(low), high), "+": (low, high), ".": (low, low)}[side]


def minus(number):
    """The number m * 2^e with the other sign."""
    return -number[0], number[1]


def value(number):
    """The number m * 2^e as a multiple of 2^-512."""
    return number[0] << (grid.SHIFT + number[1])


def spelled(interval):
    """An interval as a script has it."""
    return "[%s]" % ",".join("%db%d" % number for number in interval)


class Premises:
    """The premises of a rule's lists: claims of a script, and the steps that conclude them."""

    def __init__(self, rule, bits, places):
        self.rule, self.bits, self.places, self.draw, self.made = rule, bits, places, Draw(), []
        # The variables are claimed first, so that their numbers are those of `LEAVES`.
        self.claims = ["%s in [-2,2]" % name for name in LEAVES]

    def side(self, place, slot):
        """On which side of 0 the interval of a premise lies."""
        number, kind = self.rule.number, slot[0]
        if kind == "N" or slot == "B:z/(z+w)":
            return "+"
        if kind == "A" or slot == "B:|x|":
            return "+"
        if number == 27:
            return "."
        if number in (13, 31, 43) or (number in (8, 52) and place == 1):
            return "+-"[self.draw.next(2)]
        return "+-00"[self.draw.next(4)]

    def claim(self, place, slot):
        """The claim that gives a premise, as a text."""
        kind, _, names = slot.partition(":")
        number = self.rule.number
        if kind == "F":
            return "@FIX(%s,%d)" % (names, -45 if number == 44 else -30)
        if number == 91 and kind == "B":
            return "%s in [0,0]" % names
        if number == 90 and kind == "B":
            return "%s in [806515533049393303b-60,806515533049393305b-60]" % names
        if kind == "R":
            x, y = names.split(",")
            if number == 92:
                return "%s -/ %s in [1b-9,1b-8]" % (x, y)
            return "%s -/ %s in %s" % (
                x, y, spelled(self.draw.interval(self.side(place, slot), -20, self.bits)))
        scale = -20 if number == 52 and place == 0 else -self.places if place == 1 else 0
        return "%s in %s" % (
            names, spelled(self.draw.interval(self.side(place, slot), scale, self.bits)))

    def fill(self):
        """Draws all lists, each as numbers of claims."""
        for _ in range(LISTS):
            row = []
            for place, slot in enumerate(self.rule.premises):
                claim = self.claim(place, slot)
                if claim not in self.claims:
                    self.claims.append(claim)
                row.append(self.claims.index(claim))
            if row not in self.made:
                self.made.append(row)
        return self


def text_of(claims):
    """The script with these claims, and a hint."""
    return ("{ %s -> x in ? } x -> y;\n" % " /\\ ".join(claims)).encode()


def with_nodes(dag):
    """The list of nodes with all of `NODES`, and the number of each by its name."""
    dag = Dag(dag.nodes)
    known = {name: dag.add(("var", number)) for name, number in LEAVES.items()}
    for name, *node in NODES:
        literal = node[0] == "lit"
        known[name] = dag.add(tuple(node if literal else [known.get(it, it) for it in node]))
    return dag, known


class Steps:
    """The steps of a certificate and the facts that they state."""

    def __init__(self, script):
        self.script, self.given = script, script.facts()
        self.dag, self.known = with_nodes(script.dag)
        self.hints = [rules.HintRow(self.known["x"], self.known["y"], [], [])]
        self.items, self.facts = [], []

    def add(self, rule, arg, fact, met, premises):
        """One more step, and its number."""
        self.items.append(("Step", rule, arg, fact, met, tuple(premises)))
        self.facts.append(fact)
        return len(self.facts) - 1

    def slot(self, slot):
        """A slot of `RULES` by numbers of nodes."""
        kind, _, names = slot.partition(":")
        if kind == "V":
            return facts.VOID_SLOT
        return (kind,) + tuple(self.known[name] for name in names.split(","))

    def concluded(self, number, premises, target):
        """What a rule gives by the facts of steps."""
        return rules.conclude(self.dag, self.hints, number, 0,
                              [self.facts[step] for step in premises], target)

    def premise(self, number, slot, claim):
        """The step that states a premise by its claim."""
        step = self.add(100, claim, self.given[claim], None, ())
        if number == 92 and slot[0] == "R":
            # what says two things that nothing meets says that both sides are 0
            other = next(k for k, fact in enumerate(self.given) if fact[0] == self.given[claim][0]
                         and facts.meet(fact, self.given[claim])[1] == facts.NONE)
            return self.add(100, other, (self.given[claim][0], facts.NONE), step, ())
        rule = {"N": 31, "A": 11}.get(slot[0])
        if rule is None:
            return step
        target = self.slot(slot)
        return self.add(rule, 0, self.concluded(rule, [step], target), None, [step])


def certificate(rule, many, bits=60, places=0, version=2):
    """The script and the certificate of a rule with so many steps by it, as bytes.

    Ends of premises have so many binary digits, and those of the second are so many places below
    those of the first, at most 440. A list of premises by which the rule gives nothing is left
    out."""
    made = Premises(rule, bits, places).fill()
    if rule.number == 92:
        made.claims.append("x -/ y in [1b-6,1b-5]")
    text = text_of(made.claims)
    script = parser.parse(text)
    steps = Steps(script)
    target, rows, known = steps.slot(rule.target), [], {}
    for row in made.made:
        for slot, claim in zip(rule.premises, row):
            if (slot, claim) not in known:
                known[slot, claim] = steps.premise(rule.number, slot, claim)
        premises = [known[slot, claim] for slot, claim in zip(rule.premises, row)]
        fact = steps.concluded(rule.number, premises, target)
        if fact is not None:
            rows.append((premises, fact))
    goal = steps.add(100, 0, steps.given[0], None, ())
    for k in range(many):
        premises, fact = rows[k % len(rows)]
        steps.add(rule.number, 0, fact, None, premises)
    items = [("Nodes", len(steps.dag))] + [("Node", node) for node in steps.dag.nodes]
    items += [("Marks", 1), ("Mark", False)] + steps.items + [("Leaf", [goal]), ("End",)]
    return text, writing.write(items, version)
