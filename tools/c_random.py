#!/usr/bin/env python3
"""Makes random routines in C over what `from_c` serves, and judges its verdicts.

    tools/c_random.py COUNT SEED [--program FILE] [--quick] [--keep DIR]

Each routine is a tree that c_meaning.py evaluates and that gcc compiles; c_judged.py compares. With
`--quick` the program isn't run: the goals of the paths are held against the events. What differs is
printed, and kept in the folder. The status is 1 if something differs.
"""

import sys

sys.dont_write_bytecode = True
import assistants as shared  # noqa: E402
from c_meaning import INT  # noqa: E402
from c_random_statements import Statements  # noqa: E402
from c_random_trees import (  # noqa: E402
    KINDS, E, Function, S, Var, hull, inside, span)


class Routine(Statements):
    """One routine: `text` without its ranges, `ranges` {group: (low, high)}, `inputs` [(key, group,
    type)], and what Meaning takes: tables, globals, params, body, back."""

    def __init__(self, seed):
        Statements.__init__(self, seed)
        self.seed, self.lines, self.ranges, self.sizes = seed, [], {}, {}
        self.tables, self.globals = [], []
        self.file()
        self.inputs = []
        for name, sort in self.globals + [(p.name, p.sort) for p in self.params]:
            self.listed(name, name, sort)

    def listed(self, key, group, sort):
        if isinstance(sort, dict):
            for f, kind in sort.items():
                self.listed("%s_%s" % (key, f), "%s_%s" % (group, f), kind)
        elif isinstance(sort[0], tuple):
            for k in range(sort[1]):
                self.listed("%s_%d" % (key, k), group, sort[0])
        else:
            self.inputs.append((key, group, sort))

    # -- the file

    def file(self):
        top = self.scopes[0]
        self.lines.append("#include <stdint.h>")
        self.lines.append("typedef int16_t q15; typedef int32_t q31;")
        for name, text in (("SCALE", "(a, b) (((a) * (b)) >> 4)"),
                           ("LEAST", "(a, b) ((a) < (b) ? (a) : (b))"),
                           ("MOST", "(a, b) ((a) > (b) ? (a) : (b))")):
            if self.odds(0.4):
                self.macros.append(name)
                self.lines.append("#define %s%s" % (name, text))
        if self.odds(0.3):
            n = self.one([3, 15, 100, 1000])
            self.lines.append("enum { FIRST = %d, NEXT, LAST = NEXT * 2 };" % n)
            self.fixed += [E("lit", INT, (x, x), t, 16, (), x)
                           for t, x in (("FIRST", n), ("NEXT", n + 1), ("LAST", 2 * n + 2))]
        for name in self.chance.sample(["k", "m", "n"], self.one([0, 0, 1, 2])):
            kind = self.one(KINDS[:9])
            x = self.chance.randint(1, 100)
            self.lines.append("%sconst %s %s = %d;" % (self.one(["", "static "]),
                                                       self.spelled(kind), name, x))
            self.fixed.append(E("lit", kind, (x, x), name, 16, (), x))
        if self.odds(0.4):
            kind = self.one(KINDS[:7])
            some = [self.chance.randint(*span(kind)) >> self.chance.randint(0, 6)
                    for _ in range(8)]
            self.lines.append("static const %s tab[8] = { %s };" % (
                self.spelled(kind), ", ".join("%d" % max(x, -2 ** 31 + 1) for x in some)))
            some = [max(x, -2 ** 31 + 1) for x in some]
            self.tables.append(("tab", some, kind))
            top["tab"] = Var("tab", kind, (min(some), max(some)), size=8, left=False, text="table")
        if self.odds(0.45):
            fields = {"x": self.one(KINDS), "n": self.one(KINDS[:5])}
            if self.odds(0.6):
                fields["h"] = (self.one(KINDS[:9]), self.chance.randint(2, 4))
            self.structs = fields
            self.lines.append("typedef struct { %s } st;" % " ".join(
                "%s %s[%d];" % (self.spelled(k[0]), f, k[1]) if isinstance(k[0], tuple) else
                "%s %s;" % (self.spelled(k), f) for f, k in fields.items()))
        if self.odds(0.2):
            kind = self.one(KINDS[4:])
            self.globals.append(("glob", kind))
            ends = self.range_of(kind)
            self.ranges["glob"] = ends
            self.lines.append("static %s glob;" % self.spelled(kind))
            top["glob"] = Var("glob", kind, ends)
        for k in range(self.one([0, 0, 1, 1, 2])):
            self.helper("get%d" % k)
        self.routine()

    def range_of(self, kind):
        low, high = span(kind)
        bits = self.chance.randint(1, kind[0])
        a, b = low >> kind[0] - bits, high >> kind[0] - bits
        sort = self.chance.random()
        if sort < 0.35 and kind[1]:
            a = 0
        elif sort < 0.5:
            a, b = sorted((self.chance.randint(a, b), self.chance.randint(a, b)))
        return a, b

    def helper(self, name):
        """A function that the routine calls: a number of numbers, or what writes by a pointer."""
        outer, weight, self.weight, self.branch = self.scopes, self.weight, 1, 0
        self.helping = True
        params = []
        if self.odds(0.35):
            sort = self.one(["scalar", "array"] + ["struct"] * 2 * bool(self.structs))
            kind = self.structs if sort == "struct" else self.one(KINDS[2:10])
            ends = {f: (-100, 100) for f in self.structs} if sort == "struct" else (-100, 100)
            if sort != "struct":
                ends = max(-100, span(kind)[0]), 100
            else:
                ends = {f: (max(-100, span(k[0] if isinstance(k[0], tuple) else k)[0]), 100)
                        for f, k in self.structs.items()}
            params.append(Var("p", kind, ends, sort, 2 if sort == "array" else None))
        for n in self.chance.sample(["x", "y", "a", "k"], self.chance.randint(1, 2)):
            kind = self.one(KINDS[2:12])
            params.append(Var(n, kind, (max(span(kind)[0], -40000), min(span(kind)[1], 40000))))
        effects = bool(params[0].pointer)
        back = None if effects and self.odds(0.7) else self.one(KINDS[2:12])
        self.back = back
        self.scopes = [outer[0], {p.name: p for p in params}]
        body = self.statements(self.chance.randint(0, 2), 1)
        if effects:
            body.append(self.s_write(params[0]))
        last = None
        if back:
            last = self.narrow(self.expr(2), back)
            body.append(S("leave", "return %s;" % last.text, "return", last))
        f = Function(name, params, back, body)
        f.effects, f.weight = effects, self.weight
        f.ends = hull(last.ends, (0, 0)) if last and inside(last.ends, back) else \
            span(back) if back else None
        self.lines.append("static %s%s %s(%s)" % (
            self.one(["", "inline "]), self.spelled(back) if back else "void", name,
            ", ".join(self.parameter(p, False) for p in params)))
        self.block_lines(body)
        self.functions.append(f)
        self.scopes, self.weight, self.back, self.helping = outer, weight, None, False
        return f

    def s_write(self, p):
        """Writes by a pointer parameter."""
        if p.pointer == "struct":
            f = self.one([f for f in p.fields if not isinstance(p.fields[f][0], tuple)])
            left = self.field(p, f)
        elif p.array:
            left = self.element(self.var(p), p.size)
        else:
            left = E("deref", p.sort, p.ends, "*p", 14, {"p"}, self.var(p))
        return self.assignment(left, self.narrow(self.expr(2), left.kind))

    def parameter(self, p, restrict):
        sort = "st" if p.fields is not None else self.spelled(p.sort)
        if p.pointer is None:
            return "%s %s" % (sort, p.name)
        if p.array and not restrict and self.odds(0.3):
            return "%s %s[%d]" % (sort, p.name, p.size)
        const = "const " if not p.left else ""
        return "%s%s *%s%s" % (const, sort, "restrict " if restrict else "", p.name)

    def routine(self):
        params, self.branch = [], 0
        for n in self.chance.sample(["a", "b", "x", "y"], self.chance.randint(1, 3)):
            kind = self.one(KINDS)
            ends = self.range_of(kind)
            self.ranges[n] = ends
            params.append(Var(n, kind, ends))
        if self.odds(0.35):
            kind, size = self.one(KINDS[:12]), self.chance.randint(2, 5)
            self.ranges["buf"] = ends = self.range_of(kind)
            self.sizes["buf"] = size
            params.append(Var("buf", kind, ends, "array", size, left=self.odds(0.6)))
        if self.odds(0.2):
            kind = self.one(KINDS[2:])
            self.ranges["out"] = ends = self.range_of(kind)
            params.append(Var("out", kind, ends, "scalar"))
        if self.structs and self.odds(0.8):
            ends = {}
            for f, kind in self.structs.items():
                ends[f] = self.ranges["s_" + f] = self.range_of(
                    kind[0] if isinstance(kind[0], tuple) else kind)
            params.append(Var("s", self.structs, ends, self.one(["struct", "struct", None])))
        self.chance.shuffle(params)
        self.back = self.one(KINDS[2:]) if self.odds(0.9) or not any(
            p.pointer and p.left for p in params) else None
        self.scopes = [self.scopes[0], {p.name: p for p in params}]
        body = self.statements(self.chance.randint(1, 5), 2)
        if self.back:
            e = self.narrow(self.expr(3), self.back)
            body.append(S("leave", "return %s;" % e.text, "return", e))
        self.params, self.body, self.name = params, body, "f"
        many = sum(p.pointer is not None for p in params) + len(self.globals) > 1
        self.comment = len(self.lines)
        self.lines.append("")
        self.lines.append("%s f(%s)" % (self.spelled(self.back) if self.back else "void", ", ".join(
            self.parameter(p, many or p.pointer == "array") for p in params)))
        self.block_lines(body)
        for p in params:
            if p.array:
                p.sort = p.sort, p.size

    def ranged(self, ranges):
        """The file's text with these ranges."""
        said = ["%s%s=%d..%d" % (n, "[%d]" % self.sizes[n] if n in self.sizes else "", *ends)
                for n, ends in ranges.items()]
        lines = list(self.lines)
        lines[self.comment] = "/* ranges: %s */" % " ".join(said) if said else ""
        return "\n".join(lines) + "\n"

    # -- lines

    def block_lines(self, some, deep=0):
        pad = "    " * deep
        self.lines.append(pad + "{")
        for s in some:
            self.emit(s, deep + 1)
        self.lines.append(pad + "}")

    def emit(self, s, deep):
        pad = "    " * deep
        self.lines.append(pad + s.text)
        s.line = len(self.lines)
        inner = {"if": s.args[1:2], "loop": s.args[4:5], "block": s.args[:1]}.get(s.op, ())
        for some in inner:
            for it in some:
                self.emit(it, deep + 1)
        if s.op == "if" and s.args[2] is not None:
            self.lines.append(pad + "} else {")
            for it in s.args[2]:
                self.emit(it, deep + 1)
        if s.op == "switch":
            for label, some in s.args[1]:
                self.lines.append(pad + ("default:" if label is None else "case %d:" % label))
                for it in some:
                    self.emit(it, deep + 1)
        if inner or s.op == "switch":
            self.lines.append(pad + "}" + getattr(s, "tail", ""))
        if getattr(s, "tail", ""):
            s.line = len(self.lines)
        if s.op == "loop":
            for it in [s.args[1]] * (s.args[1] is not None) + s.args[3]:
                it.line = s.line


def main(words):
    """Makes and judges as many routines as the words say."""
    import c_judged
    return c_judged.main(words)


if __name__ == "__main__":
    shared.ran(main)
