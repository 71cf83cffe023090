"""Random statements of C, as trees that c_meaning.py evaluates."""

from c_meaning import INT, met, promoted
from c_random_expressions import Expressions
from c_random_trees import KINDS, E, S, Var, hull, inside, span


# The statements that give a name, their first word.
DECLARES = ("declare", "static", "array", "struct", "pointer")


class Statements(Expressions):
    """Makes statements. `branch` is how deep they stand in branches, `back` the type of the
    function's value, `structs` the fields of the file's struct."""

    def __init__(self, seed):
        Expressions.__init__(self, seed)
        self.structs, self.branch, self.back, self.statics = {}, 0, None, False
        self.helping = False    # whether a helper is made

    # -- statements

    def statements(self, count, deep):
        found = []
        for _ in range(count):
            found += self.statement(deep)
        return found

    def nested(self, count, deep):
        self.scopes.append({})
        self.branch += 1
        found = self.statements(count, deep)
        self.branch -= 1
        self.scopes.pop()
        return found

    SORTS_OF = ("declare declare declare assign assign compound compound step if if if loop switch "
                "block call leave array pointer static struct chain effect round clip").split()

    def statement(self, deep):
        sort = self.one(self.SORTS_OF)
        if deep <= 0 and sort in ("if", "loop", "switch", "block") or self.weight > 600:
            sort = "assign"
        return getattr(self, "t_" + sort)(deep) or []

    def note(self, left, ends):
        """Keeps a guess of what a place has then."""
        name = left.args[0] if left.op == "var" else left.args[0].args[0]
        f = left.args[1] if left.op == "field" else None
        if not isinstance(name, str):       # an element of a field
            name, f = name.args[0], left.args[0].args[1]
        v = next(s[name] for s in reversed(self.scopes) if name in s)
        low, high = span(left.kind)
        ends = max(low, ends[0]), min(high, ends[1])
        ends = ends if ends[0] <= ends[1] else (low, high)
        if f is not None:
            v.ends[f] = hull(v.ends[f], ends)
        elif left.op == "var" and not self.branch:
            v.ends = ends
        else:
            v.ends = hull(v.ends, ends)

    def assignment(self, left, e, op=""):
        self.note(left, e.ends if not op else hull(left.ends, e.ends))
        text = "%s %s= %s;" % (left.text, op, e.at(2))
        return S("expr", text, E("assign", left.kind, e.ends, "", 2, left.names | e.names, op, left,
                                 e))

    def declared(self, e, kind=None, name=None):
        kind = kind or self.one([promoted(e.kind), promoted(e.kind), self.one(KINDS)])
        e = self.narrow(e, kind)
        # its own name hides an outer one from its end on, so that e hasn't it
        name = name or self.name(e.names)
        s = S("declare", "%s %s = %s;" % (self.spelled(kind), name, e.at(2)), name, kind, e)
        ends = e.ends if inside(e.ends, kind) else span(kind)
        self.scopes[-1][name] = Var(name, kind, ends)
        return s

    def t_declare(self, deep):
        if self.odds(0.15):
            kind, name = self.one(KINDS[2:]), self.name()
            s = S("declare", "%s %s;" % (self.spelled(kind), name), name, kind, None)
            more = self.cond(1)
            v = self.var(Var(name, kind, (0, 0)))
            some = [self.narrow(self.expr(2), kind) for _ in range(2)]
            self.scopes[-1][name] = Var(name, kind, hull(*[e.ends for e in some]))
            one, two = [S("expr", "%s = %s;" % (name, e.at(2)), E(
                "assign", kind, e.ends, "", 2, (), "", v, e)) for e in some]
            return [s, S("if", "if (%s) {" % more.text, more, [one], [two])] if \
                name not in more.names | some[0].names | some[1].names else []
        return [self.declared(self.expr(3))]

    def left(self):
        some = self.scalars(left=True)
        return self.one(some) if some else None

    def t_assign(self, deep):
        left = self.left()
        return [self.assignment(left, self.narrow(self.expr(3), left.kind))] if left else \
            [self.declared(self.expr(3))]

    def t_compound(self, deep):
        left = self.left()
        if left is None:
            return []
        op = self.one("+ - * >> << & | % / + - >>".split())
        if op in ("<<", ">>"):
            e = self.number(self.chance.randint(1, min(7, left.kind[0] - 2)), True)
        elif op in "&|":
            e = self.number((1 << self.chance.randint(1, min(left.kind[0], 32) - 2)) - 1, True)
        elif op in "/%":
            e = self.number(self.one([2, 3, 7, 8, 10]), True)
        else:
            e = self.narrow(self.expr(1), left.kind)
            if op != "*":
                e = self.shifted(e, 2)
        if left.op == "index" and left.names & e.names - {left.args[0].text}:
            return []
        if left.names & e.names and op in "*":
            return []
        if not met(left.kind, e.kind)[1] and e.ends[0] < 0:
            return []
        return [self.assignment(left, e, op)]

    def t_step(self, deep):
        left = self.left()
        if left is None:
            return []
        after, op = self.odds(0.5), self.one("+-")
        text = "%s%s" % (left.at(15), op * 2) if after else "%s%s" % (op * 2, left.at(14))
        self.note(left, (left.ends[0] - (op == "-"), left.ends[1] + (op == "+")))
        return [S("expr", text + ";", E("step", left.kind, left.ends, text, 14, left.names, op,
                                        after, left, met(left.kind, INT)))]

    def t_effect(self, deep):
        """y = x++ + e, (x = e) * k, and the like: what changes isn't met again."""
        some = [v for v in self.visible() if v.left and v.fields is None and not v.array and
                v.pointer is None and v.name != "glob"]
        if not some:
            return []
        v = self.var(self.one(some))
        if self.odds(0.6):
            after, op = self.odds(0.5), self.one("+-")
            text = v.text + op * 2 if after else op * 2 + v.text
            inner = E("step", v.kind, (max(v.ends[0] - 1, span(v.kind)[0]),
                                       min(v.ends[1] + 1, span(v.kind)[1])),
                      text, 14, v.names, op, after, v, met(v.kind, INT))
        else:
            e = self.narrow(self.expr(1), v.kind)
            if e.names & v.names or any(f.name in e.names for f in self.functions):
                return []
            inner = E("assign", v.kind, e.ends if inside(e.ends, v.kind) else span(v.kind),
                      "%s = %s" % (v.text, e.at(2)), 2, v.names | e.names, "", v, e)
        self.note(v, inner.ends)
        other = self.expr(1)
        if other.names & inner.names or any(f.name in other.names for f in self.functions):
            other = self.small()
        e = self.arithmetic(self.one("+*"), inner, other)
        if e.text.count(inner.text) != 1 or not met(inner.kind, other.kind)[1]:
            return []
        return [self.declared(e)]

    def t_if(self, deep):
        self.branched(1)
        c = self.cond(2)
        yes = self.nested(self.chance.randint(1, 2), deep - 1)
        no = self.nested(self.chance.randint(1, 2), deep - 1) if self.odds(0.5) else None
        return [S("if", "if (%s) {" % c.text, c, yes, no)]

    def t_loop(self, deep):
        """A loop whose number of turns is constant."""
        if self.loops:
            return []
        sort, turns = self.one(["for", "for", "while", "do"]), self.chance.randint(2, 4)
        name, down = self.name(), self.odds(0.3)
        kind = self.one([INT, INT, (8, False), (32, False), (16, True)])
        down = down and sort != "for"
        limit = self.number(turns, True)
        i = self.var(Var(name, kind, (0, turns)))
        self.loops += 1
        self.scopes.append({name: Var(name, kind, (0, turns if sort != "for" else turns - 1),
                                      left=False)})
        body = self.nested(self.chance.randint(1, 2), deep - 1)
        # the body takes a step or a test of the counter, which nothing in it may hide
        hides = any(it.op in DECLARES and it.args[0] == name for it in body)
        if self.odds(0.15) and sort == "for":
            at = self.chance.randrange(turns)
            c = E("compare", INT, (0, 1), "%s == %d" % (name, at), 9, {name}, "==", i,
                  self.number(at, True))
            how = self.one(["break", "continue"])
            body.insert(self.chance.randint(0, len(body)), S("if", "if (%s) {" % c.text, c,
                                                             [S("leave", how + ";", how, None)],
                                                             None))
        self.scopes.pop()
        self.loops -= 1
        if hides:
            return []
        step = E("step", kind, (0, 0), "", 14, {name}, "-" if down else "+", True, i,
                 met(kind, INT))
        stepped = S("expr", "%s%s;" % (name, "--" if down else "++"), step)
        begin = S("declare", "%s %s = %d;" % (self.spelled(kind), name, turns if down else 0),
                  name, kind, limit if down else self.number(0, True))
        c = E("compare", INT, (0, 1), "%s > 0" % name if down else "%s < %d" % (name, turns), 10,
              {name}, ">" if down else "<", i, self.number(0 if down else turns, True))
        if sort == "for":
            s = S("loop", "for (%s %s; %s++) {" % (begin.text, c.text, name), "for", begin, c,
                  [stepped], body)
            return [s]
        body.append(stepped)
        s = S("loop", "while (%s) {" % c.text if sort == "while" else "do {", sort, None, c, [],
              body)
        s.tail = " while (%s);" % c.text if sort == "do" else ""
        return [S("block", "{", [begin, s])]

    def t_switch(self, deep):
        e = self.operation("&", self.leaf(), self.number(3, True)) if self.odds(0.5) else \
            self.leaf()
        if e.kind[0] == 64 or e.ends[0] < 0 and not e.kind[1]:
            return []
        labels = self.chance.sample(range(0, 5), self.chance.randint(2, 3))
        if self.odds(0.7):
            labels.insert(self.chance.randint(0, len(labels)), None)
        self.branched(len(labels) + 2)
        cases = []
        for label in labels:
            some = self.nested(1, 0)
            some = [S("block", "{", some)]
            if self.odds(0.7):
                some.append(S("leave", "break;", "break", None))
            cases.append((label, some))
        return [S("switch", "switch (%s) {" % e.text, e, cases)]

    def t_block(self, deep):
        return [S("block", "{", self.nested(self.chance.randint(1, 3), deep - 1))]

    def t_call(self, deep):
        """A call as a statement, perhaps with what it points to."""
        some = [f for f in self.functions if f.effects and f.name]
        if not some:
            return []
        f = self.one(some)
        p, args = f.params[0], []
        if p.pointer == "struct":
            found = [E("var" if v.pointer else "address", None, (), v.name if v.pointer else
                       "&" + v.name, 14, {v.name}, v.name if v.pointer else self.var(v))
                     for v in self.visible() if v.fields is not None and v.left
                     and v.text != "own"]
        elif p.array:
            found = [self.var(v) for v in self.visible() if v.array and v.sort == p.sort and
                     v.left and v.size >= p.size and v.text != "table"]
        else:
            found = [E("address", None, (), "&" + v.name, 14, {v.name}, self.var(v))
                     for v in self.visible() if v.fields is None and not v.array and
                     v.pointer is None and v.sort == p.sort and v.left and v.name != "glob"]
        if not found:
            return []
        args = [self.one(found)]
        args += [self.narrow(self.expr(1), q.sort) for q in f.params[1:]]
        if any(g.name in a.names for a in args[1:] for g in self.functions):
            return []
        self.branched(f.weight)
        e = E("call", f.back, f.ends, "%s(%s)" % (f.name, ", ".join(
            a.at(2) for a in args)), 16, {f.name}, f, args)
        for name in args[0].names:
            v = next(s[name] for s in reversed(self.scopes) if name in s)
            v.ends = {k: span(x[0] if isinstance(x[0], tuple) else x)
                      for k, x in v.fields.items()} if v.fields else hull(v.ends, (-100, 100))
        if f.back and self.odds(0.6):
            name = self.name(e.names.union(*[a.names for a in args]))
            self.scopes[-1][name] = Var(name, f.back, f.ends)
            return [S("declare", "%s %s = %s;" % (self.spelled(f.back), name, e.text), name, f.back,
                      e)]
        return [S("expr", e.text + ";", e)]

    def t_leave(self, deep):
        if not self.branch or self.loops and self.odds(0.7):
            return []
        if not self.back:
            return [S("if", "if (1) {", self.number(1, True), [S("leave", "return;", "return",
                                                                 None)], None)] * self.odds(0.1)
        e, c = self.narrow(self.expr(2), self.back), self.cond(1)
        return [S("if", "if (%s) {" % c.text, c, [S("leave", "return %s;" % e.text, "return", e)],
                  None)]

    def t_array(self, deep):
        kind, size = self.one(KINDS[2:12]), self.chance.randint(2, 4)
        name = self.name()
        if self.odds(0.3):
            some = [self.chance.randint(*span(kind)) >> self.chance.randint(0, kind[0] - 2)
                    for _ in range(size)]
            some = [max(x, -2 ** 31 + 1) for x in some]
            if any(abs(x) >= 1 << 63 for x in some):
                return []
            self.scopes[-1][name] = Var(name, kind, (min(some), max(some)), size=size, left=False,
                                        text="own")
            return [S("array", "%sconst %s %s[%d] = { %s };" % (
                self.one(["", "static "]), self.spelled(kind), name, size,
                ", ".join(map(str, some))), name, kind, size, some)]
        some = [self.narrow(self.expr(1), kind) for _ in range(self.chance.randint(1, size))]
        if any(name in e.names for e in some):
            return []
        self.scopes[-1][name] = Var(name, kind, hull((0, 0), *[e.ends for e in some]), size=size,
                                    text="own")
        return [S("array", "%s %s[%d] = { %s };" % (self.spelled(kind), name, size, ", ".join(
            e.at(2) for e in some)), name, kind, size, some)]

    def t_struct(self, deep):
        if not self.structs:
            return []
        name = self.name()
        v = Var(name, self.structs, {f: (0, 0) for f in self.structs})
        found = [S("struct", "st %s;" % name, name, self.structs)]
        for f, kind in self.structs.items():
            for k in range(kind[1] if isinstance(kind[0], tuple) else 1):
                one = kind[0] if isinstance(kind[0], tuple) else kind
                e = self.narrow(self.expr(1), one)
                left = None if isinstance(kind[0], tuple) else self.field(v, f)
                if left is None:
                    at = self.number(k, True)
                    base = self.field_array(v, f)
                    left = E("index", one, (), "%s[%d]" % (base.text, k), 15, {name}, base, at)
                if name in e.names:
                    e = self.small_of(one)
                v.ends[f] = hull(v.ends[f], e.ends)
                found.append(S("expr", "%s = %s;" % (left.text, e.at(2)), E(
                    "assign", one, e.ends, "", 2, (), "", left, e)))
        self.scopes[-1][name] = v
        return found

    def small_of(self, kind):
        return self.number(self.chance.randint(0, 100), True)

    def t_pointer(self, deep):
        """A pointer that walks through an array."""
        some = [(self.var(v), v.size, v.ends) for v in self.visible() if v.array]
        some += [(self.field_array(v, f), v.fields[f][1], v.ends.get(f, (-100, 100)))
                 for v in self.visible() if v.fields for f in v.fields
                 if isinstance(v.fields[f][0], tuple)]
        if not some:
            return []
        base, size, ends = self.one(some)
        name, at = self.name(base.names), self.chance.randrange(size)
        e = E("moved", None, (), "%s + %d" % (base.text, at), 12, base.names, base,
              self.number(at, True)) if self.odds(0.5) else \
            E("address", None, (), "&%s[%d]" % (base.text, at), 14, base.names,
              E("index", base.kind, ends, "", 15, base.names, base, self.number(at, True)))
        found = [S("pointer", "const %s *%s = %s;" % (self.spelled(base.kind), name, e.text), name,
                   e)]
        p = E("var", base.kind, ends, name, 16, {name}, name)
        while at < size and self.odds(0.8):
            if at + 1 < size and self.odds(0.3):
                get = E("index", base.kind, ends, "%s[1]" % name, 15, {name}, p,
                        self.number(1, True))
            elif self.odds(0.5):
                get = E("deref", base.kind, ends, "*%s++" % name, 14, {name},
                        E("walk", None, (), "", 14, {name}, p, 1, True))
                at += 1
            elif at + 1 < size and self.odds(0.5):
                get = E("deref", base.kind, ends, "*++%s" % name, 14, {name},
                        E("walk", None, (), "", 14, {name}, p, 1, False))
                at += 1
            else:
                get = E("deref", base.kind, ends, "*%s" % name, 14, {name}, p)
            other = self.leaf() if self.odds(0.5) else self.small()
            if name in other.names:
                continue
            e = self.arithmetic(self.one("+*-"), get, other)
            if e.text.count(get.text) != 1:
                break
            self.scopes[-1][name] = Var(name, base.kind, ends, "walk", left=False)
            self.scopes[-1][name].fields = {}
            found.append(self.declared(e))
        self.scopes[-1].setdefault(name, Var(name, {}, {}, "walk", left=False))
        self.scopes[-1][name].fields = {}
        return found

    def t_static(self, deep):
        """A variable that is kept from call to call."""
        if self.statics or self.helping or self.branch or self.loops or self.odds(0.6):
            return []
        kind, name = self.one(KINDS[2:12]), self.name()
        first = self.one([0, 0, 1, 5])
        self.statics = True
        self.scopes[-1][name] = Var(name, kind, (max(-200, span(kind)[0]), 200))
        v = self.var(self.scopes[-1][name])
        e = self.shifted(v, 1)
        more = self.narrow(self.expr(1), kind)
        e = self.narrow(self.arithmetic("+", e, self.shifted(more, 2)), kind)
        text = " = %d" % first if first or self.odds(0.5) else ""
        return [S("static", "static %s %s%s;" % (self.spelled(kind), name, text), name, kind,
                  first), self.assignment(v, e)]

    def t_chain(self, deep):
        """An else-if chain that sets one number."""
        left = self.left()
        if left is None:
            return []
        found = None
        for _ in range(self.chance.randint(1, 2)):
            c, e = self.cond(1), self.narrow(self.expr(2), left.kind)
            found = [S("if", "if (%s) {" % c.text, c, [self.assignment(left, e)], found)]
        return found

    def t_round(self, deep):
        e = self.expr(2)
        return [self.declared(self.shifted(e, self.chance.randint(1, min(
            15, promoted(e.kind)[0] - 2))))]

    def t_clip(self, deep):
        """A saturated number."""
        some = [v for v in self.visible() if v.left and v.fields is None and not v.array and
                v.pointer is None and v.sort[1]]
        if not some:
            return []
        v = self.one(some)
        x, most = self.var(v), self.one([100, 127, 255, 1000, 32767])
        if most > span(v.sort)[1]:
            return []
        found = []
        self.branched(3)
        for op, n in ((">", most), ("<", -most - 1)):
            c = E("compare", INT, (0, 1), "%s %s %d" % (x.text, op, n), 10, x.names, op, x,
                  self.number(n, True))
            found.append(S("if", "if (%s) {" % c.text, c, [S(
                "expr", "%s = %d;" % (x.text, n), E("assign", x.kind, (n, n), "", 2, (), "", x,
                                                    self.number(n, True)))], None))
        v.ends = max(v.ends[0], -most - 1), min(v.ends[1], most)
        v.ends = v.ends if v.ends[0] <= v.ends[1] else (-most - 1, most)
        return found
