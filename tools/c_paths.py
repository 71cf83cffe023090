"""A run through a routine of C, as straight-line operations over whole numbers, with what each has
to hold: inputs, steps, goals, conditions; which way a condition goes, and branches that are joined.

What C is served, and how it is read, stands in c_run.py.
"""

from c_nodes import (TURNED, WAYS, Branch, Cond, Goal, Input, Node, Value, bounds, clamped,
                     computed, interpolation, intervals, lit, same, weights)
from c_source import Refused, says
from c_types import COMPARES, EXACT, common, named, span

RESERVED = ("in", "not", "fixed", "int", "fma", "float", "sqrt")    # no names of a script
LARGE = 1 << 66         # past every type: an end that isn't bounded


class Thing:
    """A place of C's: a variable, an array, a struct, or what a parameter points to. `sort` is
    scalar, array, struct or pointer; `kind` a type, or {field: (type, size)} of a struct; `outer`
    says that callers see it; `frame` is how many calls deep it was made."""

    def __init__(self, name, sort, kind, size=None, quals=(), decl=None, outer=False, frame=0):
        self.name, self.sort, self.kind, self.size = name, sort, kind, size
        self.quals, self.decl, self.outer, self.frame = set(quals), decl, outer, frame
        self.static = None      # of a static variable: its first values
        self.copy = False       # a struct that is passed by value
        self.values = None      # of a const table
        self.names = {}         # the names of cells, as they were met first

    def of(self, sel):
        """The type of a cell: sel is None, an index, a field, or (field, index)."""
        if self.sort == "struct":
            return self.kind[sel[0] if isinstance(sel, tuple) else sel][0]
        return self.kind

    def cell(self, sel, alone=False):
        """The name of a cell. `alone`: it is spelled `*p`."""
        if sel not in self.names:
            more = [] if sel is None or alone else list(sel) if isinstance(sel, tuple) else [sel]
            self.names[sel] = "_".join([self.name] + [str(x) for x in more])
        return self.names[sel]


class Leaves(Exception):
    """A statement leaves the place where it stands: return, break or continue."""


class Path:
    """One run; branches are taken as `picks` says, and then the first way. It has inputs {key:
    Input}, order [node] (steps, and words that a rule computes), kinds {node's id: type}, conds
    [Cond], goals [Goal], and outs {key: Value}."""

    def __init__(self, unit, ranges, sizes, picks=(), joins=False):
        self.unit, self.given, self.sizes, self.joins = unit, ranges, sizes, joins
        self.picks, self.ways, self.branch = list(picks), [], None
        self.inputs, self.order, self.kinds, self.conds, self.goals = {}, [], {}, [], []
        self.outs, self.known, self.names, self.env = {}, {}, set(RESERVED), {}
        self.read, self.written, self.firsts, self.kept = set(), {}, {}, []
        self.asked, self.steps, self.stores = {}, {}, 0
        self.touched = []       # [(key, expression, pointers on which it rests)] of places used
        self.modified = []      # keys of places that are written
        self.here = None        # the call of a known helper, whose goals stand there
        self.meant = {}         # places where something wraps that is meant to, and its text

    # -- inputs and names

    def fresh(self, base):
        """A name that no other node has, nor an exact twin or an error of one."""
        base = base.replace("$", "_")
        name, k = base, 1
        while self.taken(name) & self.names:
            k += 1
            name = "%s_%d" % (base, k)
        self.names |= self.taken(name)
        return name

    @staticmethod
    def taken(name):
        return {name, name + "_exact", name + "_error"}

    def input(self, key, group, kind, where):
        """A new input. Its range is the given one of its key, of its group (an array's name), or
        its type's."""
        low, high = self.ends(key, group, kind)
        if low < span(kind)[0] or high > span(kind)[1]:
            raise Refused(where, "the range of %s isn't within its type %s" % (key, named(kind)))
        if key in self.inputs:
            raise Refused(where, "two inputs would be named %s" % key)
        name = self.fresh(key + "_" if key in RESERVED else key)
        if name != key and key not in RESERVED:
            raise Refused(where, "two names of a script would be %s: rename one" % key)
        node = Node("var", name, name=name, coord=where.coord, text=key)
        self.inputs[key] = Input(node, low, high, kind)
        self.known[id(node)] = low, high
        return Value(node, kind)

    def ends(self, key, group, kind):
        """An input's range."""
        return self.given.get(key, self.given.get(group, span(kind)))

    def word(self, base, rule, low, high, kind, where):
        """A word of which scripts know the range alone; `rule` computes it."""
        name = self.fresh(base)
        node = Node("var", name, name=name, coord=where.coord, text=name, rule=rule)
        node.branch = self.branch
        self.inputs[name] = Input(node, low, high, kind)
        self.kinds[id(node)], self.known[id(node)] = kind, (low, high)
        self.order.append(node)
        return Value(node, kind)

    # -- ranges, as far as intervals tell them; what rests on one is a goal besides

    def range(self, n):
        if n.op == "lit":
            return n.const, n.const
        if n.op != "var" and id(n) not in self.known:       # of a branch that is done
            self.after(n, self.kinds.get(id(n), EXACT))
        return self.known.get(id(n)) or self.inputs[n.text][1:3]

    def after(self, n, kind):
        """Notes a step's range."""
        a, more = n.args[0], n.args[1:]
        other = self.range(more[0]) if isinstance(more[0], Node) else (0, 0)
        ends = None
        if n.op == "add":
            ends = self.mean(a, more[0]) or self.mean(more[0], a)
        if n.op == "mul" and a is more[0]:
            low, high = self.range(a)
            ends = [low * low, high * high] + [0] * (low <= 0 <= high)
        if n.op == "sub" and more[0].op == "low" and more[0].args[0] is a:
            ends = [x >> more[0].args[1] << more[0].args[1] for x in self.range(a)]
        ends = ends or intervals(n.op, self.range(a), other, more)
        self.known[id(n)] = clamped(ends, kind)

    def mean(self, x, y):
        """The ends of a mean with weights that aren't negative."""
        some, other = weights(x, y), interpolation(x, y)
        if some and min(self.range(some[0])[0], self.range(some[2])[0]) >= 0:
            return [some[4] * end for n in (some[1], some[3]) for end in self.range(n)]
        if other and 0 <= self.range(other[1])[0] and self.range(other[1])[1] <= 1 << other[2]:
            return [end for n in (x, other[0]) for end in self.range(n)]
        return None

    # -- steps and goals

    def goal(self, node, low, high, where, what):
        """Asks a node's bounds here, if they weren't asked in this branch or one around it."""
        before = self.asked.setdefault((id(node), low, high), [])
        if not any(b is None or self.branch is not None and self.branch.within(b)
                   for b in before):
            before.append(self.branch)
            where = self.here or where
            self.goals.append(Goal(node, (low, high), where, what, self.branch))

    def step(self, op, *args, kind, where):
        """An operation, with its type's range as goal. Constants are folded, and what was computed
        before is taken again. What is unsigned, and is meant to wrap, is cut to its type."""
        if not kind[1] and op in ("add", "sub", "mul", "shift") and self.unit.meant(where):
            v = self.made(op, args, EXACT, where)
            return Value(self.cut(v.node, kind, where), kind)
        return self.made(op, args, kind, where)

    def cut(self, node, kind, where):
        """A number modulo a type, as C has it of unsigned ones, and gcc of signed ones; the same
        number, with this as a goal, where intervals say that it is in the type."""
        low, high = span(kind)
        if node.op == "lit":
            return lit((node.const - low) % (1 << kind[0]) + low)
        least, most = self.range(node)
        if low <= least and most <= high:
            self.goal(node, low, high, where, named(kind))
            return node
        self.meant[self.unit.place(where.coord)] = self.unit.says(where)
        if kind[1]:
            node = self.made("sub", (node, lit(low)), EXACT, where).node
        node = self.made("low", (node, kind[0]), EXACT, where).node
        return self.made("add", (node, lit(low)), kind, where).node if kind[1] else node

    def made(self, op, args, kind, where):
        """An operation with its type's range as goal."""
        node = Node(op, *args, coord=where.coord, text=self.unit.says(where))
        if all(a.op == "lit" for a in node.inner()):
            value = computed(node, {}, {})
            if value is None or not span(kind)[0] <= value <= span(kind)[1]:
                raise Refused(where, "the constant %s leaves its type %s" % (node.text,
                                                                             named(kind)))
            return Value(lit(value), kind)
        key = (op, kind) + tuple(("lit", a.const) if isinstance(a, Node) and a.op == "lit" else
                                 id(a) if isinstance(a, Node) else a for a in args)
        old = self.steps.get(key)
        if old is not None and all(same(x, y) for x, y in zip(old.args, args)):
            node = old
        else:
            node.name = self.fresh("t%d" % (len(self.order) + 1))
            node.branch = self.branch
            self.order.append(node)
            self.steps[key], self.kinds[id(node)] = node, kind
        if id(node) not in self.known:
            self.after(node, kind)
        if kind != EXACT:
            self.goal(node, *span(kind), where, named(kind))
        return Value(node, kind)

    def fits(self, v, kind, where):
        """A conversion: the value stays, which is a goal if the types don't say so."""
        low, high = span(kind)
        if (span(v.kind)[0] < low or span(v.kind)[1] > high) and self.unit.meant(where):
            return Value(self.cut(v.node, kind, where), kind)
        if v.node.op == "lit" and not low <= v.node.const <= high:
            raise Refused(where, "the constant %d leaves the type %s" % (v.node.const,
                                                                         named(kind)))
        if v.node.op != "lit" and (span(v.kind)[0] < low or span(v.kind)[1] > high):
            self.goal(v.node, low, high, where, "conversion to " + named(kind))
            a, b = max(low, self.range(v.node)[0]), min(high, self.range(v.node)[1])
            if a <= b:
                self.known[id(v.node)] = a, b
        return Value(v.node, kind)

    def both(self, a, b, where):
        """The usual conversions of two operands."""
        a, b = a.promoted(), b.promoted()
        kind = common(a.kind, b.kind)
        return self.fits(a, kind, where).node, self.fits(b, kind, where).node, kind

    def entry(self, values, kind, at, where):
        """A const table's entry: at a constant place its value, else a word between the least and
        the greatest that may be read."""
        low, high = max(self.range(at)[0], 0), min(self.range(at)[1], len(values) - 1)
        if low > high or at.op == "lit" and at.const != low:
            raise Refused(where, "the index is past the table: %s" % says(where))
        if at.op == "lit":
            return Value(lit(values[low]), kind)
        self.goal(at, low, high, where, "index")
        some = values[low:high + 1]
        return self.word("entry", ("table", values, at), min(some), max(some), kind, where)

    # -- conditions

    def way(self, able):
        """Which of some ways this run takes."""
        number = self.picks[len(self.ways)] if len(self.ways) < len(self.picks) else 0
        self.ways.append((number, len(able)))
        return able[number]

    def compare(self, op, one, other, where):
        """Whether a comparison holds on this path. What that says of values is kept."""
        a, b, _ = self.both(one, other, where)
        if a is b or a.op == b.op == "lit":
            return op in ("<=", ">=", "==") if a is b else COMPARES[op](a.const, b.const)
        if a.op == "lit":       # the constant stands right
            a, b, op = b, a, TURNED[op]
        (la, ha), (lb, hb) = self.range(a), self.range(b)
        able = {"<": la < hb, ">": ha > lb, "<=": la <= hb, ">=": ha >= lb,
                "==": la <= hb and lb <= ha}
        ways = [w for w in sum(WAYS[op], ()) if able[w]]
        if len(ways) > 1:
            if len(ways) == 2 and op in ("==", "!="):
                self.excluded(a, ">=" if not able["<"] else "<=", b, where)
            pick = self.way(ways)
            self.assume(a, pick, b, where)
        else:       # intervals say which way: that is a goal, no hypothesis
            pick = ways[0]
            of, (low, high) = a, bounds(pick, b.const or 0)
            if b.op != "lit":
                of = self.difference(a, b, where)
            self.goal(of, -LARGE if low is None else low, LARGE if high is None else high, where,
                      "always %s" % pick)
        self.narrowed(a, pick, b)
        return pick in WAYS[op][0]

    def excluded(self, a, way, b, where):
        """Asks, under the conditions that hold up to here, what leaves two ways of three."""
        given = self.inputs.get(a.text) if a.op == "var" and b.op == "lit" else None
        if given and (given.low >= b.const if way == ">=" else given.high <= b.const):
            return
        of, (low, high) = (a, bounds(way, b.const)) if b.op == "lit" else \
            (self.difference(a, b, where), bounds(way, 0))
        conds = self.conds + (self.branch.all() if self.branch is not None else [])
        ends = -LARGE if low is None else low, LARGE if high is None else high
        self.goals.append(Goal(of, ends, where, "always %s" % way, Branch(None, conds)))

    def assume(self, a, way, b, where):
        """A condition of this path, or of the branch that is run."""
        conds = self.conds if self.branch is None else self.branch.conds
        conds.append(Cond(a, way, b, where))

    def narrowed(self, a, way, b):
        """What a comparison says of its sides' ranges."""
        for x, w, y in ((a, way, b), (b, TURNED[way], a)):
            if x.op != "lit":
                (low, high), (least, most) = self.range(x), self.range(y)
                if w in ("<", "<=", "=="):
                    high = min(high, most - (w == "<"))
                if w in (">", ">=", "=="):
                    low = max(low, least + (w == ">"))
                if low <= high:
                    self.known[id(x)] = low, high

    def difference(self, a, b, where):
        """a - b, as a node that no step is."""
        node = Node("sub", a, b, coord=where.coord, text="%s (difference)" % self.unit.says(where))
        (la, ha), (lb, hb) = self.range(a), self.range(b)
        self.known[id(node)] = la - hb, ha - lb
        self.kept.append(node)      # no other node has its id
        return node

    # -- branches that only set values

    def joined(self, run, where, name="joined"):
        """Runs `run()` in each way that its conditions leave. What differs between the ways becomes
        a word with a range, and the path goes on as one; what `run` gives is joined as well. `run`
        only sets values: it leaves no loop and no function."""
        outer, picks, ways, before = self.branch, self.picks, self.ways, dict(self.known)
        env, todo, ends, goals = self.env, [[]], [], len(self.goals)
        try:
            while todo:
                self.picks, self.ways, self.branch = todo.pop(), [], Branch(outer)
                self.known, self.env = dict(before), dict(env)
                try:
                    value = run()
                except Leaves:
                    raise Refused(where, "a branch that leaves its place can't be joined")
                ends.append((self.branch, self.env, self.known, value))
                for at in range(len(self.picks), len(self.ways)):
                    todo += [[p for p, _ in self.ways[:at]] + [other]
                             for other in range(1, self.ways[at][1])]
                if len(ends) > 64:
                    raise Refused(where, "more than 64 ways through what is joined here")
        finally:
            self.picks, self.ways, self.branch = picks, ways, outer
            self.known, self.env = before, env
        if len(ends) > 1:
            return self.merged(ends, where, name)
        alone, self.env, self.known, value = ends[0]    # nothing branched
        self.goals[goals:] = [g._replace(branch=outer) if g.branch is alone else g
                              for g in self.goals[goals:]]
        for some in self.asked.values():
            some[:] = [outer if b is alone else b for b in some]
        return value

    def merged(self, ends, where, name):
        """What several ways gave, joined; so is the environment."""
        made = {}
        for key in dict.fromkeys(key for _, env, _, _ in ends for key in env):
            for _, env, _, _ in ends:
                if key not in env and key[0].outer:     # read or written in another way alone
                    env[key] = self.cell_input(key, where)
            if all(key in env for _, env, _, _ in ends):
                some = [(branch, env[key], known) for branch, env, known, _ in ends]
                made[key] = self.merge(some, key[0].cell(key[1]), where)
        self.env = made
        if any(v is None for _, _, _, v in ends):
            return None
        return self.merge([(b, v, known) for b, _, known, v in ends], name, where)

    def merge(self, some, name, where):
        """One value of several ways: [(branch, value, known ranges)]."""
        first = some[0][1]
        if not isinstance(first, Value):        # a pointer
            if any(v != first for _, v, _ in some):
                raise Refused(where, "where a pointer points depends on an input")
            return first
        if all(same(v.node, first.node) for _, v, _ in some):
            return first
        if any(v.kind != first.kind for _, v, _ in some):
            raise Refused(where, "ways of one value have different types")
        ends = [(v.node.const,) * 2 if v.node.op == "lit" else
                known.get(id(v.node)) or self.range(v.node) for _, v, known in some]
        low, high = min(a for a, _ in ends), max(b for _, b in ends)
        outer = self.branch
        for self.branch, v, _ in some:
            self.within(v.node, low, high, where)
        self.branch = outer
        rule = "join", [(b.conds, v.node) for b, v, _ in some]
        return self.word(name, rule, low, high, first.kind, where)

    def within(self, node, low, high, where):
        """Asks that a value of a join is in the join's range, where no hypothesis says so."""
        given = self.inputs.get(node.text) if node.op == "var" else None
        if node.op != "lit" and not (given and low <= given.low and given.high <= high):
            self.goal(node, low, high, where, "joined in [%d,%d]" % (low, high))

    def at_index(self, cells, at, where):
        """The word that is read at an index that depends on inputs: {index: Value}."""
        values = list(cells.values())
        if all(same(v.node, values[0].node) for v in values):
            return values[0]
        ends = [self.range(v.node) for v in values]
        low, high = min(a for a, _ in ends), max(b for _, b in ends)
        for v in values:
            self.within(v.node, low, high, where)
        rule = "join", [([Cond(at, "==", lit(k), where)], v.node) for k, v in cells.items()]
        return self.word("entry", rule, low, high, values[0].kind, where)

    def joined_at(self, old, new, at, k, name, where):
        """The word that stands at a place k after a value was written at an index."""
        ends = [self.range(v.node) for v in (old, new)]
        low, high = min(a for a, _ in ends), max(b for _, b in ends)
        self.within(old.node, low, high, where)
        self.within(new.node, low, high, where)
        rule = "join", [([Cond(at, way, lit(k), where)], v.node)
                        for way, v in (("==", new), ("<", old), (">", old))]
        return self.word(name, rule, low, high, old.kind, where)

    @staticmethod
    def group(key):
        """The name of the array, or of the field, to which a place belongs."""
        thing, sel = key
        return "%s_%s" % (thing.name, sel[0]) if isinstance(sel, tuple) else thing.name

    def cell_input(self, key, where):
        """An outer place that is read before it is written."""
        thing, sel = key
        if key not in self.firsts:
            name = thing.cell(sel)
            self.firsts[key] = self.input(name, self.group(key), thing.of(sel), where)
        self.read.add(key)
        return self.firsts[key]
