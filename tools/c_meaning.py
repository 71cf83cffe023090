"""What a routine of `c_random` does: an evaluation of its tree by the rules of C.

A value is (number, exact, half, constant). The number goes on as if nothing wrapped. `exact` is the
number without roundings, None if its definition isn't told apart here; `half` is (exact, constant,
near) of a sum with a constant; `constant` says that no input is in it. What leaves its type is an
event, (line, what, number). Places are cells; an array is a list of them, a struct a dictionary.
"""

from fractions import Fraction

SPANS = {(w, s): (-2 ** (w - 1), 2 ** (w - 1) - 1) if s else (0, 2 ** w - 1)
         for w in (8, 16, 32, 64) for s in (True, False)}
INT = (32, True)
LARGE = 1 << 200


class Cell:
    """A variable, or an element: its type and value; `outer` is the key by which it is told."""

    def __init__(self, kind, v=None, outer=None):
        self.kind, self.v, self.outer = kind, v, outer


class Stop(Exception):
    """There is no value to go on with."""


class Leave(Exception):
    """A break, a continue or a return, with its value."""


def promoted(kind):
    """The type of an operand after promotion."""
    return INT if kind[0] < 32 else kind


def met(a, b):
    """The type in which two operands meet."""
    a, b = promoted(a), promoted(b)
    return max(a, b, key=lambda k: (k[0], not k[1]))


def quotient(a, b):
    """The quotient rounded toward 0."""
    return abs(a) // abs(b) * (1 if (a < 0) == (b < 0) else -1)


def runs_of(mask):
    """The places where runs of ones in a mask begin and end."""
    found, k = set(), 0
    while mask >> k:
        if (mask >> k & 1) != (mask >> k - 1 & 1 if k else 0):
            found.add(k)
        k += 1
    return found | {k}


class Meaning:
    """Runs of one routine. `joined`: forms of sums aren't followed through variables. `shifts` and
    `masks` are the places at which numbers were split."""

    def __init__(self, routine, joined=False):
        self.routine, self.joined = routine, joined
        self.shifts, self.masks, self.statics = set(), set(), {}

    def start(self):
        """Forgets the states of static variables."""
        self.statics = {}

    def call(self, words):
        """One call with {key: word}: `events`, `stopped`, and `outs` {key: value}."""
        r = self.routine
        self.events, self.stopped, self.outs, self.line = [], False, {}, 0
        self.written, self.steps, self.words = {}, 0, words
        top = {}
        for name, values, kind in r.tables:
            top[name] = [Cell(kind, (x, x, None, True)) for x in values]
        for name, kind in r.globals:
            top[name] = self.made(kind, name, words)
        scope = {}
        for p in r.params:
            scope[p.name] = self.made(p.sort, p.name, words) if p.pointer is None else \
                [self.made(p.sort, p.name, words), 0] if p.pointer == "struct" else \
                [self.made(p.sort, p.name, words), 0]
        self.top, self.scopes = top, [top, scope]
        for cell in self.statics.values():
            cell.v = cell.v[0], cell.v[0], None, False
        try:
            value = self.body(r.body, r.back)
            if value is not None:
                self.outs["result"] = value
        except Stop:
            self.stopped = True
        for key, cell in self.written.items():
            self.outs[key] = cell.v
        return self

    def made(self, sort, name, words):
        """An outer place: a scalar's type, (type, size) of an array, or fields of a struct."""
        if isinstance(sort, dict):
            return {f: self.made(k, "%s_%s" % (name, f), words) for f, k in sort.items()}
        if isinstance(sort[0], tuple):
            return [self.made(sort[0], "%s_%d" % (name, k), words) for k in range(sort[1])]
        x = words[name]
        return Cell(sort, (x, x, None, False), name)

    def body(self, body, back):
        """The value of a function's body."""
        try:
            self.block(body, fresh=False)
        except Leave as it:
            value = it.args[1]
            return None if value is None or back is None else self.fits(value, back, "return")
        return None

    # -- values

    def event(self, what, number):
        self.events.append((self.line, what, number))

    def fits(self, v, kind, why="conversion"):
        """A conversion."""
        low, high = SPANS[kind]
        if not low <= v[0] <= high:
            self.event("conversion", v[0])
        return v

    def kept(self, v, kind, what="operation"):
        """A step's value, within its type."""
        low, high = SPANS[kind]
        if not low <= v[0] <= high:
            self.event(what, v[0])
        if abs(v[0]) > LARGE:
            raise Stop
        return v

    def far(self, v):
        """A value that went through a variable or a call."""
        return v if v[2] is None else (v[0], v[1], v[2][:2] + (False,), v[3])

    def binary(self, op, a, b, kind):
        """A step of two numbers, which are in the type `kind` (of shifts, the left one)."""
        (x, p, half, c), (y, q, other, d) = a, b
        known = p is not None and q is not None
        const = c and d
        if op in ("<<", ">>"):
            return self.shift(op, a, y, kind)
        if op in "+-*":
            n = x + y if op == "+" else x - y if op == "-" else x * y
            e = n if const else None if not known else \
                p + q if op == "+" else p - q if op == "-" else p * q
            form = None if op != "+" or c == d else (p, y, True) if d else (q, x, True)
            return self.kept((n, e, form, const), kind)
        if op == "/":
            if y == 0:
                self.event("division by 0", 0)
                raise Stop
            n = quotient(x, y)
            e = n if const else None if not known or q == 0 else Fraction(p) / q
            return self.kept((n, e, None, const), kind)
        if op == "%":
            if y == 0:
                self.event("division by 0", 0)
                raise Stop
            self.masks |= runs_of(y - 1) if y & (y - 1) == 0 else set()
            n = x - y * quotient(x, y)
            return n, n, None, const
        n = x & y if op == "&" else x | y if op == "|" else x ^ y
        plain = p == x and q == y
        if op == "&" or c or d:
            self.masks |= runs_of((y if d else x) % 2 ** kind[0])
        e = n if plain or const else None if op == "&" or c or d or not known else p + q
        return n, e, None, const

    def shift(self, op, a, k, kind):
        x, p, half, c = a
        if not 0 <= k < kind[0]:
            raise Stop
        if k == 0:
            return a
        if op == "<<":
            return self.kept((x << k, x << k if c else None if p is None else p * 2 ** k, None, c),
                             kind)
        self.shifts.add(k)
        e = p
        if half is not None and half[1] == 1 << k - 1:
            e = None if self.joined and not half[2] else half[0]
        n = x >> k
        return n, n if c else None if e is None else Fraction(e) / 2 ** k, None, c

    # -- expressions

    def value(self, e):
        """The value of an expression."""
        return getattr(self, "e_" + e.op)(e, *e.args)

    def e_lit(self, e, number):
        return number, number, None, True

    def e_get(self, e, *_):
        return self.get(self.place(e))

    e_var = e_field = e_index = e_deref = e_get

    def get(self, place):
        cell, alone = place
        if cell.v is None:
            raise Stop
        v = cell.v
        return v if alone else (v[0], v[1], v[2] and (None,) + v[2][1:], False)

    def place(self, e):
        """The cell of an lvalue, and whether its place is constant."""
        if e.op == "var":
            return self.look(e.args[0]), True
        if e.op == "field":
            s = self.pointed(e.args[0]) if e.args[2] == "->" else self.look(e.args[0].args[0])
            return (s[0] if isinstance(s, list) else s)[e.args[1]], True
        if e.op == "deref":
            cells, at = self.pointed(e.args[0])
            return (cells[at] if isinstance(cells, list) else cells), True
        cells, at = self.pointed(e.args[0])
        k = self.value(e.args[1])
        if not 0 <= at + k[0] < len(cells):
            self.event("index", k[0])
            raise Stop
        return cells[at + k[0]], k[3]

    def look(self, name):
        for scope in reversed(self.scopes):
            if name in scope:
                return scope[name]
        raise KeyError(name)

    def pointed(self, e):
        """[cells or a cell or a struct, offset] of a pointer or an array."""
        if e.op == "var":
            found = self.look(e.args[0])
            if isinstance(found, list) and len(found) == 2 and isinstance(found[1], int):
                return list(found)
            return [found, 0]
        if e.op == "field":
            s = self.pointed(e.args[0])[0] if e.args[2] == "->" else self.look(e.args[0].args[0])
            return [s[e.args[1]], 0]
        if e.op == "address":
            inner = e.args[0]
            if inner.op == "index":
                cells, at = self.pointed(inner.args[0])
                return [cells, at + self.value(inner.args[1])[0]]
            if inner.op == "var" and isinstance(self.look(inner.args[0]), dict):
                return [self.look(inner.args[0]), 0]
            return [self.place(inner)[0], 0]
        if e.op == "moved":
            cells, at = self.pointed(e.args[0])
            return [cells, at + self.value(e.args[1])[0]]
        if e.op == "walk":
            holder = self.look(e.args[0].args[0])
            before = list(holder)
            holder[1] += e.args[1]
            return before if e.args[2] else list(holder)
        raise KeyError(e.op)

    def e_cast(self, e, inner):
        return self.fits(self.value(inner), e.kind)

    def e_unary(self, e, sign, inner):
        x, p, half, c = self.value(inner)
        if sign == "+":
            return x, p, half, c
        first = 0 if sign == "-" else -1 if e.kind[1] else SPANS[e.kind][1]
        n = first - x
        return self.kept((n, n if c else None if p is None else first - p, None, c), e.kind)

    def e_not(self, e, inner):
        return self.said(not self.value(inner)[0])

    @staticmethod
    def said(truth):
        return int(truth), int(truth), None, True

    def e_binary(self, e, op, left, right):
        a, b = self.value(left), self.value(right)
        if op in ("<<", ">>"):
            return self.binary(op, a, b, e.kind)
        a, b = self.fits(a, e.kind), self.fits(b, e.kind)
        return self.binary(op, a, b, e.kind)

    def e_compare(self, e, op, left, right):
        a, b = self.value(left), self.value(right)
        kind = met(left.kind, right.kind)
        x, y = self.fits(a, kind)[0], self.fits(b, kind)[0]
        return self.said({"<": x < y, ">": x > y, "<=": x <= y, ">=": x >= y, "==": x == y,
                          "!=": x != y}[op])

    def e_logic(self, e, op, left, right):
        if bool(self.value(left)[0]) == (op == "||"):
            return self.said(op == "||")
        return self.said(self.value(right)[0])

    def e_choice(self, e, cond, yes, no):
        return self.far(self.fits(self.value(yes if self.value(cond)[0] else no), e.kind))

    def e_comma(self, e, *some):
        for it in some[:-1]:
            self.value(it)
        return self.value(some[-1])

    def e_assign(self, e, op, left, right):
        cell, const = self.place(left)
        v = self.value(right)
        if op:
            old = self.get((cell, const))
            kind = promoted(left.kind) if op in ("<<", ">>") else met(left.kind, right.kind)
            if op not in ("<<", ">>"):
                old, v = self.fits(old, kind), self.fits(v, kind)
            v = self.binary(op, old, v, kind)
        return self.put(left, cell, const, v)

    def put(self, left, cell, const, v):
        v = self.far(self.fits(v, left.kind))
        if not const:       # the others may be words then, too
            cells, _ = self.pointed(left.args[0])
            for other in cells:
                if other.v is not None:
                    a, b, half, _ = other.v
                    other.v = a, b, half and (None,) + half[1:], False
                    self.wrote(other)
            v = v[0], v[1], v[2] and (None,) + v[2][1:], False
        cell.v = v
        self.wrote(cell)
        return v

    def wrote(self, cell):
        if cell.outer is not None:
            self.written[cell.outer] = cell

    def e_step(self, e, op, after, inner, kind):
        cell, const = self.place(inner)
        old = self.get((cell, const))
        new = self.binary(op, self.fits(old, kind), (1, 1, None, True), kind)
        new = self.put(inner, cell, const, new)
        return old if after else new

    def e_known(self, e, name, left, right):
        """A helper that compilers offer."""
        a, b = self.fits(self.value(left), INT), self.value(right)
        if name not in ("__SSAT", "__USAT"):
            b = self.fits(b, INT)
        self.masks |= {16} if name in ("__SMULBB", "__SMULWB") else set()
        x, y = a[0], b[0]

        def low(n):
            return (n + 32768) % 65536 - 32768

        def clip(n, ends):
            return min(max(n, ends[0]), ends[1])
        n = clip(x, (-1 << y - 1, (1 << y - 1) - 1)) if name == "__SSAT" else \
            clip(x, (0, (1 << y) - 1)) if name == "__USAT" else \
            clip(x + y, SPANS[INT]) if name == "__QADD" else \
            clip(x - y, SPANS[INT]) if name == "__QSUB" else \
            low(x) * low(y) if name == "__SMULBB" else \
            x * low(y) >> 16 if name == "__SMULWB" else x * y >> 32
        const = a[3] and b[3]
        return n, n if const else None, None, const

    def e_call(self, e, f, args):
        scope = {}
        for p, a in zip(f.params, args):
            if p.pointer is not None:
                scope[p.name] = self.pointed(a)
            else:
                scope[p.name] = Cell(p.sort, self.far(self.fits(self.value(a), p.sort)))
        outer, line = self.scopes, self.line
        self.scopes = [self.top, scope]
        try:
            value = self.body(f.body, f.back)
        finally:
            self.scopes, self.line = outer, line
        return self.far(value) if value is not None else None

    # -- statements

    def block(self, some, fresh=True):
        if fresh:
            self.scopes.append({})
        try:
            for s in some:
                self.run(s)
        finally:
            if fresh:
                self.scopes.pop()

    def run(self, s):
        """Runs a statement."""
        self.line, self.steps = s.line, self.steps + 1
        getattr(self, "s_" + s.op)(s, *s.args)

    def s_expr(self, s, e):
        self.value(e)

    def s_walk(self, s, e):
        self.pointed(e)

    def s_declare(self, s, name, kind, first):
        v = self.far(self.fits(self.value(first), kind)) if first is not None else None
        self.scopes[-1][name] = Cell(kind, v)

    def s_static(self, s, name, kind, first):
        if id(s) not in self.statics:
            first = self.words.get(name, first)
            self.statics[id(s)] = Cell(kind, (first, first, None, False), name)
        self.scopes[-1][name] = self.statics[id(s)]

    def s_array(self, s, name, kind, size, some):
        if some and isinstance(some[0], int):
            cells = [Cell(kind, (x, x, None, False)) for x in some]
        else:
            cells = [Cell(kind, self.far(self.fits(self.value(e), kind))) for e in some]
            cells += [Cell(kind, (0, 0, None, True) if some else None)
                      for _ in range(size - len(some))]
        self.scopes[-1][name] = cells

    def s_struct(self, s, name, fields):
        self.scopes[-1][name] = {f: [Cell(k[0]) for _ in range(k[1])] if isinstance(k[0], tuple)
                                 else Cell(k) for f, k in fields.items()}

    def s_pointer(self, s, name, e):
        self.scopes[-1][name] = self.pointed(e)

    def s_if(self, s, cond, yes, no):
        if self.value(cond)[0]:
            self.block(yes)
        elif no is not None:
            self.block(no)

    def s_loop(self, s, sort, first, cond, after, body):
        """A for, a while or a do."""
        self.scopes.append({})
        try:
            if first is not None:
                self.run(first)
            if sort == "do":
                self.turn(body, after)
            while True:
                self.line = s.line
                if not self.value(cond)[0] or not self.turn(body, after):
                    return
                if self.steps > 20000:
                    raise Stop
        finally:
            self.scopes.pop()

    def turn(self, body, after):
        """One turn; whether the loop goes on."""
        try:
            self.block(body)
        except Leave as it:
            if it.args[0] == "break":
                return False
            if it.args[0] == "return":
                raise
        for s in after:
            self.run(s)
        return True

    def s_switch(self, s, what, cases):
        x, taken = self.value(what)[0], False
        self.scopes.append({})
        try:
            at = next((k for k, (label, _) in enumerate(cases) if label == x), None)
            if at is None:
                at = next((k for k, (label, _) in enumerate(cases) if label is None), len(cases))
            for _, some in cases[at:]:
                self.block(some, fresh=False)
        except Leave as it:
            if it.args[0] != "break":
                raise
        finally:
            self.scopes.pop()

    def s_block(self, s, some):
        self.block(some)

    def s_leave(self, s, what, e):
        raise Leave(what, None if e is None else self.value(e))
