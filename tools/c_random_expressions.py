"""Random expressions of C, as trees that c_meaning.py evaluates, with a guess of their ranges: most
of their operations stay within their types, and some don't."""

import random

from c_meaning import INT, met, promoted
from c_random_trees import KINDS, KNOWN, LEVELS, NAMES, SPELLED, E, Var, guess, hull, inside, span


class Expressions:
    """Makes expressions over what `scopes` has. `weight` is a guess of how many ways are taken."""

    def __init__(self, seed):
        self.chance = random.Random(seed)
        self.scopes, self.functions, self.fixed, self.macros = [{}], [], [], []
        self.weight, self.loops = 1, 0

    def odds(self, share):
        return self.chance.random() < share

    def one(self, some):
        return self.chance.choice(list(some))

    def spelled(self, kind):
        some = SPELLED[kind]
        return some[0] if self.odds(0.7) else self.one(some)

    def name(self, more=()):
        return self.one([n for n in NAMES if n not in self.scopes[-1] and n not in more][:17])

    # -- what is visible

    def visible(self):
        found = {}
        for scope in self.scopes:
            found.update(scope)
        return found.values()

    def scalars(self, left=False):
        """Lvalues of numbers that may be read (or written)."""
        found = []
        for v in self.visible():
            if left and not v.left:
                continue
            if v.fields is not None:
                found += [self.field(v, f) for f in v.fields
                          if not isinstance(v.fields[f][0], tuple)]
                found += [self.element(self.field_array(v, f), v.fields[f][1])
                          for f in v.fields if isinstance(v.fields[f][0], tuple)]
            elif v.array:
                found.append(self.element(self.var(v), v.size))
            elif v.pointer == "scalar":
                text = "*%s" % v.name
                found.append(E("deref", v.sort, v.ends, text, 14, {v.name}, self.var(v)))
            else:
                found.append(self.var(v))
        return found

    def var(self, v):
        return E("var", v.sort, v.ends, v.name, 16, {v.name}, v.name)

    def field(self, v, f):
        how = "->" if v.pointer else "."
        text = "%s%s%s" % (v.name, how, f)
        if v.pointer and self.odds(0.1):
            text = "(*%s).%s" % (v.name, f)
        return E("field", v.fields[f], v.ends.get(f, span(v.fields[f])), text, 16, {v.name},
                 self.var(v), f, how)

    def field_array(self, v, f):
        how = "->" if v.pointer else "."
        return E("field", v.fields[f][0], v.ends.get(f, span(v.fields[f][0])),
                 "%s%s%s" % (v.name, how, f), 16, {v.name}, self.var(v), f, how)

    def element(self, base, size):
        if self.odds(0.25):
            at = self.place_in(size)
        else:
            at = self.number(self.chance.randrange(size))
        text = "%s[%s]" % (base.at(15), at.text)
        return E("index", base.kind, base.ends, text, 15, base.names | at.names, base, at)

    def place_in(self, size):
        """An index that depends on inputs."""
        some = [v for v in self.visible() if v.fields is None and not v.array and
                v.pointer is None]
        fit = [v for v in some if 0 <= v.ends[0] and v.ends[1] < size]
        if fit and self.odds(0.7):
            return self.var(self.one(fit))
        if not some:
            return self.number(self.chance.randrange(size))
        v = self.var(self.one(some))
        most = 1 << size.bit_length() - 1
        e = self.operation("&", v, self.number(most - 1))
        return e if self.odds(0.7) or v.ends[0] < 0 else \
            self.operation("%", v, self.number(size))

    # -- expressions

    def number(self, n, plain=False):
        """A constant, in one of its spellings."""
        if n < 0:
            e = self.number(-n, plain)
            return E("unary", e.kind, (n, n), "-%s" % e.at(15), 14, (), "-", e) if \
                e.kind[1] else self.cast(e, (64, True), minus=True)
        text, suffix = str(n), ""
        if not plain and self.odds(0.25):
            text = "0x%x" % n if self.odds(0.8) else "0%o" % n
            suffix = self.one(["", "", "u", "L", "UL"])
        elif not plain and self.odds(0.1):
            suffix = self.one(["u", "l", "U"])
        kind = next((k for k in ((32, True), (32, False), (64, True), (64, False))
                     if n <= span(k)[1] and (k[0] == 64 or "l" not in suffix.lower())
                     and (not k[1] if "u" in suffix.lower() else k[1] or text[0] == "0")),
                    None)
        if kind is None:
            text, kind = "%du" % n, (64, False)
        return E("lit", kind, (n, n), text + suffix, 16, (), n)

    def cast(self, e, kind, minus=False):
        text = "(%s)%s" % (self.spelled(kind), e.at(14))
        e = E("cast", kind, e.ends if inside(e.ends, kind) else span(kind), text, 14, e.names, e)
        if minus:
            return E("unary", kind, (-e.ends[0], -e.ends[0]), "-%s" % e.at(15), 14, (), "-", e)
        return e

    def wide(self, e, kind):
        """The same in a wider type."""
        return e if e.kind == kind else self.cast(e, kind)

    def narrow(self, e, kind):
        """Something made of e whose range is within a type, mostly."""
        if inside(e.ends, kind) or self.odds(0.04):
            return e
        low, high = span(kind)
        if low == 0 or self.odds(0.2):
            bits = self.chance.randint(1, min(kind[0] - kind[1], promoted(e.kind)[0] - 1, 31))
            return self.operation("&", e, self.number((1 << bits) - 1))
        by = 1
        while not inside((e.ends[0] >> by, e.ends[1] >> by), kind) and by < e.kind[0] - 1:
            by += 1
        by = min(by + self.chance.randint(0, 2), promoted(e.kind)[0] - 1)
        return self.shifted(e, by)

    def shifted(self, e, by):
        """e >> by, perhaps rounded."""
        kind = promoted(e.kind)
        half = 1 << by - 1
        if self.odds(0.3) and e.ends[1] + half <= span(kind)[1]:
            e = self.operation("+", e, self.number(half, True))
        return self.operation(">>", e, self.number(by, True))

    def operation(self, op, a, b):
        """a op b, as it stands."""
        kind = promoted(a.kind) if op in ("<<", ">>") else met(a.kind, b.kind)
        p, q = a.ends, b.ends
        if op not in ("<<", ">>"):
            p, q = [e if inside(e, kind) else span(kind) for e in (p, q)]
        ends = guess(op, p, q)
        level = LEVELS[op]
        text = "%s %s %s" % (a.at(level), op, b.at(level + 1))
        if self.odds(0.1) or op in "&|^" or (a.level < 13 and a.level != level):
            text = "%s %s %s" % (a.at(14), op, b.at(14))
        return E("binary", kind, ends, text, level, a.names | b.names, op, a, b)

    def arithmetic(self, op, a, b):
        """a op b, within its type, mostly."""
        kind = met(a.kind, b.kind)
        if not kind[1]:
            a, b = [self.narrow(e, kind) if e.ends[0] < 0 else e for e in (a, b)]
            if op == "-" and a.ends[0] < b.ends[1]:
                op = "+"
        for _ in range(4):
            e = self.operation(op, a, b)
            if inside(e.ends, e.kind) or self.odds(0.03):
                return e
            if e.kind[0] == 32 and self.odds(0.4):
                a = self.wide(a, (64, e.kind[1]))
            elif op == "*" and a.ends[1] - a.ends[0] >= b.ends[1] - b.ends[0] or self.odds(0.5):
                a = self.shifted(a, self.chance.randint(1, promoted(a.kind)[0] // 2))
            else:
                b = self.shifted(b, self.chance.randint(1, promoted(b.kind)[0] // 2))
        return e if inside(e.ends, e.kind) else a

    def leaf(self):
        some = self.scalars()
        if some and self.odds(0.85):
            return self.one(some)
        if self.tables and self.odds(0.3):
            return self.element(self.var(self.one([v for v in self.scopes[0].values()
                                                   if v.text == "table"])), 8) \
                if any(v.text == "table" for v in self.visible()) else self.small()
        if self.fixed and self.odds(0.4):
            return self.constant()
        return self.small()

    def constant(self):
        """A named constant that nothing hides."""
        some = [c for c in self.fixed if not any(c.text == v.name for v in self.visible())]
        return self.one(some) if some else self.small()

    def small(self):
        return self.number(self.one([0, 1, 2, 3, 5, 7, 10, 100, 127, 128, 255, 1000, 4096, 32767,
                                     32768, 65535]) if self.odds(0.8) else
                           self.chance.randrange(1 << self.chance.randint(1, 31)))

    def expr(self, deep):
        """Any expression without effects."""
        if deep <= 0 or self.odds(0.12):
            return self.leaf()
        sort = self.one(self.SORTS)
        e = getattr(self, "x_" + sort)(deep - 1)
        if len(e.text) > 160:
            return self.leaf()
        return e

    SORTS = ("sum sum sum product product shift shift left and or rest quotient sign not cast cast "
             "choice compare logic call call macro comma size mean high_low known").split()

    def x_sum(self, deep):
        return self.arithmetic(self.one("+-"), self.expr(deep), self.expr(deep))

    def x_product(self, deep):
        return self.arithmetic("*", self.expr(deep), self.expr(deep))

    def x_shift(self, deep):
        e = self.expr(deep)
        return self.shifted(e, self.chance.randint(1, min(promoted(e.kind)[0] - 1, 18)))

    def x_left(self, deep):
        e, by = self.expr(deep), self.chance.randint(0, 12)
        kind = promoted(e.kind)
        while by and not inside((e.ends[0] << by, e.ends[1] << by), kind):
            by -= 1
        return self.operation("<<", e, self.number(by, True))

    def x_and(self, deep):
        e = self.expr(deep)
        kind = promoted(e.kind)
        bits = self.chance.randint(1, kind[0] - 2)
        mask = (1 << bits) - 1
        if self.odds(0.3) and bits > 2:
            low = self.chance.randint(1, bits - 1)
            mask = mask >> low << low
            if self.odds(0.3):
                mask |= 1
        if self.odds(0.2) and kind[1]:
            e = E("binary", kind, e.ends, "%s & ~%d" % (e.at(14), (1 << bits % 6 + 1) - 1), 8,
                  e.names, "&", e, E("lit", INT, (0, 0), "", 16, (), -(1 << bits % 6 + 1)))
            return e
        b = self.number(mask)
        if not met(e.kind, b.kind)[1] and e.ends[0] < 0:
            b = self.number(mask & 0x7fff or 1, True)
        return self.operation("&", e, b) if met(e.kind, b.kind)[1] or e.ends[0] >= 0 else e

    def x_or(self, deep):
        a, b, k = self.expr(deep), self.expr(deep), self.chance.randint(1, 12)
        low = self.operation("&", b, self.number((1 << k) - 1, True))
        if not met(low.kind, a.kind)[1] and min(a.ends[0], b.ends[0]) < 0:
            return low
        if self.odds(0.2):
            a = self.one([self.operation("&", a, self.number(((1 << k) - 1) << k, True)), a])
            return self.operation(self.one("|"), a, self.number((1 << k) - 1, True)) \
                if met(a.kind, INT)[1] or a.ends[0] >= 0 else a
        if not inside((a.ends[0] << k, a.ends[1] << k), promoted(a.kind)):
            a = self.shifted(a, min(k + 1, 15))
        if not inside((a.ends[0] << k, a.ends[1] << k), promoted(a.kind)):
            return low
        high = self.operation("<<", a, self.number(k, True))
        return self.operation(self.one("|^"), *self.one(((high, low), (low, high))))

    def x_rest(self, deep):
        e = self.expr(deep)
        by = self.number(self.one([2, 3, 4, 7, 8, 10, 16, 100, 255, 1000]), True)
        return self.operation("%", e, by)

    def x_quotient(self, deep):
        a, b = self.expr(deep), self.expr(deep)
        if b.ends[0] <= 0 <= b.ends[1] and not self.odds(0.05):
            b = self.number(self.one([2, 3, 5, 7, 10, 100]), True)
            if self.odds(0.4) and a.ends[0] >= 0:
                b = self.arithmetic("+", self.operation("&", self.leaf(), self.number(7, True)),
                                    self.number(1, True))
        if not met(a.kind, b.kind)[1] and (a.ends[0] < 0 or b.ends[0] < 0):
            return a
        return self.operation("/", a, b)

    def x_sign(self, deep):
        e = self.expr(deep)
        kind, sign = promoted(e.kind), self.one("--~~+")
        if sign == "-" and (not kind[1] or e.ends[0] == span(kind)[0]):
            sign = "~"
        first = 0 if sign == "-" else -1 if kind[1] else span(kind)[1]
        ends = e.ends if sign == "+" else (first - e.ends[1], first - e.ends[0])
        return E("unary", kind, ends, "%s%s" % (sign, e.at(15)), 14, e.names, sign, e)

    def x_not(self, deep):
        e = self.cond(deep) if self.odds(0.5) else self.expr(deep)
        return E("not", INT, (0, 1), "!%s" % e.at(15), 14, e.names, e)

    def x_cast(self, deep):
        e = self.expr(deep)
        kind = self.one(KINDS)
        return self.cast(self.narrow(e, kind), kind)

    def x_choice(self, deep):
        c, a, b = self.cond(deep), self.expr(deep), self.expr(deep)
        return self.choice(c, a, b)

    def choice(self, c, a, b):
        kind = met(a.kind, b.kind)
        if not kind[1] and min(a.ends[0], b.ends[0]) < 0:
            return a
        self.branched(2)
        text = "%s ? %s : %s" % (c.at(4), a.at(4), b.at(3))
        return E("choice", kind, hull(a.ends, b.ends), text, 3, c.names | a.names | b.names, c, a,
                 b)

    def cond(self, deep):
        return self.x_logic(deep) if self.odds(0.2) else self.x_compare(deep)

    def x_compare(self, deep):
        a = self.expr(deep)
        b = self.expr(deep) if self.odds(0.3) else self.near(a)
        if not met(a.kind, b.kind)[1] and min(a.ends[0], b.ends[0]) < 0:
            b = self.number(max(0, min(100, a.ends[1])), True)
            a = self.wide(a, (64, True)) if not met(a.kind, b.kind)[1] and a.ends[0] < 0 else a
        op = self.one(("<", ">", "<=", ">=", "==", "!="))
        self.branched(2)
        level = LEVELS[op]
        return E("compare", INT, (0, 1), "%s %s %s" % (a.at(11), op, b.at(11)), level,
                 a.names | b.names, op, a, b)

    def near(self, a):
        """A constant in or at the ends of a range."""
        low, high = a.ends
        low, high = max(low, -(1 << 31)), min(high, (1 << 31) - 1)
        n = self.one([low, high, 0, high - 1, low + 1, self.chance.randint(*sorted((low, high)))])
        n = min(max(n, -(1 << 31) + 1), (1 << 31) - 1)
        return self.number(n if a.kind[1] else max(n, 0), True)

    def x_logic(self, deep):
        op = self.one(("&&", "||"))
        a, b = self.x_compare(deep), self.x_compare(deep)
        return E("logic", INT, (0, 1), "%s %s %s" % (a.at(6), op, b.at(6)), LEVELS[op],
                 a.names | b.names, op, a, b)

    def x_comma(self, deep):
        a, b = self.leaf(), self.expr(deep)
        return E("comma", b.kind, b.ends, "%s, %s" % (a.text, b.at(2)), 1, a.names | b.names, a, b)

    def x_size(self, deep):
        some = [(self.var(v), v) for v in self.visible() if v.array and v.text in ("table", "own")]
        some += [(self.field_array(v, f), Var("", v.fields[f][0], (), size=v.fields[f][1]))
                 for v in self.visible() if v.fields for f in v.fields
                 if isinstance(v.fields[f][0], tuple)]
        if some and self.odds(0.6):
            e, v = self.one(some)
            return E("lit", (32, True), (v.size, v.size),
                     "(int)(sizeof %s / sizeof %s[0])" % (e.at(14), e.at(14)), 14, (), v.size)
        e = self.expr(min(deep, 1))
        return E("lit", (64, False), (e.kind[0] // 8,) * 2, "sizeof %s" % e.at(15), 14, (),
                 e.kind[0] // 8)

    def x_mean(self, deep):
        """a + ((b - a) * t >> k)."""
        a, b, k = self.leaf(), self.leaf(), self.chance.randint(1, 8)
        t = self.operation("&", self.leaf(), self.number((1 << k) - 1, True))
        if not met(a.kind, b.kind)[1] or not t.kind[1]:
            return a
        d = self.arithmetic("-", a, b)
        p = self.operation(">>", self.arithmetic("*", d, t), self.number(k, True))
        return self.arithmetic("+", b, p)

    def x_high_low(self, deep):
        """Both parts of a number."""
        e, k = self.leaf(), self.chance.randint(1, 10)
        high = self.operation(">>", e, self.number(k, True))
        low = self.operation("&", e, self.number((1 << k) - 1, True))
        return self.arithmetic(self.one("+*-"), high, low) if e.kind[1] else high

    def x_known(self, deep):
        """A call of a helper that compilers offer."""
        name, word = self.one(KNOWN), (32, True)
        a = self.narrow(self.expr(deep), word)
        if name in ("__SSAT", "__USAT"):
            n = self.chance.randint(2, 31)
            b = self.number(n, True)
            ends = (-1 << n - 1, (1 << n - 1) - 1) if name == "__SSAT" else (0, (1 << n) - 1)
        else:
            b = self.narrow(self.expr(min(deep, 1)), word)
            ends = span(word)
        self.branched(3 if name[3] in "SQA" and name != "__SMMUL" else 1)
        kind = (32, False) if name == "__USAT" else word
        return E("known", kind, ends, "%s(%s, %s)" % (name, a.at(2), b.at(2)), 16,
                 a.names | b.names, name, a, b)

    def branched(self, ways):
        self.weight *= ways ** (3 if self.loops else 1)

    def x_macro(self, deep):
        """A macro with arguments, whose expansion repeats them."""
        if self.macros and self.odds(0.6):
            a, b = self.expr(min(deep, 1)), self.expr(min(deep, 1))
            name = self.one(self.macros)
            if name == "SCALE":
                p = self.arithmetic("*", a, b)
                if p.op != "binary" or p.args[1] is not a or p.args[2] is not b or p.kind[0] > 32:
                    return p
                e = self.operation(">>", p, self.number(4, True))
            else:
                op = "<" if name == "LEAST" else ">"
                kind = met(a.kind, b.kind)
                if not kind[1] and min(a.ends[0], b.ends[0]) < 0:
                    return a
                self.branched(2)
                c = E("compare", INT, (0, 1), "", 10, a.names | b.names, op, a, b)
                e = E("choice", kind, hull(a.ends, b.ends), "", 3, c.names, c, a, b)
            e.text, e.level = "%s(%s, %s)" % (name, a.at(2), b.at(2)), 16
            return e
        return self.leaf()

    def x_call(self, deep):
        some = [f for f in self.functions if f.back and all(p.pointer is None for p in f.params)
                and not f.effects]
        if not some:
            return self.expr(deep)
        f = self.one(some)
        args = [self.narrow(self.expr(min(deep, 1)), p.sort) for p in f.params]
        self.branched(f.weight)
        text = "%s(%s)" % (f.name, ", ".join(a.at(2) for a in args))
        names = {f.name}.union(*[a.names for a in args])
        return E("call", f.back, f.ends, text, 16, names, f, args)
