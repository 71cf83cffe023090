"""The universe of a script: its expressions, its pairs and its rules.

docs/RULES.md, "The universe"; the numbers in what follows are those of its list.
"""

from __future__ import annotations

from typing import Any, Callable

from .facts import VOID_SLOT, Slot
from .polynomial import rows
from .rules import VALUE
from .script import Script


class TooManyExpressions(Exception):
    """The universe has more than 1,024 expressions."""


MOST = 1024


class Universe:
    """E is a node list that begins with the script's; P a list of pairs."""

    def __init__(self, script: Script) -> None:
        """Closes the sets, and lists the instances."""
        self.script = script
        self.dag = script.dag.copy()
        self.pairs = []
        self.pair_set = set()
        self.hints = rows(script)
        self._close()
        self._instances()

    # -- the closure

    def _pair(self, a: int, b: int) -> None:
        """Adds a pair, and the difference of its sides (6)."""
        if (a, b) not in self.pair_set:
            self.pair_set.add((a, b))
            self.pairs.append((a, b))
            self._todo.append(("pair", a, b))
            self._difference(a, b)

    def _difference(self, a: int, b: int) -> None:
        """Adds the expression a - b."""
        if self.dag.find(("sub", a, b)) is None:
            self._todo.append(("difference", a, b))
            self.dag.add(("sub", a, b))
            if len(self.dag) > MOST:
                raise TooManyExpressions

    def _close(self) -> None:
        """The least sets with 1 to 8."""
        dag = self.dag
        self._todo = []
        count = len(dag)
        if count > MOST:
            raise TooManyExpressions
        for i in range(count):
            node = dag[i]
            if node[0] == "sub":
                self._todo.append(("difference", node[1], node[2]))
        for i in range(count):  # 2
            node = dag[i]
            if node[0] == "rnd":
                self._pair(i, node[3])
        for a, b in self.script.likes + self.script.apart:  # 3
            self._pair(a, b)
        starts = {}     # pairs by first side
        differences = {}    # differences by first side, and by second side
        differences_to = {}
        while self._todo:
            what, a, b = self._todo.pop()
            x, y = dag[a], dag[b]
            if what == "pair":  # 4 and 5, and then 8 with the pair
                if a != b and x[0] == y[0] and x[0] in ("add", "sub", "mul", "div"):
                    self._pair(x[1], y[1])
                    self._pair(x[2], y[2])
                if a != b and x[0] == y[0] == "neg":
                    self._pair(x[1], y[1])
                if x[0] == "rnd" and x[3] != b:
                    self._pair(x[3], b)
                starts.setdefault(a, []).append(b)
                if a != b:
                    for c in list(differences.get(a, ())):
                        if c != a and c != b:
                            self._difference(b, c)
                    for d in list(differences_to.get(a, ())):
                        if d != a and d != b:
                            self._difference(d, b)
            else:  # 7, and then 8 with the difference
                if x[0] == y[0] and x[0] in ("add", "sub", "mul"):
                    self._difference(x[1], y[1])
                    self._difference(x[2], y[2])
                if x[0] == y[0] == "neg":
                    self._difference(x[1], y[1])
                differences.setdefault(a, []).append(b)
                differences_to.setdefault(b, []).append(a)
                if a != b:
                    for c in list(starts.get(a, ())):
                        if c != a and c != b:
                            self._difference(c, b)
                    for c in list(starts.get(b, ())):
                        if c != a and c != b:
                            self._difference(a, c)

    # -- the instances

    def _instances(self) -> None:
        """Each rule on each of its premises and conclusions in the universe."""
        dag, pairs = self.dag, self.pair_set
        out = []
        find = dag.find

        def put(rule: int, c: Any, target: Slot, *premises: Slot, arg: int = 0) -> None:
            """Adds an instance."""
            out.append((rule, arg, c, target, premises))

        def B(x: int) -> Slot:
            """BND of x."""
            return ("B", x)

        def A(x: int) -> Slot:
            """ABS of x."""
            return ("A", x)

        def F(x: int) -> Slot:
            """FIX of x."""
            return ("F", x)

        def N(x: int) -> Slot:
            """NZR of x."""
            return ("N", x)

        def R(x: int, y: int) -> Slot:
            """REL of x and y."""
            return ("R", x, y)

        for x in range(len(dag)):
            node = dag[x]
            tag = node[0]
            put(11, None, A(x), B(x))
            put(12, None, B(x), A(x))
            put(13, None, B(x), B(x), A(x))
            put(27, None, F(x), B(x))
            put(28, None, B(x), B(x), F(x))
            put(31, None, N(x), B(x))
            put(32, None, N(x), A(x))
            put(90, None, VOID_SLOT, B(x), F(x))
            put(91, None, VOID_SLOT, B(x), N(x))
            if tag == "lit":
                put(1, node[1:], B(x))
                put(21, node[1:], F(x))
            elif tag == "neg":
                a = node[1]
                put(2, None, B(x), B(a))
                put(16, None, A(x), A(a))
                put(22, None, F(x), F(a))
                put(35, None, N(x), N(a))
            elif tag in ("add", "sub"):
                a, b = node[1:]
                put(3 if tag == "add" else 4, None, B(x), B(a), B(b))
                put(19, None, A(x), A(a), A(b))
                put(23, None, F(x), F(a), F(b))
                if tag == "sub":
                    if a == b:
                        put(5, None, B(x), B(a))
                    self._difference_rules(put, x, a, b)
            elif tag == "mul":
                a, b = node[1:]
                put(6, None, B(x), B(a), B(b))
                put(17, None, A(x), A(a), A(b))
                put(24, None, F(x), F(a), F(b))
                put(33, None, N(x), N(a), N(b))
                if a == b:
                    put(7, None, B(x), A(a))
            elif tag == "div":
                a, b = node[1:]
                put(8, None, B(x), B(a), B(b))
                put(9, None, B(x), B(a), N(b))
                put(18, None, A(x), A(a), A(b))
                put(34, None, N(x), N(a), N(b))
                if a == b:
                    put(10, None, B(x), N(a))
            elif tag == "abs":
                a = node[1]
                put(14, None, B(x), A(a))
                put(15, None, A(a), B(x))
            elif tag == "rnd":
                c, a = (node[1], node[2]), node[3]
                put(25, c, F(x), B(a))
                put(26, c, F(x), F(a))
                put(41, c, B(x), B(a))
        by_first = {}
        for a, b in self.pairs:
            by_first.setdefault(a, []).append(b)
        for x, y in self.pairs:
            d = find(("sub", x, y))
            r = R(x, y)
            put(36, None, N(y), r, N(x))
            if x != y:
                put(36, None, N(x), r, N(y))
            else:
                put(51, None, r, B(x))
            put(52, None, r, B(d), B(y))
            put(53, None, B(d), r, B(y))
            put(54, None, B(x), r, B(y))
            put(92, None, VOID_SLOT, r, N(y))
            q = find(("div", x, y))
            if q is not None:
                put(55, None, B(q), r, N(y))
            if (y, x) in pairs:
                put(59, None, r, R(y, x))
            for z in by_first.get(y, ()):
                if (x, z) in pairs:
                    put(58, None, R(x, z), r, R(y, z))
            m, n = dag[x], dag[y]
            if m[0] == n[0] == "neg" and (m[1], n[1]) in pairs:
                put(60, None, r, R(m[1], n[1]))
            if m[0] == n[0] and m[0] in ("add", "mul", "div"):
                a, b = m[1:]
                c, e = n[1:]
                if (a, c) in pairs and (b, e) in pairs:
                    if m[0] == "mul":
                        put(56, None, r, R(a, c), R(b, e))
                    elif m[0] == "div":
                        put(57, None, r, R(a, c), R(b, e), N(e))
                    else:
                        share = find(("div", c, y))
                        if share is not None:
                            put(61, None, r, R(a, c), R(b, e), B(share))
            if x != y:
                # 77, 78: x = y + (x - y), y = x - (x - y)
                put(77, None, B(x), B(y), B(d))
                put(78, None, B(y), B(x), B(d))
        # 75: (a,b) a pair, b-c and a-c in E; 76: (c,b) a pair, a-b and a-c in E
        subs = [(n[1], n[2], i) for i, n in enumerate(dag.nodes) if n[0] == "sub"]
        for a, c, i in subs:
            if a == c:
                continue
            for b in by_first.get(a, ()):
                if b != a and b != c:
                    q = find(("sub", b, c))
                    if q is not None:
                        put(75, None, B(i), B(find(("sub", a, b))), B(q))
            for b in by_first.get(c, ()):
                if b != a and b != c:
                    q = find(("sub", a, b))
                    if q is not None:
                        put(76, None, B(i), B(q), B(find(("sub", c, b))))
        for k, h in enumerate(self.hints):
            rest = [N(d) for d in h.divisors] + [n.slot() for n in h.needs]
            for kind in "BAFN":
                put(80, h.needs, (kind, h.left), (kind, h.right), *rest, arg=k)
        self.instances = out
        self._number()

    def _difference_rules(self, put: Callable[..., None], x: int, a: int, b: int) -> None:
        """Instances of the rules 42 to 44 and 71 to 74 on the difference x = a - b."""
        dag = self.dag
        m, n = dag[a], dag[b]
        find = dag.find
        if m[0] == "rnd" and m[3] == b:
            c = (m[1], m[2])
            put(42, c, ("B", x), ("B", b))
            if c[0] in ("zr", "aw"):
                put(43, c, ("B", x), ("B", b))
            put(44, c, ("B", x), ("F", b))
        if m[0] != n[0]:
            return
        if m[0] in ("add", "sub", "mul"):
            p, q = find(("sub", m[1], n[1])), find(("sub", m[2], n[2]))
            if p is None or q is None:
                return
            if m[0] == "mul":
                put(73, None, ("B", x), ("B", m[1]), ("B", q), ("B", p), ("B", n[2]))
            else:
                put(71 if m[0] == "add" else 72, None, ("B", x), ("B", p), ("B", q))
        elif m[0] == "neg":
            p = find(("sub", m[1], n[1]))
            if p is not None:
                put(74, None, ("B", x), ("B", p))

    def _number(self) -> None:
        """Slots get numbers; each slot knows the instances that take it."""
        self.slots = []
        self.slot_number = {}

        def number(s: Slot) -> int:
            """The slot's number; a new one goes last."""
            n = self.slot_number.get(s)
            if n is None:
                n = len(self.slots)
                self.slot_number[s] = n
                self.slots.append(s)
            return n

        number(VOID_SLOT)
        self.fast = []
        for rule, arg, c, target, premises in self.instances:
            self.fast.append((VALUE[rule], c, number(target),
                              tuple(number(p) for p in premises)))
        for x in range(len(self.dag)):
            number(("B", x))
        for a, b in self.pairs:
            number(("R", a, b))
        for x in range(len(self.dag)):
            number(("F", x))
        self.users = [[] for _ in self.slots]
        self.free = []
        for i, (_, _, _, premises) in enumerate(self.fast):
            if not premises:
                self.free.append(i)
            for p in dict.fromkeys(premises):
                self.users[p].append(i)
