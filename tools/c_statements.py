"""Statements and calls of C on a path, and all paths of a routine."""

from pycparser import c_ast as C

from c_nodes import Value, lit
from c_paths import Leaves, Thing
from c_places import Places, Pointer
from c_run import Expressions
from c_source import STEPPED, Names, Refused, says
from c_types import parameters

TURNS, MOST, DEEP = 1000, 640, 16       # turns of a loop, paths of a routine, calls in calls


class Return(Leaves):
    """A return, with its expression's value and its place."""


class Break(Leaves):
    pass


class Continue(Leaves):
    pass


def leaves(s, loop=False, case=False):
    """Whether a statement may leave the place where it stands: by return, break, continue, goto.
    `loop`, `case`: within a loop, or a switch, of its own."""
    if isinstance(s, (C.Return, C.Goto, C.Label)):
        return True
    if isinstance(s, C.Break):
        return not (loop or case)
    if isinstance(s, C.Continue):
        return not loop
    loop = loop or isinstance(s, (C.For, C.While, C.DoWhile))
    case = case or isinstance(s, C.Switch)
    return s is not None and any(leaves(child, loop, case) for _, child in s.children())


def plain(e):
    """Whether no call can change which place an lvalue is."""
    if isinstance(e, C.ArrayRef):
        return isinstance(e.name, C.ID) and isinstance(e.subscript, C.Constant)
    if isinstance(e, C.StructRef):
        return isinstance(e.name, C.ID)
    return isinstance(e, C.ID)


def pieces(e):
    """The parts of an expression that are evaluated one after the other."""
    if isinstance(e, C.BinaryOp) and e.op in ("&&", "||"):
        return pieces(e.left) + pieces(e.right)
    if isinstance(e, C.TernaryOp):
        return pieces(e.cond) + pieces(e.iftrue) + pieces(e.iffalse)
    if isinstance(e, C.ExprList):
        return [part for it in e.exprs for part in pieces(it)]
    return [e]


class Run(Expressions, Places):
    """One run of a routine. `picks` says which way each branch goes; `states` are the names of
    places that are kept from call to call, besides static variables."""

    def __init__(self, unit, name, ranges, sizes, picks=(), joins=False, apart=False, states=()):
        Places.__init__(self, unit, ranges, sizes, picks, joins)
        self.calls, self.states = [], tuple(states)
        f = unit.functions[name]
        if f.param_decls:
            raise Refused(f.decl, "parameters in the old form")
        for n, p in parameters(f).items():
            self.parameter(n, p)
        self.frame = 1
        result = self.body(f)
        if result is not None:
            self.outs["result"] = result
        for thing, sel in sorted(self.written, key=lambda k: k[0].cell(k[1])):
            if thing.cell(sel) in self.outs:
                raise Refused(thing.decl, "two outputs would be named %s: rename one"
                              % thing.cell(sel))
            self.outs[thing.cell(sel)] = self.env[thing, sel]
        if not apart:
            self.apart()
        lows = {(id(n.args[0]), n.args[1]) for n in self.order if n.op == "low"}
        for n in self.order:
            n.split = n.op == "shift" and (id(n.args[0]), n.args[1]) in lows

    # -- full expressions

    def full(self, e, whole=None):
        """Looks that what changes within a full expression is used nowhere else in it, so that the
        order in which it is evaluated doesn't matter."""
        if id(e) not in self.unit.checked:
            self.looked(e, whole)
        for names in self.unit.checked[id(e)]:
            for changed in names.changed:
                thing = self.look(changed.name, changed)
                if thing is not None and names.called and thing.outer or any(
                        isinstance(v, Pointer) and v.thing is thing for v in self.env.values()):
                    raise Refused(changed, "%s changes in an expression in which a call or a "
                                           "pointer may use it: make that a statement"
                                  % changed.name)

    def looked(self, e, whole):
        """The same, as far as names alone say it."""
        names = Names(e, whole)
        for changed in names.changed:
            if not isinstance(changed, C.ID):
                raise Refused(changed, "%s changes within an expression: make that a statement"
                              % says(changed))
            if names.met.count(changed.name) > 1:
                raise Refused(changed, "%s changes in an expression that uses it again" %
                              changed.name)
        some = [Names(it, whole) for it in pieces(e)] if names.changed else []
        self.unit.checked[id(e)] = [n for n in some if n.changed]
        while isinstance(e, C.Cast) or isinstance(e, C.Assignment) and e.op == "=" and \
                plain(e.lvalue):
            e = e.expr if isinstance(e, C.Cast) else e.rvalue
        self.unit.alone.add(id(e))

    def fully(self, e, run, whole=None):
        """What `run` gives of a full expression; refuses one that uses, by a pointer or in a call,
        what changes in it."""
        self.full(e, whole)
        used, value = len(self.touched), None
        value = run(e)
        some = self.unit.checked[id(e)] if len(pieces(e)) == 1 else []
        for changed in [it for names in some for it in names.changed]:
            thing = self.look(changed.name, changed)
            if any(key == (thing, None) and by is not changed
                   for key, by, _ in self.touched[used:]):
                raise Refused(changed, "%s changes in an expression that uses it again by a "
                                       "pointer" % changed.name)
        return value

    def value(self, e, whole=None):
        """The value of a full expression."""
        return self.fully(e, self.expr, whole)

    # -- calls

    def call(self, e):
        """The value of a call, None of a function without one. The function is run in its place."""
        name = getattr(e.name, "name", None)
        f = self.unit.function(name)
        if f is None:
            raise Refused(e, "a call of %s, which the file doesn't define: write it there"
                          % says(e.name))
        if len(self.calls) > DEEP or f in self.calls:
            raise Refused(e, "calls of %s within calls of it" % name)
        given = e.args.exprs if e.args else []
        kinds = parameters(f)
        if len(given) != len(kinds):
            raise Refused(e, "%s has %d parameters" % (name, len(kinds)))
        scope = {n: self.argument(n, p, a) for (n, p), a in zip(kinds.items(), given)}
        outer, self.scopes, before = self.scopes, [{}, {}], self.stores
        things = [thing for thing, _ in scope.values()]

        def body():
            used, wrote = len(self.touched), len(self.modified)
            value = self.body(f)
            self.broken(things, used, wrote, e)
            return value
        self.frame += 1
        self.calls.append(f)
        for n, (thing, value) in scope.items():
            thing.frame = self.frame
            self.scopes[-1][n] = thing
            self.env[thing, None] = value
        here, self.here = self.here, self.here or (None if name in self.unit.functions else e)
        try:
            result = self.joined(body, e, name) if self.joins else body()
        except Refused as fault:
            if self.here is None or fault.where is e:
                raise
            raise Refused(self.here, "within the helper %s: %s" % (name, fault.what))
        finally:
            self.scopes = outer
        self.here = here
        self.calls.pop()
        self.frame -= 1
        for key in [k for k in self.env if k[0].frame > self.frame]:
            del self.env[key]
        if self.stores != before and id(e) not in self.unit.alone:
            raise Refused(e, "a call that changes what isn't its own, within an expression: "
                             "make it a statement")
        return result

    def argument(self, name, p, a):
        """The thing of a called function's parameter, and its value."""
        if isinstance(p.type, (C.PtrDecl, C.ArrayDecl)):
            if not self.points(a):
                raise Refused(a, "a number as the pointer %s" % name)
            value = self.pointer(a)
            self.agrees(value, p.type.type, a)
            return Thing(name, "pointer", None, quals=self.qualified(p), decl=p), value
        if self.unit.fields(p.type):
            raise Refused(a, "a call with a struct: pass a pointer to it")
        kind = self.unit.kind(p.type, p)
        return Thing(name, "scalar", kind), self.fits(self.number(a), kind, a)

    def agrees(self, pointer, t, where):
        """Refuses a pointer to another type than `t`."""
        fields = self.unit.fields(t) if not isinstance(t, (C.PtrDecl, C.ArrayDecl)) else None
        mine = pointer.thing.kind if pointer.sel == "" else pointer.thing.of(pointer.sel)
        if mine != (fields or self.unit.kind(t, where)):
            raise Refused(where, "a pointer to another type: %s" % says(where))

    def body(self, f):
        """Runs a function's body; its value, None if it has none."""
        back, value = self.unit.kind(f.decl.type.type, f.decl), None
        try:
            self.run(f.body)
        except Return as it:
            value, where = it.args
            if value is not None and back:
                if isinstance(value, Pointer):
                    raise Refused(where, "a pointer as a result")
                value = self.fits(value, back, where)
        if back and value is None:
            raise Refused(f.decl, "a path of %s ends without a value" % f.decl.name)
        return value if back else None

    # -- declarations

    def declare(self, s):
        if not isinstance(s, C.Decl):
            raise Refused(s, "%s within a function isn't served" % type(s).__name__)
        if isinstance(s.type, C.FuncDecl):
            return
        t = s.type
        while isinstance(t, (C.TypeDecl, C.PtrDecl, C.ArrayDecl)):
            t = t.type
        if isinstance(t, C.Struct) and t.decls or isinstance(t, C.Enum):
            raise Refused(s, "a type within a function: write it before")
        table = isinstance(s.type, C.ArrayDecl) and "const" in s.quals and s.init is not None and \
            isinstance(s.init, C.InitList) and all(
                not isinstance(x, C.NamedInitializer) and self.constant(x) for x in s.init.exprs)
        if s.init is not None and s.name in Names(s.init).met:
            raise Refused(s, "%s within its own first value" % s.name)
        if "static" in s.storage and any(n in scope for it in (s.init, getattr(s.type, "dim", None))
                                         if it is not None for n in Names(it).met
                                         for scope in self.scopes[1:]):
            raise Refused(s, "a first value of %s isn't constant" % s.name)
        if table:
            values, kind = self.unit.table(s)
            thing = Thing(s.name, "array", kind, len(values), ("const",), s, frame=self.frame)
            thing.values = values
        elif "static" in s.storage and "const" not in s.quals:
            thing = self.kept_thing(s)
        elif "static" in s.storage and isinstance(s.type, (C.ArrayDecl, C.PtrDecl)):
            raise Refused(s, "the table %s has no list of constant entries" % s.name)
        elif "extern" in s.storage:
            raise Refused(s, "an extern variable within a function")
        else:
            thing = self.local(s)
        self.scopes[-1][s.name] = thing

    def constant(self, e):
        """Whether an expression is constant by itself, without the names of this function."""
        names = Names(e).met
        return not any(n in scope for n in names for scope in self.scopes) and \
            self.unit.fold(e) is not None

    def local(self, s):
        """A variable of a function, with its first value."""
        if isinstance(s.type, C.PtrDecl):
            thing = Thing(s.name, "pointer", None, quals=self.qualified(s), decl=s,
                          frame=self.frame)
            if isinstance(s.type.type, (C.PtrDecl, C.ArrayDecl, C.FuncDecl)):
                raise Refused(s, "a pointer to pointers, arrays or functions")
            if s.init is None:
                raise Refused(s, "a pointer without a first value")
            if not self.points(s.init):
                raise Refused(s, "a number as a pointer")
            pointer = self.fully(s.init, self.pointer)
            self.agrees(pointer, s.type.type, s.init)
            self.env[thing, None] = pointer
            return thing
        if isinstance(s.type, C.ArrayDecl):
            return self.array(s)
        fields = self.unit.fields(s.type)
        if fields:
            if s.init is not None:
                raise Refused(s, "a struct with first values: set its fields")
            return Thing(s.name, "struct", fields, decl=s, frame=self.frame)
        thing = Thing(s.name, "scalar", self.unit.kind(s.type, s), decl=s, frame=self.frame)
        if thing.kind is None:
            raise Refused(s, "a variable of void")
        self.scopes[-1][s.name] = thing
        if s.init is not None:
            self.put(((thing, None), None), self.value(s.init), s)
        return thing

    def array(self, s):
        """An array of a function, with its first values."""
        if isinstance(s.type.type, (C.ArrayDecl, C.PtrDecl)):
            raise Refused(s, "an array of arrays or pointers: write it as one")
        given = s.init.exprs if isinstance(s.init, C.InitList) else None
        if s.init is not None and (given is None or any(
                isinstance(x, (C.NamedInitializer, C.InitList)) for x in given)):
            raise Refused(s, "the first values of %s have a form that isn't served" % s.name)
        size, kind = self.sized(s), self.unit.kind(s.type.type, s)
        size = len(given) if size is None and given else size
        if size is None or given and len(given) > size:
            raise Refused(s, "an array without a constant size that holds its values")
        self.scopes[-1][s.name] = thing = Thing(s.name, "array", kind, size, decl=s,
                                                frame=self.frame)
        if given:       # the order in which they are evaluated isn't certain
            self.full(s.init)
        for k in range(size if given is not None else 0):
            value = self.number(given[k]) if k < len(given) else Value(lit(0), kind)
            self.put(((thing, k), None), value, s)
        return thing

    # -- statements

    def run(self, s):
        """Runs a statement."""
        if s is None or isinstance(s, (C.EmptyStatement, C.Pragma)):
            return
        if isinstance(s, (C.Compound, C.For)):
            self.block(s)
        elif isinstance(s, C.While):
            self.loop(s)
        elif isinstance(s, C.DoWhile):
            self.loop(s, first=True)
        elif isinstance(s, C.If):
            self.branches(s, lambda: self.run(s.iftrue if self.decided(s.cond) else s.iffalse))
        elif isinstance(s, C.Switch):
            self.branches(s, lambda: self.switch(s))
        elif isinstance(s, C.Return):
            raise Return(self.value(s.expr) if s.expr is not None else None, s)
        elif isinstance(s, C.Break):
            raise Break
        elif isinstance(s, C.Continue):
            raise Continue
        elif isinstance(s, C.Assignment):
            self.fully(s, self.assign, s)
        elif isinstance(s, C.UnaryOp) and s.op in STEPPED:
            self.fully(s, self.expr, s)
        elif isinstance(s, C.FuncCall):
            self.fully(s, self.call)
        elif isinstance(s, C.ExprList):
            for it in s.exprs:
                self.run(it)
        elif isinstance(s, C.Cast) and self.unit.kind(s.to_type.type, s) is None:
            if isinstance(s.expr, (C.FuncCall, C.Assignment, C.UnaryOp)):
                self.run(s.expr)
            elif not isinstance(s.expr, C.ID):
                self.value(s.expr)
        elif isinstance(s, (C.DeclList, C.Decl)):
            raise Refused(s, "a declaration in a place that isn't served")
        else:
            raise Refused(s, "%s as a statement isn't served" % type(s).__name__)

    def decided(self, e):
        """Whether a condition holds, as a full expression."""
        return self.fully(e, self.truth)

    def branches(self, s, run):
        """An if or a switch. With joins its ways come together, unless it leaves its place."""
        if self.joins and not leaves(s):
            self.joined(run, s.cond)
        else:
            run()

    def assign(self, s):
        """An assignment; what is stored."""
        place = self.place(s.lvalue)
        v = self.expr(s.rvalue)
        if s.op != "=":
            old, op = self.get(place, s.lvalue), s.op[:-1]
            if isinstance(old, Pointer):
                if op not in "+-" or isinstance(v, Pointer) or v.node.const is None:
                    raise Refused(s, "where a pointer points depends on an input: %s" % says(s))
                v = self.moved(old, v.node.const if op == "+" else -v.node.const, s)
            else:
                if isinstance(v, Pointer):
                    raise Refused(s, "a pointer as a number: %s" % says(s))
                v = self.binary(C.BinaryOp(op, s.lvalue, s.rvalue, s.coord), op, old, v)
        v = self.put(place, v, s)
        return v.based(place[0][0]) if isinstance(v, Pointer) else v

    def block(self, s):
        """A block, or a for with what it declares: its names end with it."""
        scope, used, wrote = {}, len(self.touched), len(self.modified)
        self.scopes.append(scope)
        refused = False
        try:
            some = s.block_items or [] if isinstance(s, C.Compound) else \
                s.init.decls if isinstance(s.init, C.DeclList) else [s.init] if s.init else []
            for it in some:
                if isinstance(it, (C.Decl, C.Typedef)):
                    self.declare(it)
                else:
                    self.run(it)
            if isinstance(s, C.For):
                self.loop(s)
        except Refused:
            refused = True
            raise
        finally:
            self.scopes.pop()
            if not refused:
                self.broken(scope.values(), used, wrote, s)
            gone = {thing for thing in scope.values() if not thing.outer}
            for key in [k for k in self.env if k[0] in gone]:
                del self.env[key]

    def loop(self, s, first=False):
        """A loop whose end doesn't depend on inputs."""
        for _ in range(TURNS):
            if not first:
                ways = len(self.ways)
                goes = s.cond is None or self.decided(s.cond)
                if len(self.ways) > ways:
                    raise Refused(s.cond, "a loop whose end isn't constant: %s; write it with a "
                                          "constant number of turns" % says(s.cond))
                if not goes:
                    return
            first = False
            try:
                self.run(s.stmt)
            except Break:
                return
            except Continue:
                pass
            self.run(getattr(s, "next", None))
        raise Refused(s, "a loop of more than %d turns" % TURNS)

    def switch(self, s):
        """A switch: the case that is taken, and what follows up to a break."""
        what = self.fully(s.cond, self.number).promoted()
        some = s.stmt.block_items or [] if isinstance(s.stmt, C.Compound) else [s.stmt]
        if some and not isinstance(some[0], (C.Case, C.Default)):
            raise Refused(some[0], "a statement of a switch before its first case")
        taken, fallback = None, None
        for k, case in enumerate(some):
            if isinstance(case, C.Default):
                fallback = k
            elif isinstance(case, C.Case) and taken is None:
                label = self.unit.fold(case.expr) if self.constant(case.expr) else None
                if label is None:
                    raise Refused(case, "a case that isn't constant: %s" % says(case.expr))
                if self.compare("==", what, Value(*self.label(label, what.kind, case)), case.expr):
                    taken = k
        taken = fallback if taken is None else taken
        if taken is None:
            return
        self.scopes.append({})
        try:
            for item in some[taken:]:
                for it in (item.stmts or []) if isinstance(item, (C.Case, C.Default)) else [item]:
                    if isinstance(it, (C.Decl, C.Case, C.Default)):
                        raise Refused(it, "a declaration or two labels in a switch: write {..}, "
                                          "or an if")
                    self.run(it)
        except Break:
            pass
        finally:
            self.scopes.pop()

    def label(self, label, kind, case):
        """A case's number in the type of what the switch looks at."""
        return lit(self.unit.within(label[0], kind, case.expr)[0]), kind


def paths(unit, name, ranges, sizes, joins=False, apart=False, states=(), most=MOST):
    """All runs: each branch is taken each way. With `joins` branches that only set values are
    joined. Raises TooMany for more than `most`."""
    todo, found = [[]], []
    while todo:
        picks = todo.pop()
        run = Run(unit, name, ranges, sizes, picks, joins, apart, states)
        found.append(run)
        if len(found) > most:
            raise TooMany(unit.functions[name].decl, "more than %d paths" % most)
        for at in range(len(picks), len(run.ways)):
            todo += [[p for p, _ in run.ways[:at]] + [other]
                     for other in range(1, run.ways[at][1])]
    read = {thing.cell(sel) for run in found for thing, sel in run.firsts}
    for run in found:
        run.inductive(read)
    return found


class TooMany(Refused):
    """More paths than are run."""
