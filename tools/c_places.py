"""Places of C on a path: variables, arrays, structs, what pointers point to; loads and stores."""

from pycparser import c_ast as C

from c_nodes import Value, lit, same
from c_paths import Path, Thing
from c_source import Names, Refused, says


class Pointer:
    """Where a pointer points: a thing and a cell of it (an index, or (field, index)). A pointer to
    a struct has the cell "", one to a scalar None."""

    def __init__(self, thing, sel, bases=frozenset()):
        self.thing, self.sel, self.bases = thing, sel, bases

    def __eq__(self, other):
        return isinstance(other, Pointer) and self.thing is other.thing and self.sel == other.sel

    def __hash__(self):
        return hash((id(self.thing), self.sel))

    def based(self, thing):
        """The same, as the value of the pointer variable `thing`: on it, if that is restrict, all
        rests that is reached by it."""
        return Pointer(self.thing, self.sel, self.bases | {thing}) \
            if "restrict" in thing.quals else self

    def offset(self):
        return self.sel[1] if isinstance(self.sel, tuple) else self.sel

    def array(self):
        """What array it points into, as something to compare; None if into none."""
        if isinstance(self.sel, tuple):
            return id(self.thing), self.sel[0]
        return (id(self.thing), None) if isinstance(self.sel, int) else None

    def steps(self, by):
        """The pointer so many elements on; None if it points to no array."""
        if isinstance(self.sel, tuple):
            return Pointer(self.thing, (self.sel[0], self.sel[1] + by), self.bases)
        if isinstance(self.sel, int):
            return Pointer(self.thing, self.sel + by, self.bases)
        return self if by == 0 else None

    def size(self):
        """How many elements its array has; None if that isn't known."""
        if isinstance(self.sel, tuple):
            return self.thing.kind[self.sel[0]][1]
        return self.thing.size if isinstance(self.sel, int) else 1


class Places(Path):
    """The part of a run that has places."""

    def __init__(self, *args, **more):
        Path.__init__(self, *args, **more)
        self.scopes, self.frame, self.statics, self.outers = [{}], 0, {}, []
        self.bases = frozenset()        # the restrict pointers on which the last place rests
        self.states = ()        # names of places that are kept from call to call

    def look(self, name, e):
        """The thing of a name; None of a constant."""
        for scope in reversed(self.scopes):
            if name in scope:
                return scope[name]
        if name in self.unit.constants:
            return None
        if name in self.unit.tables:
            values, kind = self.unit.tables[name]
            thing = Thing(name, "array", kind, len(values), ("const",))
            thing.values = values
            self.scopes[0][name] = thing
            return thing
        if name in self.unit.globals:
            if not any(key == name or key.startswith(name + "_") for key in self.given) and \
                    name not in self.states:
                raise Refused(e, "%s is a global that may have any value: give its range, "
                                 "%s=LOW..HIGH" % (name, name))
            thing = self.kept_thing(self.unit.globals[name])
            self.scopes[0][name] = thing
            return thing
        if name in self.unit.functions:
            raise Refused(e, "a pointer to the function %s" % name)
        raise Refused(e, "%s isn't known here" % name)

    def kept_thing(self, d):
        """The thing of a static variable or a global: its value is kept from call to call."""
        if id(d) in self.statics:
            return self.statics[id(d)]
        fields = self.unit.fields(d.type) if isinstance(d.type, C.TypeDecl) else None
        if isinstance(d.type, C.PtrDecl) or isinstance(d.type, C.ArrayDecl) and \
                isinstance(d.type.type, (C.ArrayDecl, C.PtrDecl)):
            raise Refused(d, "a static pointer, or an array of arrays: %s" % d.name)
        size = self.unit.size(d) if isinstance(d.type, C.ArrayDecl) else None
        if size is None and isinstance(d.type, C.ArrayDecl):
            size = len(d.init.exprs) if isinstance(d.init, C.InitList) else None
            if size is None:
                raise Refused(d, "an array without a size: %s" % d.name)
        sort = "struct" if fields else "array" if isinstance(d.type, C.ArrayDecl) else "scalar"
        kind = fields or self.unit.kind(d.type.type if sort == "array" else d.type, d)
        thing = Thing(d.name, sort, kind, size, d.quals, d, outer=True)
        thing.static = self.first_values(thing, d)
        self.statics[id(d)] = thing
        self.outers.append(thing)
        return thing

    def first_values(self, thing, d):
        """{cell: first value} of a static variable; cells that aren't named begin with 0."""
        if d.init is None:
            return {}
        if thing.sort == "scalar":
            some = [(None, d.init)]
        else:
            exprs = d.init.exprs if isinstance(d.init, C.InitList) else []
            keys = list(thing.kind) if thing.sort == "struct" else range(len(exprs))
            flat = thing.sort == "array" or all(size is None for _, size in thing.kind.values())
            if not flat or len(exprs) > len(keys) or any(
                    isinstance(x, (C.NamedInitializer, C.InitList)) for x in exprs):
                raise Refused(d, "the first values of %s have a form that isn't served" % d.name)
            some = list(zip(keys, exprs))
        found = {}
        for sel, e in some:
            value = self.unit.fold(e)
            if value is None:
                raise Refused(e, "a first value of %s isn't constant" % d.name)
            found[sel] = self.unit.within(value[0], thing.of(sel), e)[0]
        return found

    # -- pointers

    def points(self, e):
        """Whether an expression is a pointer or an array."""
        if isinstance(e, C.ID):
            thing = self.look(e.name, e)
            return thing is not None and thing.sort in ("array", "pointer", "struct")
        if isinstance(e, C.StructRef):
            return self.field(e)[1] is not None
        if isinstance(e, C.UnaryOp) and e.op == "&":
            return True
        if isinstance(e, C.UnaryOp) and e.op in ("p++", "++", "p--", "--"):
            return self.points(e.expr)
        if isinstance(e, C.BinaryOp) and e.op in "+-":
            return self.points(e.left) or self.points(e.right)
        if isinstance(e, C.Cast):
            return isinstance(e.to_type.type, C.PtrDecl)
        return isinstance(e, C.Assignment) and self.points(e.lvalue)

    def pointer(self, e):
        """Where an expression points."""
        if isinstance(e, C.ID):
            thing = self.look(e.name, e)
            if thing.sort == "pointer":
                if (thing, None) not in self.env:
                    raise Refused(e, "%s has no value yet" % e.name)
                return self.env[thing, None].based(thing)
            return Pointer(thing, 0 if thing.sort == "array" else "")
        if isinstance(e, C.StructRef):
            return Pointer(self.struct(e), (e.field.name, 0), self.bases)
        if isinstance(e, C.UnaryOp) and e.op == "&":
            if self.points(e.expr):
                return self.pointer(e.expr)
            if isinstance(e.expr, C.UnaryOp) and e.expr.op == "*":
                return self.pointer(e.expr.expr)
            key, at = self.place(e.expr)
            if at is not None:
                raise Refused(e, "where a pointer points depends on an input: %s" % says(e))
            return Pointer(*key, self.bases)
        if isinstance(e, C.UnaryOp):
            place = self.place(e.expr)
            old = self.get(place, e.expr).based(place[0][0])
            new = self.moved(old, 1 if e.op[-1] == "+" else -1, e)
            self.env[place[0]] = new
            return old if e.op[0] == "p" else new
        if isinstance(e, C.Assignment):
            return self.assign(e)
        if isinstance(e, C.BinaryOp):
            if self.points(e.left) and not self.points(e.right):
                base, by, sign = e.left, e.right, 1 if e.op == "+" else -1
            elif e.op == "+" and not self.points(e.left):
                base, by, sign = e.right, e.left, 1
            else:
                raise Refused(e, "a difference of pointers: %s" % says(e))
            base, by = self.pointer(base), self.number(by).node.const
            if by is None:
                raise Refused(e, "where a pointer points depends on an input: %s" % says(e))
            return self.moved(base, sign * by, e)
        raise Refused(e, "a cast of a pointer: %s" % says(e))

    @staticmethod
    def moved(pointer, by, e):
        found = pointer.steps(by) if isinstance(pointer, Pointer) else None
        if found is None or found.offset() is not None and found.offset() != "" and (
                found.offset() < 0 or found.size() is not None and
                found.offset() > found.size()):
            raise Refused(e, "a pointer is moved past what it points to: %s" % says(e))
        return found

    # -- places: a key (thing, cell), and the node of an index that depends on inputs

    def struct(self, e):
        """The struct of which a field is taken; `bases` are those of the pointer to it."""
        thing, self.bases = None, frozenset()
        if Names(e.name).changed:
            raise Refused(e, "a change within %s: make it a statement" % says(e))
        if e.type == "->" or isinstance(e.name, C.UnaryOp) and e.name.op == "*":
            inner = e.name if e.type == "->" else e.name.expr
            pointer = self.pointer(inner) if self.points(inner) else None
            thing = pointer.thing if pointer is not None and pointer.sel == "" else None
            self.bases = pointer.bases if thing else frozenset()
        elif isinstance(e.name, C.ID):
            thing = self.look(e.name.name, e)
        if thing is None or thing.sort != "struct":
            raise Refused(e, "a place that isn't served: %s" % says(e))
        return thing

    def field(self, e):
        """The type of a field and its size."""
        thing = self.struct(e)
        if e.field.name not in thing.kind:
            raise Refused(e, "no field %s" % says(e))
        return thing.kind[e.field.name]

    def place(self, e):
        """The place of an lvalue: (key, None), or ((pointer), node of the index)."""
        if isinstance(e, C.ID):
            thing = self.look(e.name, e)
            if thing is None or thing.sort not in ("scalar", "pointer"):
                raise Refused(e, "%s isn't a variable here" % e.name)
            return self.touch((thing, None), e), None
        if isinstance(e, C.StructRef):
            if self.field(e)[1] is not None:
                raise Refused(e, "an array as a whole: %s" % says(e))
            return self.touch((self.struct(e), e.field.name), e, self.bases), None
        if isinstance(e, C.UnaryOp) and e.op == "*":
            base = self.target(e.expr)
            return self.touch(self.cell(base, 0, e, True), e, base.bases), None
        if isinstance(e, C.ArrayRef):
            base, at = self.target(e.name), self.number(e.subscript).node
            if at.op == "lit":
                return self.touch(self.cell(base, at.const, e), e, base.bases), None
            return base, at
        raise Refused(e, "a place that isn't served: %s" % says(e))

    def touch(self, key, e, bases=frozenset()):
        """Notes that an expression uses a place, by pointers that rest on `bases`; the place."""
        self.touched.append((key, e, bases))
        self.bases = bases
        return key

    def broken(self, pointers, used, written, where):
        """Refuses what breaks the promise of restrict pointers: since `used` and `written` places
        were noted, one that is written was used by such a pointer, and not by it."""
        wrote = set(self.modified[written:])
        for p in pointers:
            if p.sort == "pointer" and "restrict" in p.quals:
                mine = {key for key, _, bases in self.touched[used:] if p in bases}
                for key, _, bases in self.touched[used:]:
                    if p not in bases and key in mine and key in wrote:
                        raise Refused(where, "%s is restrict, but what it points to is used "
                                             "otherwise, too" % p.name)

    def target(self, e):
        if not self.points(e):
            raise Refused(e, "%s is no pointer and no array" % says(e))
        return self.pointer(e)

    def cell(self, pointer, at, e, alone=False):
        """The key of an element at a constant index."""
        if pointer.sel == "":
            raise Refused(e, "a struct as a whole: %s" % says(e))
        found = pointer.steps(at)
        if found is None or found.sel is not None and (
                found.offset() < 0 or found.size() is not None and
                found.offset() >= found.size()):
            raise Refused(e, "the index %d is past %s" % (at, says(e)))
        key = found.thing, found.sel
        if key[0].outer and key[0].size is None and key[0].sort == "array":
            key[0].cell(key[1], alone and key[1] == 0 and key[0].name != "result")
        return key

    def place_type(self, e):
        """The type of an lvalue that isn't run."""
        if isinstance(e, C.ID):
            thing = self.look(e.name, e)
            if thing is None:
                return self.unit.constants[e.name][1]
            if thing.sort == "scalar":
                return thing.kind
        elif isinstance(e, C.StructRef):
            return self.field(e)[0]
        elif isinstance(e, C.ArrayRef) or isinstance(e, C.UnaryOp) and e.op == "*":
            inner = e.name if isinstance(e, C.ArrayRef) else e.expr
            while isinstance(inner, C.UnaryOp) or isinstance(inner, C.BinaryOp):
                if isinstance(inner, C.UnaryOp) and inner.op == "&":
                    return self.type_of(inner.expr)
                inner = inner.expr if isinstance(inner, C.UnaryOp) else \
                    inner.left if self.points(inner.left) else inner.right
            if isinstance(inner, C.StructRef):
                return self.field(inner)[0]
            if isinstance(inner, C.ID) and self.points(inner):
                pointer = self.pointer(inner)
                if pointer.sel != "":
                    return pointer.thing.of(pointer.sel)
        raise Refused(e, "the type of %s isn't known here" % says(e))

    # -- loads and stores

    def load(self, e):
        if isinstance(e, C.ID) and self.look(e.name, e) is None:
            number, kind = self.unit.constants[e.name]
            return Value(lit(number), kind)
        return self.get(self.place(e), e)

    def get(self, place, e):
        """The value at a place."""
        key, at = place
        if at is not None:
            return self.get_index(key, at, e)
        thing, sel = key
        if thing.values is not None:
            return Value(lit(thing.values[sel]), thing.kind)
        if key not in self.env and thing.outer:
            self.env[key] = self.cell_input(key, e)
        if thing.outer:
            self.read.add(key)
        if key not in self.env:
            raise Refused(e, "%s has no value yet" % says(e))
        return self.env[key]

    def reached(self, pointer, at, e):
        """The indices that an index may have, which is a goal."""
        size = pointer.size()
        if pointer.sel in (None, "") or size is None:
            raise Refused(e, "an index that isn't constant, into what has no size: %s; give it by "
                             "a range, %s[8]=.." % (says(e), pointer.thing.name))
        off, (low, high) = pointer.offset(), self.range(at)
        low, high = max(low, -off), min(high, size - 1 - off)
        if low > high:
            raise Refused(e, "the index is past %s" % says(e))
        if pointer.thing.values is None and high - low >= 64:
            raise Refused(e, "an index that may have more than 64 values: %s" % says(e))
        self.goal(at, low, high, e, "index")
        return low, high

    def get_index(self, pointer, at, e):
        low, high = self.reached(pointer, at, e)
        thing, off = pointer.thing, pointer.offset()
        if thing.values is not None and off == 0:
            return self.entry(thing.values, thing.kind, at, e)
        cells = {k: self.get((self.touch(self.cell(pointer, k, e), e, pointer.bases), None), e)
                 for k in range(low, high + 1)}
        return self.at_index(cells, at, e)

    def put(self, place, v, where):
        """Writes a value, converted to the place's type."""
        key, at = place
        if isinstance(v, Pointer):
            if at is not None or key[0].sort != "pointer":
                raise Refused(where, "a pointer is stored where a number is")
            self.env[key] = v
            return v
        if at is not None:
            return self.put_index(key, at, v, where)
        thing, sel = key
        if thing.sort == "pointer":
            raise Refused(where, "a number is stored where a pointer is")
        v = self.fits(v, thing.of(sel), where)
        self.stored(thing, key, where)
        self.env[key] = v
        node = v.node
        if node.op not in ("lit", "var") and node.made:     # it has the name of the C's variable
            node.name, node.made = self.fresh(thing.cell(sel)), False
        return v

    def stored(self, thing, key, where):
        if "const" in thing.quals and (thing.outer or thing.values is not None):
            raise Refused(where, "%s is written, and is const" % thing.name)
        self.modified.append(key)
        if thing.frame < self.frame:
            self.stores += 1
        if thing.outer and not thing.copy:
            self.written[key] = True

    def put_index(self, pointer, at, v, where):
        """Writes at an index that depends on inputs: each element may be another then."""
        low, high = self.reached(pointer, at, where)
        keys = {k: self.cell(pointer, k, where) for k in range(low, high + 1)}
        new = self.fits(v, pointer.thing.of(pointer.sel), where)
        for k, key in keys.items():
            old = self.get((self.touch(key, where, pointer.bases), None), where)
            self.stored(key[0], key, where)
            if not same(old.node, new.node):
                name = key[0].cell(key[1])
                self.env[key] = self.joined_at(old, new, at, k, name, where)
        return new

    # -- the routine's own parameters

    def parameter(self, name, p):
        """What a parameter of the routine is: a number, or a pointer to something outside."""
        pointer = isinstance(p.type, (C.ArrayDecl, C.PtrDecl))
        self.qualified(p)
        t = p.type.type if pointer else p.type
        if isinstance(t, (C.ArrayDecl, C.PtrDecl, C.FuncDecl)):
            raise Refused(p, "a pointer to pointers, arrays or functions: %s" % name)
        fields, quals = self.unit.fields(t), set(getattr(t, "quals", []) or []) - {"restrict"}
        if not pointer and not fields:
            thing = Thing(name, "scalar", self.unit.kind(t, p), frame=1)
            self.scopes[-1][name] = thing
            self.env[thing, None] = self.input(name, name, thing.kind, p)
            return
        kind = fields or self.unit.kind(t, p)
        if kind is None:
            raise Refused(p, "a pointer to void: %s" % name)
        size = self.sizes.get(name)
        if isinstance(p.type, C.ArrayDecl):
            written = self.sized(p)
            size = written if size is None else size
            quals |= {"restrict"} & set(p.type.dim_quals or [])
        if isinstance(p.type, C.PtrDecl):
            quals |= {"restrict"} & set(p.type.quals or [])
        sort = "struct" if fields else "array"
        thing = Thing(name, sort, kind, None if fields else size, quals, p, outer=True)
        thing.copy = not pointer
        self.outers.append(thing)
        if not pointer:
            self.scopes[-1][name] = thing
            return
        self.scopes[-1][name] = holder = Thing(name, "pointer", None, decl=p, frame=1)
        self.env[holder, None] = Pointer(thing, "" if fields else 0)

    @staticmethod
    def qualified(d):
        """Whether a pointer's declaration says restrict, as a set; refuses a volatile pointer."""
        quals = set(d.type.quals or []) if isinstance(d.type, C.PtrDecl) else \
            set(d.type.dim_quals or []) if isinstance(d.type, C.ArrayDecl) else set()
        if "volatile" in quals:
            raise Refused(d, "volatile isn't served: copy it into a parameter")
        return quals & {"restrict"}

    def apart(self):
        """Refuses two pointers that may lie on the same place, if what is written by one is used by
        the other. Types of one width may; a char may lie on all."""
        def widths(thing):
            some = [k for k, _ in thing.kind.values()] if thing.sort == "struct" else [thing.kind]
            return {width for width, _ in some}
        local = {id(d) for d in self.unit.globals.values()}
        some = [t for t in self.outers if not t.copy and
                (t.static is None or id(t.decl) in local)]
        wrote = {t for t, _ in self.written}
        used = {t for t, _ in self.read} | wrote
        for a in some:
            for b in some:
                if a is b or a not in wrote or b not in used or a.static is not None and \
                        b.static is not None:
                    continue
                meet = widths(a) & widths(b) or 8 in widths(a) | widths(b)
                if meet and "restrict" not in a.quals | b.quals:
                    raise Refused(b.decl, "%s and %s may be the same place, and %s is written: "
                                  "write restrict, or say --apart" % (a.name, b.name, a.name))

    def sized(self, d):
        """The constant size of an array's declaration, None where none is written. A variable here
        may have the name of a constant of the file."""
        if d.type.dim is not None and any(n in scope for n in Names(d.type.dim).met
                                          for scope in self.scopes):
            raise Refused(d, "an array whose size isn't a constant from 1 to 65536")
        return self.unit.size(d)

    def inductive(self, read):
        """Goals that the states' ranges hold after the call, as they did before. `read` has the
        names of places that some path reads before it writes them."""
        shared = {id(d) for d in self.unit.globals.values()}
        some = set(self.firsts) | {k for k in self.written if k[0].cell(k[1]) in read}
        for key in sorted(some, key=lambda k: k[0].cell(k[1])):
            thing, sel = key
            name, before = thing.cell(sel), self.firsts[key].node if key in self.firsts else None
            low, high = self.ends(name, self.group(key), thing.of(sel))
            own = thing.static is not None and id(thing.decl) not in shared
            if not (own or name in self.states or thing.name in self.states):
                continue
            first = thing.static.get(sel, 0) if thing.static is not None else None
            if first is not None and not low <= first <= high:
                raise Refused(thing.decl, "the range of %s hasn't its first value %d"
                              % (name, first))
            node = self.env[key].node if key in self.written else before
            if node.op == "lit" and not low <= node.const <= high:
                raise Refused(thing.decl, "%s becomes %d, which its range hasn't: widen that"
                              % (name, node.const))
            if node.op != "lit" and node is not before:
                self.goal(node, low, high, thing.decl, "the range of %s" % name)
