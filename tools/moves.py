#!/usr/bin/env python3
"""Moves out of specs/ what no clause and no definition rests on: lemmas with their proofs, into
public modules of proofs/.

Use, in the repository:   python3 tools/moves.py [--write | --check | --held] [--unfoldable]
[--examples] [--only CRATE ..]

With --check it prints a line for each declaration of specs/ that no clause rests on, and ends with
1 where there is one; --held says of what stays why, where that isn't a clause.

The statement is what `ghost use` items of code cite, and all that these definitions cite in turn,
proofs in records and in definitions included. The rest of a file of specs/ goes to the file of that
name in proofs/ (with 'Laws' at its end, where that is taken), and each import follows. Stays: a
lemma that unfolds a definition which isn't `unfoldable` (with --unfoldable that definition is
marked, and the lemma goes); a module `Examples` (but with --examples); a block `module _ (..)` of
which a part stays. A private definition that a lemma cites from there is marked `pub`.
"""
import collections
import os
import re
import subprocess
import sys

sys.path.insert(0, os.path.dirname(os.path.abspath(__file__)))
from antt_text import USE, MOD, entries, read, without_comments  # noqa: E402
from graph import Graph, GHOST, pieces, words_of  # noqa: E402
from homes import Homes, edits_of, folded  # noqa: E402

# modules of a crate's proofs/ that rattle makes
MADE = ("Met", "Goals", "Given", "Answers", "Invariants", "Proof")
NO_UNIT = ("infixl", "infixr", "infix", "prefix", "postfix", "syntax")


def roots_of(graph):
    """The declarations that files of code cite, each with one file."""
    found, repo = {}, graph.repo
    for name in repo.listed:
        for at, _, files in os.walk(f"{graph.top}/crates/{name}/src"):
            for file in files:
                if not file.endswith(".rt"):
                    continue
                text, place = read(f"{at}/{file}"), ("Rattle", name, "src")
                nodes = []
                for m in GHOST.finditer(text):
                    path = tuple(m.group(2).split("."))
                    if path[0] != "Rattle" or path[1] not in repo.listed:
                        continue
                    if m.group(3) is None:
                        home, alias = repo.module_home(path, place), m.group(4) or path[-1]
                        for word in set(re.findall(
                                rf"(?<![\w.]){re.escape(alias)}\.([^\s(){{}}\[\],;.]+)", text)):
                            nodes.append(graph.node(home, word))
                    else:
                        for one, other in entries(m.group(3)):
                            parts = one.split(".")
                            nodes.append(graph.node(*repo.item_home(path + tuple(parts[:-1]),
                                                                    parts[-1], place)))
                for m in re.finditer(r"\bRattle((?:\.[^\s(){}\[\],;.]+)+)",
                                     re.sub(r"//.*|.*ghost use.*", "", text)):
                    path = ("Rattle", *m.group(1)[1:].split("."))
                    if path[1] in repo.listed and len(path) > 4:
                        nodes.append(graph.node(*repo.item_home(path[:-1], path[-1], path[:-1])))
                for it in nodes:
                    if it:
                        found.setdefault(it, f"{at}/{file}")
    return found


class Moves:
    def __init__(self, graph, unfoldable, examples, only):
        self.graph, self.repo = graph, graph.repo
        self.unfoldable, self.examples, self.only = unfoldable, examples, only
        self.units = {}
        for key, one in graph.units.items():
            if key[0][2] == "specs" and one.kind not in NO_UNIT:
                self.units[one.key] = one
        self.roots = roots_of(graph)
        self.why = {}
        self.keep = set()
        self.hold(self.roots, "cited by code")
        self.counts = collections.Counter()
        self.open, self.marked = {}, {}
        self.settle()

    def hold(self, keys, why):
        todo = [(key, why) for key in keys]
        while todo:
            key, because = todo.pop()
            if key in self.keep:
                continue
            self.keep.add(key)
            self.why[key] = because
            todo += [(it, f"cited by {key[1]}")
                     for it in self.graph.cites(key) if it not in self.keep]

    def stays(self, one):
        return one.key in self.keep or any((one.key[0], it) in self.keep for it in one.names)

    def shut(self, one):
        """Definitions that a lemma unfolds, which can't be unfolded from elsewhere."""
        scope, found = self.graph.scope(one.key[0]), set()
        lines = (re.findall(r"(?m)^\s*unfolding (.*)$", one.text)
                 + re.findall(r"\bunfold ([^=\n]*?) in\b", one.text))
        for word in " ".join(lines).split():
            if word not in scope.of:
                continue
            node = self.graph.node(*scope.of[word])
            it = self.graph.units.get(node) if node else None
            if it is None or node[0][2] != "specs" or not self.stays(it):
                continue
            if it.kind in ("module", "mutual"):
                inner = [x for x in it.inner if word in x.names]
                if inner and not {"unfoldable", "abbrev"} & set(inner[0].marks):
                    found.add((it.key, word))
            elif it.kind == "term" and not {"unfoldable", "abbrev"} & set(it.marks):
                found.add((it.key, word))
        return found

    def settle(self):
        for key, one in self.units.items():
            if not self.examples and any("Examples" in it for it in key[0]):
                self.hold([key], "an example")
            if self.only and key[0][1] not in self.only:
                self.hold([key], "not asked")
        more = True
        while more:
            more = False
            for key, one in self.units.items():
                if self.stays(one):
                    if key not in self.keep:
                        # a block of which a part stays
                        self.hold([key, *((key[0], it) for it in one.names)],
                                  "in a block of which a part stays")
                        more = True
                    continue
                shut = self.shut(one)
                if shut and not (self.unfoldable
                                 and all(self.graph.units[it[0]].kind == "term" for it in shut)):
                    self.hold([key], "unfolds " + ", ".join(sorted(it[1] for it in shut)))
                    more = True
        for key, one in self.units.items():
            if self.stays(one):
                continue
            for it in self.shut(one):
                self.open.setdefault(it[0], set()).add(key)
            for node in self.graph.cites(key):
                it = self.graph.units.get(node) if node[0] != "Code" else None
                if it is not None and node[0][2] == "specs" and self.stays(it) and not is_pub(it):
                    self.marked.setdefault(it.key, set()).add(key)
        # what an `unfoldable` body names has to be `pub`
        for key in self.open:
            for node in self.graph.cites(key):
                it = self.graph.units.get(node) if node[0] != "Code" else None
                if (it is not None and node[0][2] == "specs" and not is_pub(it)
                        and it.kind not in ("module", "mutual")):
                    self.marked.setdefault(it.key, set()).add(key)

    # ---- where things go
    def plan(self):
        """For each module of specs/ of which something moves: the module of proofs/ that takes
        it."""
        self.to, self.whole = {}, set()
        by = collections.defaultdict(list)
        for key, one in self.units.items():
            by[key[0]].append(one)
        self.by = by
        for path, ones in by.items():
            if all(self.stays(it) for it in ones):
                continue
            self.to[path] = self.place_for(path)
        for path in self.to:
            module = self.repo.modules[path]
            kept_children = [it for it in module.children if not self.goes_whole((*path, it))]
            if not any(self.stays(it) for it in by[path]) and not kept_children:
                self.whole.add(path)
        # a front passes on names of its children; those that move get a front in proofs/
        for path, module in self.repo.modules.items():
            if path[2:3] == ("specs",) and len(path) > 3:
                for m in USE.finditer(module.text):
                    if "pub" in m.group(1) and m.group(3) is not None:
                        for one, other in entries(m.group(3)):
                            if (self.moved((path, other or one.split(".")[-1]))
                                    and path not in self.to):
                                self.to[path] = self.place_for(path)

    def goes_whole(self, path):
        module = self.repo.modules.get(path)
        return (module is not None and path in self.to
                and not any(self.stays(it) for it in self.by[path])
                and all(self.goes_whole((*path, it)) for it in module.children))

    def place_for(self, path):
        inner = list(path[3:])
        if (path[0], path[1], "proofs", *inner) in self.repo.modules:
            inner[-1] += "Laws"
        # rattle makes a module of proofs/ for each module and item of code, and refuses names that
        # differ in case alone; and some more
        if (inner[0].lower() in self.code_names(path[1])
                or inner[0] in MADE and inner[0] + "Laws" not in inner):
            inner[0] += "Laws"
        return ("Rattle", path[1], "proofs", *inner)

    def code_names(self, crate):
        """What stands at the root of a crate's code, in small letters."""
        folder = f"{self.graph.top}/crates/{crate}/src"
        found = {os.path.splitext(it)[0].lower() for it in os.listdir(folder)}
        root = f"{folder}/lib.rt" if os.path.isfile(f"{folder}/lib.rt") else f"{folder}/main.rt"
        items = re.findall(r"(?m)^(?:pub(?:\(\w+\))? )?"
                           r"(?:mod|fn|struct|enum|trait|const|static|type) (\w+)", read(root))
        return found | {it.lower() for it in items}

    def moved(self, home):
        """Whether an item of a module of specs/ moves; through a module that hands it on, too."""
        path, name = home
        module = self.repo.modules.get(path)
        if module is None:
            if path[:-1] in self.repo.modules and path[2] == "specs":
                return self.moved((path[:-1], path[-1]))
            return False
        if path[2] != "specs":
            return False
        if name in module.declared or name in module.constructors:
            one = module.declared.get(name) or module.constructors[name]
            it = self.graph.units.get((path, one.name))
            return it is not None and it.kind not in NO_UNIT and not self.stays(it)
        if name in module.names:
            target, other = module.names[name]
            return self.moved((self.repo.module_home(target, path), other))
        return False

    def new_home(self, home):
        path, name = home
        if not self.moved(home):
            return home
        if path in self.repo.modules:
            return self.to[path], name
        return (*self.to[path[:-1]], path[-1]), name

    # ---- texts
    def rows(self, module, text, moved_part):
        """The imports of a part of a file: (marks, path, name with alias or None, alias)."""
        words = words_of(without_comments(text))
        found = []
        for m in USE.finditer(module.text):
            marks, path, names, alias = m.groups()
            path = tuple(path.split("."))
            if "pub" in marks:
                continue
            if names is None:
                word = alias or path[-1]
                if any(it == word or it.startswith(word + ".") for it in words):
                    found.append((path, None, alias))
                continue
            for one, other in entries(names):
                parts = one.split(".")
                here = other or parts[-1]
                if is_used(here, words, text):
                    found.append((path + tuple(parts[:-1]), parts[-1], other))
        return found

    def header(self, rows, place):
        groups, order = collections.OrderedDict(), []
        for path, name, alias in rows:
            if path[0] == "Rattle" and len(path) > 2 and path[1] in self.repo.listed:
                if name is not None:
                    path, name = self.new_home(self.repo.item_home(path, name, place))
                else:
                    path = self.repo.module_home(path, place)
                    path = self.to[path] if path in self.whole else path
            if path == place:
                continue
            key = (path, None) if name is not None else (path, alias)
            if key not in groups:
                groups[key] = [] if name is not None else None
            if name is not None:
                value = name + (f" as {alias}" if alias else "")
                if value not in groups[key]:
                    groups[key].append(value)
        homes = Homes(self.repo, {})
        lines = []
        for path, alias in sorted(groups, key=lambda it: homes.rank(it[0], place[1])):
            names = groups[path, alias]
            word = "use " + ".".join(path)
            lines += (folded(word, names) if names is not None
                      else [word + (f" as {alias}" if alias else "")])
        return lines

    def segments(self, module):
        """A file's body: its sections' titles and its units, in order."""
        lines = module.text.split("\n")
        from antt_text import declarations
        found, titles = [], {}
        for one in declarations(module.text):
            for at in range(one.comment, one.first):
                if lines[at].startswith("-- ----"):
                    found.append(("title", lines[at]))
            text = [it for it in lines[one.comment : one.first]
                    if not it.startswith("-- ----")] + lines[one.first : one.last]
            found.append(("unit", one, text))
        return found

    def part(self, module, takes):
        """The text of the units that a test takes, with the titles above them."""
        found, title, used = [], None, False
        for it in self.segments(module):
            if it[0] == "title":
                title = it[1]
                continue
            _, one, text = it
            if not takes(one):
                continue
            if title:
                found.append("\n".join([title, *self.remarked(module, one, text)]))
                title = None
            else:
                found.append("\n".join(self.remarked(module, one, text)))
        return "\n\n".join(found)

    def remarked(self, module, one, text):
        """A unit with the marks that it needs."""
        key = (module.path, one.name)
        marks = []
        if key in self.open and "unfoldable" not in one.marks:
            marks.append("unfoldable")
        if key in self.marked or (key in self.open and not is_pub(one)):
            marks.append("pub")
        if not marks:
            return text
        found, done = [], False
        for it in text:
            if not done and not it.startswith("--"):
                if one.kind in ("data", "record"):
                    it = "pub " + it if "pub" in marks else it
                else:
                    m = re.match(r"^((?:pattern\s+)?)((?:unfoldable\s+)?)((?:abbrev\s+)?)"
                                 r"((?:pub\s+)?)", it)
                    rest = it[m.end() :]
                    it = (m.group(1)
                          + ("unfoldable " if "unfoldable" in marks or m.group(2) else "")
                          + m.group(3)
                          + ("pub " if "pub" in marks or m.group(4) else "") + rest)
                done = True
            found.append(it)
        return found

    def is_operator_line(self, one):
        return one.kind in NO_UNIT

    def takes(self, module, moved):
        def test(one):
            if one.kind in NO_UNIT:
                words = one.name.partition('> ')[2]
                names = [name for name in module.declared if name not in ("",)
                         and any(p in words.split() or p in words for p in pieces(name))
                         and "◌" in name]
                homes = [self.moved((module.path, name)) for name in names]
                return (any(homes) if moved else not homes or not all(homes))
            it = self.graph.units.get((module.path, one.name))
            return (not self.stays(it)) == moved
        return test

    def texts(self):
        """All files after the moves, by path; None for one that goes."""
        self.plan()
        after, mods = {}, collections.defaultdict(list)
        top = self.graph.top
        # files whose units move
        for path, place in self.to.items():
            module = self.repo.modules[path]
            body = self.part(module, self.takes(module, True))
            head = re.match(r"(?:--.*\n)*", module.text).group(0)
            if path not in self.whole:
                head = f"-- Laws of what specs/{'/'.join(path[3:])} defines.\n"
            rows = self.rows(module, body, True)
            words = words_of(without_comments(body))
            own = []
            for name, one in module.declared.items():
                it = self.graph.units.get((path, one.name))
                if (it is not None and it.kind not in NO_UNIT and self.stays(it)
                        and is_used(name, words, body)):
                    own.append((path, name, None))
            for name, one in module.constructors.items():
                it = self.graph.units.get((path, one.name))
                if (it is not None and self.stays(it) and is_data(it, name)
                        and is_used(name, words, body) and name not in module.declared):
                    own.append((path, name, None))
            fronts = []
            for m in USE.finditer(module.text):
                if "pub" in m.group(1) and m.group(3) is not None:
                    target = tuple(m.group(2).split("."))
                    groups = collections.OrderedDict()
                    for one, other in entries(m.group(3)):
                        here = other or one.split(".")[-1]
                        if self.moved((path, here)):
                            home, name = self.new_home((self.repo.module_home(target, path), one))
                            groups.setdefault(home, []).append(
                                name + (f" as {other}" if other else ""))
                    for home, names in groups.items():
                        fronts += folded(m.group(1) + "use " + ".".join(home), names)
            after[place] = (head, self.header(rows + own, place), fronts, body)
        # what is left in specs, and every other file
        files = {}
        for path, module in self.repo.modules.items():
            if len(path) < 3:
                continue
            if path in self.whole:
                files[module.file] = None
                continue
            if path in self.to or path[2] == "specs" and any(
                    k[0] == path for k in list(self.marked) + list(self.open)):
                body = self.part(module, self.takes(module, False))
                head = re.match(r"(?:--.*\n)*", module.text).group(0)
                pubs = []
                for m in USE.finditer(module.text):
                    if "pub" in m.group(1):
                        if m.group(3) is None:
                            pubs.append(m.group(0))
                            continue
                        names = [one + (f" as {other}" if other else "")
                                 for one, other in entries(m.group(3))
                                 if not self.moved((path, other or one.split(".")[-1]))]
                        if names:
                            pubs += folded(m.group(1) + "use " + m.group(2), names)
                kids = [f"{'pub ' if pub else ''}mod {name}"
                        for name, pub in module.children.items() if (*path, name) not in self.whole]
                lines = self.header(self.rows(module, body, False), path)
                text = (head + "\n".join([*kids, *pubs, *lines])
                        + ("\n\n" + body if body else "") + "\n")
                files[module.file] = re.sub(r"\n{3,}", "\n\n", text)
                continue
            files[module.file] = self.followed(module)
        # tactics' lists in code name lemmas by `crate::specs::M::lemma`
        for name in self.repo.listed:
            for at, _, names in os.walk(f"{top}/crates/{name}/src"):
                for file in names:
                    if file.endswith(".rt"):
                        text = read(f"{at}/{file}")
                        now = re.sub(r"\b(\w+)::specs((?:::[^\s(){}\[\],;:]+)+)",
                                     lambda it: self.listed_path(name, it), text)
                        if now != text:
                            files[f"{at}/{file}"] = now
        # new files, and the lines that declare them
        for place, (head, uses, fronts, body) in after.items():
            kids = []
            files[self.file_of(place)] = [head, kids, fronts, uses, body]
        for place in sorted(after, key=len):
            for cut in range(4, len(place)):
                parent = place[:cut]
                file = self.file_of(parent)
                if file not in files:
                    files[file] = [f"-- What is below `{'.'.join(parent[3:])}`.\n", [], [], [], ""]
        new = [place for place in after] + [place[:cut]
                                            for place in after for cut in range(4, len(place))]
        for place in dict.fromkeys(sorted(new, key=lambda it: (it[1], self.position(it)))):
            line = f"pub mod {place[-1]}"
            if len(place) == 4:
                file = (self.repo.modules[place[:3]].file if place[:3] in self.repo.modules
                        else f"{top}/crates/{place[1]}/proofs/Lib.antt")
                text = files.get(file) or (read(file) if os.path.isfile(file) else "")
                if line not in text.split("\n"):
                    files[file] = text.rstrip("\n") + ("\n" if text.strip() else "") + line + "\n"
            else:
                it = files[self.file_of(place[:-1])]
                if line not in it[1]:
                    it[1].append(line)
        for file, it in list(files.items()):
            if isinstance(it, list):
                head, kids, fronts, uses, body = it
                files[file] = (head + "\n".join([*kids, *fronts, *uses])
                               + ("\n\n" + body if body else "") + "\n")
        return files

    def listed_path(self, crate, m):
        """A path of a tactic's list, after the moves."""
        own = crate if m.group(1) == "crate" else m.group(1)
        if own not in self.repo.listed:
            return m.group(0)
        path = ("Rattle", own, "specs", *m.group(2)[2:].split("::"))
        module, name = self.repo.item_home(path[:-1], path[-1], ("Rattle", crate, "src"))
        home = self.new_home((module, name))
        if home == (module, name) or module[1] != own:
            return m.group(0)
        return "::".join((m.group(1), home[0][2], *home[0][3:], home[1]))

    def position(self, place):
        lib = self.repo.modules.get((place[0], place[1], "specs"))
        names = list(lib.children) if lib else []
        base = re.sub(r"Laws$", "", place[3])
        return (names.index(place[3]) if place[3] in names
                else names.index(base) if base in names else 999, place)

    def file_of(self, place):
        return f"{self.graph.top}/crates/{place[1]}/{place[2]}/{'/'.join(place[3:])}.antt"

    def followed(self, module):
        """A file that keeps its declarations, with imports that follow what moved."""
        lines, found, run = module.text.split("\n"), [], []
        path = module.path

        def end():
            nonlocal run
            if not run:
                return
            rows, changed = [], False
            for m in run:
                target = tuple(m.group(2).split("."))
                if m.group(3) is None:
                    rows.append((target, None, m.group(4)))
                    home = (self.repo.module_home(target, path)
                            if target[0] == "Rattle" and target[1] in self.repo.listed else None)
                    changed |= home in self.whole
                    continue
                for one, other in entries(m.group(3)):
                    parts = one.split(".")
                    home = target + tuple(parts[:-1])
                    rows.append((home, parts[-1], other))
                    if target[0] == "Rattle" and target[1] in self.repo.listed:
                        changed |= self.moved(self.repo.item_home(home, parts[-1], path))
            found.extend(self.header(rows, path) if changed else [m.group(0) for m in run])
            run = []

        for line in lines:
            m = USE.match(line)
            if m and "pub" not in m.group(1):
                run.append(m)
                continue
            end()
            m = MOD.match(line)
            if m and path[2] == "specs" and (*path, m.group(2)) in self.whole:
                continue
            found.append(self.whole_paths(line, path))
        end()
        return "\n".join(found)

    def whole_paths(self, line, place):
        if "Rattle." not in line or line.lstrip().startswith("--"):
            return line

        def home(m):
            path = ("Rattle", *m.group(1)[1:].split("."))
            if len(path) < 5 or path[1] not in self.repo.listed:
                return m.group(0)
            module, name = self.new_home(self.repo.item_home(path[:-1], path[-1], place))
            return ".".join((*module, name))

        return re.sub(r"\bRattle((?:\.[^\s(){}\[\],;.]+)+)", home, line)


PAGE = re.compile(r"(?:\bcrates/)?(?:\b([a-z_0-9]+)/)?specs/((?:[A-Z]\w*/)*[A-Z]\w*)(\.antt)?")


def pages(moves, top):
    """Pages that name files of specs/: each with its text after the moves, and what a hand has to
    look at."""
    walks = [(top, [], os.listdir(top))]
    for folder in ("crates", "docs", "edits", "examples", "tools"):
        walks += os.walk(f"{top}/{folder}")
    for at, _, files in walks:
        if "/out" in at:
            continue
        for file in files:
            if not file.endswith(".md"):
                continue
            text, look = read(f"{at}/{file}"), []
            inside = re.match(rf"{re.escape(top)}/crates/(\w+)", at)

            def follow(m):
                crate = m.group(1) or (inside and inside.group(1))
                path = ("Rattle", crate, "specs", *m.group(2).split("/"))
                if path in moves.whole:
                    return m.group(0).replace(f"specs/{m.group(2)}",
                                              "proofs/" + "/".join(moves.to[path][3:]))
                if path in moves.to:
                    look.append(m.group(0))
                return m.group(0)

            yield f"{at}/{file}", text, PAGE.sub(follow, text), look


def is_pub(one):
    return ("pub" in one.marks or bool(re.match(r"(?:\S+ )*?pub\b", one.text.split("\n")[0]))
            or one.kind in ("module", "mutual"))


def is_data(one, name):
    if one.kind == "data":
        return True
    return one.kind in ("mutual", "module") and any(
        name in it.constructors and it.kind == "data" for it in one.inner)


def is_used(here, words, text):
    parts = pieces(here)
    if here in words:
        return True
    if any(set(it) & set("[](){},;") for it in parts):
        return all(it in text for it in parts)
    return all(it in words for it in parts)


def main(words):
    top = os.getcwd()
    only = words[words.index("--only") + 1 :] if "--only" in words else []
    graph = Graph(top)
    moves = Moves(graph, "--unfoldable" in words, "--examples" in words, set(only))
    units = moves.units.values()
    if "--check" in words:
        idle = [f"{it.module.file}:{it.first + 1}: no clause rests on {it.name}"
                for it in units if not moves.stays(it)]
        print(*idle, sep="\n", end="\n" if idle else "")
        return 1 if idle else 0
    files = moves.texts()
    lines = lambda ones: sum(it.last - it.comment for it in ones)
    gone = [it for it in units if not moves.stays(it)]
    print(f"{len(gone)} declarations move, {lines(gone)} lines with comments; "
          f"{len(units) - len(gone)} stay, "
          f"{lines(it for it in units if moves.stays(it))} lines")
    print(f"{len(moves.whole)} files move whole, {len(moves.to) - len(moves.whole)} are split or "
          "get a front in proofs/")
    print(f"{len(moves.open)} definitions become unfoldable, {len(moves.marked)} private names "
          "become pub")
    changed = [file for file, text in files.items()
               if text is None or not os.path.isfile(file) or read(file) != text]
    print(f"{len(changed)} files change")
    sys.stdout.flush()
    for why in ("an example", "unfolds", "in a block"):
        held = [it for it in units
                if moves.stays(it) and (moves.why.get(it.key) or "").startswith(why)]
        print(f"stays, {why}: {len(held)} declarations, {lines(held)} lines")
    if "--held" in words:
        for it in units:
            if (moves.stays(it)
                    and (moves.why.get(it.key) or "").startswith(("unfolds", "in a block"))):
                print("   ", ".".join(it.key[0][1:]), it.key[1], "--", moves.why[it.key])
    for file in edits_of(top):
        said = read(file)
        target = re.search(r"(?m)^file: (\S+)", said)
        if target and not target.group(1).startswith("src/"):
            print("edit of a file that isn't code:", os.path.relpath(file, top), target.group(1))
    for file, before, after, look in pages(moves, top):
        if before != after or look:
            print(f"page {os.path.relpath(file, top)}: "
                  f"{sum(a != b for a, b in zip(before.split(chr(10)), after.split(chr(10))))} "
                  "lines follow; "
                  f"to look at by hand: {' '.join(dict.fromkeys(look)) or 'nothing'}")
        if before != after and "--write" in words:
            with open(file, "w", encoding="utf-8") as it:
                it.write(after)
    if "--write" in words:
        for file in changed:
            if files[file] is None:
                os.remove(file)
                folder = os.path.dirname(file)
                while not os.listdir(folder):
                    os.rmdir(folder)
                    folder = os.path.dirname(folder)
                continue
            os.makedirs(os.path.dirname(file), exist_ok=True)
            with open(file, "w", encoding="utf-8") as it:
                it.write(files[file])


if __name__ == "__main__":
    sys.exit(main(sys.argv[1:]))
