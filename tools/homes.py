#!/usr/bin/env python3
"""Has every import name the home of what it brings: the crate and the module that declare it.

Use, in the repository:   python3 tools/homes.py [--write | --check] [--keep FILE]

Without --write it only counts; with --check it prints a line for each import that names another
place than the home, or hands on, and ends with 1 where there is one. FILE is tools/surface.txt,
where --keep isn't given and that is there. It changes imports in .rt and .antt files (`use`, `ghost
use`, whole paths in terms and code), drops `pub use` lines that only hand on what another crate
declares, but for those that FILE lists ('crate: Name Name ..', the public surface), writes each
crate's cited crates into crates.txt, in the order of its lines, and changes the imports in edits. A
module that hands on its own children's names (`Fraction` those of `Fraction.Core`) stays the home
of these. Then: rattle fmt --write on the changed .rt files, which sorts and folds their imports.
"""
import collections
import os
import re
import sys

sys.path.insert(0, os.path.dirname(os.path.abspath(__file__)))
from antt_text import (  # noqa: E402
    USE, GHOST, CODE_USE, Repository, entries, leaves, read, without_comments,
)

MOST = 100
WHOLE = re.compile(r"\bRattle((?:\.[^\s(){}\[\],;.]+)+)")


def folded(head, names, end=""):
    """Lines 'head.{names}end', each as full as MOST lets it be."""
    found, now = [], []
    for it in names:
        if now and len(f"{head}.{{{', '.join([*now, it])}}}{end}") > MOST:
            found.append(f"{head}.{{{', '.join(now)}}}{end}")
            now = []
        now.append(it)
    return [*found, f"{head}.{{{', '.join(now)}}}{end}"]


class Homes:
    def __init__(self, repo, kept):
        self.repo, self.kept, self.counts = repo, kept, collections.Counter()
        self.faults = []

    def rank(self, path, own):
        """Where a module's imports stand: what isn't of Rattle, std and the kit, crates in their
        order, the own crate."""
        if path[0] != "Rattle":
            return (0, 0)
        if path[1] not in self.repo.order:
            return (1, 0)
        return (3, 0) if path[1] == own else (2, self.repo.order[path[1]])

    def block(self, rows, place, ghost):
        """The lines for a run of imports. rows: (marks, path, names or None, alias)."""
        groups, order = {}, []
        for marks, path, names, alias in rows:
            path = tuple(path.split("."))
            if names is None:
                home = self.repo.module_home(path, place)
                self.counts["modules moved"] += home != path
                if home != path:
                    self.faults.append(f"{'.'.join(place)}: {'.'.join(path)} is at home as "
                                       f"{'.'.join(home)}")
                key, value = (marks, home, alias or (home[-1] != path[-1] and path[-1]) or ""), None
                if key not in groups:
                    groups[key] = None
                    order.append(key)
                continue
            for one, other in entries(names):
                parts = one.split(".")
                home, name = self.repo.item_home(path + tuple(parts[:-1]), parts[-1], place)
                here = other or parts[-1]
                self.counts["names"] += 1
                self.counts["names moved"] += home[:len(path)] != path
                if home[:len(path)] != path:
                    self.faults.append(f"{'.'.join(place)}: {parts[-1]} of {'.'.join(path)} is at "
                                       f"home in {'.'.join(home)}")
                key = (marks, home, None)
                if key not in groups:
                    groups[key] = []
                    order.append(key)
                value = name if name == here else f"{name} as {here}"
                if value not in groups[key]:
                    groups[key].append(value)
        own = place[1]
        order.sort(key=lambda key: self.rank(key[1], own))
        found = []
        for marks, home, alias in order:
            word = ("ghost " if ghost else marks) + "use " + ".".join(home)
            end = ";" if ghost else ""
            if alias is None:
                found += folded(word, groups[marks, home, alias], end)
            else:
                found.append(word + (f" as {alias}" if alias else "") + end)
        return found

    def handed_lines(self, module):
        """The `pub use` lines of a module that only hand on what isn't below it."""
        return [m for m in USE.finditer(module.text)
                if "pub" in m.group(1) and not self.is_front(m, module)]

    def is_front(self, m, module):
        target = tuple(m.group(2).split("."))
        return target[: len(module.path)] == module.path

    def antt(self, module):
        lines, found, rows = module.text.split("\n"), [], []
        body = without_comments(re.sub(USE, "", module.text))
        words = set(re.findall(r"[^\s(){}\[\],;]+", body))
        parts = words | {piece for word in words for piece in word.split(".")} | operators(words)

        def end():
            nonlocal rows
            if rows:
                found.extend(self.block(rows, module.path, False))
                rows = []

        for line in lines:
            m = USE.match(line)
            if not m:
                end()
                found.append(self.whole(line, module.path))
                continue
            marks, path, names, alias = m.groups()
            if "pub" in marks and not self.is_front(m, module):
                if names is None:
                    self.counts["modules no longer handed on"] += 1
                    self.faults.append(f"{module.file}: hands on {alias or path}")
                    word = alias or path.split(".")[-1]
                    if word not in parts or module.path[3:] == ():
                        continue
                    marks = ""
                else:
                    used = [it for it in entries(names) if (it[1] or it[0].split(".")[-1]) in parts]
                    self.counts["names no longer handed on"] += len(entries(names)) - len(used)
                    if not used:
                        continue
                    names, marks = ", ".join(one + (f" as {other}" if other else "")
                                             for one, other in used), ""
            if "pub" in marks:
                end()
                found.append(line)
                continue
            rows.append((marks, path, names, alias))
        end()
        text = "\n".join(found)
        text = re.sub(r"-- What callers name of the crates below\.\n(?!pub use)", "", text)
        return text

    def whole(self, line, place):
        if line.lstrip().startswith("--") or "Rattle." not in line:
            return line

        def home(m):
            path = ("Rattle", *m.group(1)[1:].split("."))
            if len(path) < 4 or path[1] not in self.repo.listed:
                return m.group(0)
            module, name = self.repo.item_home(path[:-1], path[-1], place)
            self.counts["whole paths moved"] += module != path[:-1]
            return ".".join((*module, name))

        return WHOLE.sub(home, line)

    def code(self, name, file):
        """A file of code. Imports by `use` become one tree for each crate, as rattle fmt folds
        them."""
        text = read(file)
        place = ("Rattle", name, "src")
        is_root = file == f"{self.repo.top}/crates/{name}/src/lib.rt"
        kept = self.kept.get(name, ())
        handed = self.repo.handed[name]
        rest = re.sub(CODE_USE, "", re.sub(r"//.*", "", re.sub(GHOST, "", text)))
        known = set(re.findall(r"\w+", rest))
        lines, found, rows = text.split("\n"), [], []

        def end():
            nonlocal rows
            if rows:
                found.extend(self.block(rows, place, True))
                rows = []

        for line in lines:
            m = GHOST.match(line)
            if m and not m.group(1):
                rows.append(("", m.group(2), m.group(3), m.group(4)))
                continue
            end()
            if m:
                for it in self.block([("", m.group(2), m.group(3), m.group(4))], place, True):
                    found.append(m.group(1) + it)
                continue
            found.append(self.whole(line, place) if not line.lstrip().startswith("//") else line)
        end()
        text = "\n".join(found)

        def tree(m):
            indent, marks, inside = m.groups()
            out = []
            for path, other in leaves(inside):
                own = (name, *path[1:]) if path[0] == "crate" else path
                # (a module of the crate's root may be spelled like a crate that it doesn't list)
                is_crate = path[0] == "crate" or path[0] in self.repo.listed[name]
                home = self.repo.code_home(own) if is_crate else own
                here = other or path[-1]
                if (marks.strip() == "pub" and is_root and path[0] in self.repo.listed[name]
                        and path[0] in self.repo.listed):
                    if here in kept:
                        out.append((marks, home, here))
                    elif here in known and not marks_only(here, rest):
                        out.append(("", home, here))
                    else:
                        self.counts["items no longer handed on"] += 1
                        self.faults.append(f"{file}: hands on {here}")
                    continue
                if home != own:
                    self.counts["items moved"] += 1
                    self.faults.append(f"{file}: {'::'.join(path)} is at home as {'::'.join(home)}")
                    if home[0] == name:
                        home = ("crate", *home[1:])
                else:
                    home = path
                self.counts["items"] += path[0] in self.repo.listed
                out.append((marks, home, here))
            groups = collections.OrderedDict()
            for mark, home, here in out:
                if home[-1] == "self":
                    home = home[:-1]
                    here = home[-1] if here == "self" else here
                value = home[-1] if home[-1] == here else f"{home[-1]} as {here}"
                groups.setdefault((mark, home[:-1]), []).append(value)
            texts = []
            for (mark, head), values in groups.items():
                values = list(dict.fromkeys(values))
                before = "::".join(head) + "::" if head else ""
                for value in ([values[0]] if len(values) == 1
                              else ["{" + ", ".join(values) + "}"] if before else values):
                    texts.append(f"{indent}{mark}use {before}{value};")
            return "\n".join(texts) or "\0"

        moved = re.sub(CODE_USE, tree, text)
        moved = re.sub(r"\0\n?", "", moved)
        moved = re.sub(r"// What callers name of the crates below\.\n(?!pub use)", "", moved)
        # whole paths in code
        for crate, items in self.repo.handed.items():
            for item, target in items.items():
                if is_root and crate == name:
                    continue
                word = "crate" if crate == name else crate
                if crate != name and crate not in self.repo.listed[name]:
                    continue
                if f"{word}::{item}" in moved:
                    home = "::".join(self.repo.code_home((crate, item)))
                    moved, times = re.subn(rf"(?<![\w:]){word}::{item}\b", home, moved)
                    self.counts["whole items moved"] += times
        return merged(moved)

    def crates_txt(self, texts):
        known = {}
        for name in self.repo.listed:
            words, modules = set(), set()
            for file, text in texts.items():
                if file.startswith(f"{self.repo.top}/crates/{name}/"):
                    if file.endswith(".rt"):
                        modules.update(re.findall(r"(?m)^\s*(?:pub )?mod (\w+)", text))
                    text = re.sub(r"//.*" if file.endswith(".rt") else r"(?m)(^|\s)--\s.*", "",
                                  text)
                    words.update(re.findall(r"\bRattle\.(\w+)", text))
                    words.update(re.findall(r"\b(\w+)::", text))
                    words.update(re.findall(r"(?m)^\s*(?:pub )?use (\w+);", text))
            # (a module may be spelled like a crate)
            known[name] = words - {it for it in modules if it not in self.repo.listed[name]}
        lines = []
        for line in read(f"{self.repo.top}/crates.txt").splitlines():
            head, colon, names = line.partition("#")[0].partition(":")
            if not colon or line.startswith("#"):
                lines.append(line)
                continue
            name = head.split()[0]
            own = [it for it in self.repo.listed
                   if it in known[name] and self.repo.order[it] < self.repo.order[name]]
            kit = [it for it in names.split() if it not in self.repo.listed]
            lines.append(f"{head}:{''.join(f' {it}' for it in own + kit)}")
        return "\n".join(lines) + "\n"


def operators(words):
    """Names of operators by their signs: a word `≤ℚ` cites `◌≤ℚ◌`, and any sign may be part of a
    mixfix name."""
    found = set()
    for it in words:
        found |= {f"◌{it}◌", f"◌{it}", f"{it}◌", f"◌{it}◌]"}
    return found


def marks_only(here, rest):
    return False


def merged(text):
    """Adjacent `use` items of one path in one."""
    lines, found = text.split("\n"), []
    one = re.compile(r"^((?:pub )?)use ((?:\w+::)+)(\w+(?: as \w+)?|\{[^{}]*\});$")
    at = 0
    while at < len(lines):
        run = []
        while at < len(lines) and one.match(lines[at]):
            run.append(one.match(lines[at]).groups())
            at += 1
        if run:
            groups = collections.OrderedDict()
            for mark, head, tail in run:
                groups.setdefault((mark, head), []).extend(
                    it.strip() for it in tail.strip("{}").split(",") if it.strip())
            for (mark, head), names in groups.items():
                names = list(dict.fromkeys(names))
                found.append(f"{mark}use {head}{names[0]};" if len(names) == 1
                             else f"{mark}use {head}{{{', '.join(names)}}};")
            continue
        found.append(lines[at])
        at += 1
    return "\n".join(found)


def edits_of(top):
    for folder in ("crates", "edits"):
        for at, _, files in os.walk(f"{top}/{folder}"):
            for file in files:
                if file.endswith(".edit"):
                    yield f"{at}/{file}"


def main(words):
    top = os.getcwd()
    kept = {}
    keep = words[words.index("--keep") + 1] if "--keep" in words else f"{top}/tools/surface.txt"
    if os.path.isfile(keep):
        for line in read(keep).splitlines():
            name, colon, names = line.partition("#")[0].partition(":")
            if colon:
                kept[name.strip()] = set(names.split())
    repo = Repository(top)
    homes = Homes(repo, kept)
    before, after = {}, {}
    for module in repo.modules.values():
        before[module.file] = module.text
        after[module.file] = homes.antt(module)
    for name in repo.listed:
        for at, _, files in os.walk(f"{top}/crates/{name}/src"):
            for file in files:
                if file.endswith(".rt"):
                    before[f"{at}/{file}"] = read(f"{at}/{file}")
                    after[f"{at}/{file}"] = homes.code(name, f"{at}/{file}")
    if "--check" in words:
        print(*homes.faults, sep="\n", end="\n" if homes.faults else "")
        return 1 if homes.faults else 0
    changed = {file for file in after if after[file] != before[file]}
    print(f"{len(changed)} of {len(after)} files change; lines "
          f"{sum(t.count(chr(10)) for t in before.values())} to "
          f"{sum(t.count(chr(10)) for t in after.values())}")
    print(*(f"{number:7} {what}" for what, number in homes.counts.most_common()), sep="\n")
    text = homes.crates_txt(after)
    if "--write" in words:
        for file in changed:
            with open(file, "w", encoding="utf-8") as it:
                it.write(after[file])
        with open(f"{top}/crates.txt", "w", encoding="utf-8") as it:
            it.write(text)
    broken = 0
    for file in edits_of(top):
        said = read(file)
        crate = re.match(r".*/(?:crates|edits)/(\w+)", file).group(1)

        def item(m):
            if m.group(1) in repo.listed.get(crate, ()) and m.group(2) in repo.handed[m.group(1)]:
                return "::".join(repo.code_home((m.group(1), m.group(2))))
            return m.group(0)

        now = re.sub(r"(?m)^(?:old|new):.*$",
                     lambda line: re.sub(r"(?<![\w:])(\w+)::(\w+)", item, line.group(0)), said)
        if now != said:
            print(f"edit follows: {os.path.relpath(file, top)}")
            if "--write" in words:
                with open(file, "w", encoding="utf-8") as it:
                    it.write(now)
        target = re.search(r"(?m)^file: (\S+)", said)
        folder = re.match(r".*/(?:crates|edits)/(\w+)", file).group(1)
        path = f"{top}/crates/{folder}/{target.group(1)}" if target else ""
        if path in changed:
            texts = before[path], after[path]
            for old in re.findall(r"(?m)^old: ?(.*)$", said)[:1]:
                if texts[0].count(old) == 1 and texts[1].count(old) != 1:
                    broken += 1
                    print(f"edit to mend by hand: {os.path.relpath(file, top)}: {old[:90]}")
    print(f"{broken} edits whose text moved")


if __name__ == "__main__":
    sys.exit(main(sys.argv[1:]))
