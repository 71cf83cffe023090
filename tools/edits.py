#!/usr/bin/env python3
"""Tries the edits that the gate leaves out: each is a wrong body that the prover must refuse.

Use, in the repository:   python3 tools/edits.py [--anew] [--functions] [NAME | NAME/EDIT ..]

NAME stands for the edits in edits/NAME/, more of the crate NAME than the gate tries; NAME/EDIT is
one, in edits/NAME/ or in the gate's folder crates/NAME/must-fail/. Without any, all that lie in
edits/ are tried, crate by crate. The repository is copied to a folder beside it, by links where it
can be, and `rt must-fail` tries them there. Crates below that aren't built are built first. Nothing
changes in the repository.

Prints a line for each edit: what came of it, the processor seconds of its check, rounded up, and
what the prover says first. A dash stands for the seconds where no check of it alone was seen, as
of one that was tried before over the same files; --anew tries these too.

With --functions, edits of functions' bodies are first tried by the proofs of these functions alone
(`rt check --only`), several in one copy. What isn't refused so is tried as without the word.

What comes of an edit:
  refused      a clause refuses it, or another part of the crate's proof
  by a limit   the prover gave up at a limit of its own, which counts as refused
  by a name    only a proof's file refuses it, as a name is gone, which counts as refused
  NOT REFUSED  the crate is proved with it
  BAD          it can't be applied, compiled or read
  NOT TRIED    its check was killed or never began: nothing is known
The last line has the counts, the seconds of all, and those of the crates' checks that the edits
begin with or are held to. Status: 0 if all are refused, 1 if one isn't, 2 for wrong words or where
the repository can't be copied.
"""
import argparse
import math
import os
import re
import shutil
import subprocess
import sys
import tempfile
import threading

sys.path.insert(0, os.path.dirname(os.path.abspath(__file__)))
import minutes  # noqa: E402

TOP = os.path.dirname(os.path.dirname(os.path.abspath(__file__)))
# what comes of an edit, and the words with which `rt must-fail` says it, the longest first
KINDS = {
    "by a limit": "refused, as it must be (only by a limit",
    "by a name": "refused, as it must be (only because a proof file names",
    "refused": "refused, as it must be",
    "NOT REFUSED": "NOT REFUSED",
    "BAD": "BAD EDIT",
    "NOT TRIED": "NOT TRIED",
}
REFUSED = ("refused", "by a limit", "by a name")
# a function's first line, and that of a block of them, as `rt fmt` lays them out
FUNCTION = re.compile(r"^( *)(?:pub(?:\([a-z]+\))? )?(?:const |unsafe )*fn (\w+)", re.MULTILINE)
BLOCK = re.compile(r"^(?:pub |unsafe )*(impl|trait|mod)\b", re.MULTILINE)
TYPE = re.compile(r"(?:unsafe )?impl(?:<[^{]*?>)? "
                  r"(?:(?:\w+::)*(\w+)(?:<(?:\w+::)*(\w+)[^{]*?)? for )?(?:\w+::)*(\w+)")
# what `rt check` says of a function, and a line that names a place
FATE = re.compile(r"^fn (\S+): (.*)$", re.MULTILINE)
PLACE = re.compile(r"(?:note: )?\S+:\d+:\d+: ")
# what a proof's file says of a name that is gone
GONE = re.compile(r"(?:note: )?(?:\./)?proofs/.*"
                  r"(?:has no field|is not in scope|has no `|was not admitted)")
LINE = re.compile(r"rt: must-fail ([\w-]+)/([\w.-]+)\.edit: (.*)", re.DOTALL)
PERIOD = 0.5


class Words(argparse.ArgumentParser):
    """Words of the command line; wrong ones give one line, status 2."""

    def error(self, message):
        self.exit(2, f"{self.prog}: {message}\n")


def names_in(folder):
    """The names of a folder's edits, in their order; none if there is no such folder."""
    found = os.listdir(folder) if os.path.isdir(folder) else []
    return sorted(it[: -len(".edit")] for it in found if it.endswith(".edit"))


def chosen(words, top=TOP):
    """For each crate the files of its edits that are asked for. ValueError names a wrong word."""
    found = {}
    for word in words or sorted(os.listdir(f"{top}/edits")):
        name, _, edit = word.partition("/")
        folders = (f"{top}/edits/{name}", f"{top}/crates/{name}/must-fail")
        if edit:
            edit = edit.removesuffix(".edit")
            files = [f"{it}/{edit}.edit" for it in folders if edit in names_in(it)][:1]
        else:
            files = [f"{folders[0]}/{it}.edit" for it in names_in(folders[0])]
        if not files:
            raise ValueError(f"there is no edit {word}" if edit else f"edits/ has none of {word}")
        listed = found.setdefault(name, [])
        listed += [it for it in files if it not in listed]
    return found


def edited(file, crate, begun=None):
    """The texts that an edit makes of files of a crate's folder, by their names; {} if it can't.

    `begun` has texts in place of those of some files."""
    texts, path, old = dict(begun or {}), None, None
    with open(file, encoding="utf-8") as it:
        lines = it.read().split("\n")
    for line in lines:
        head, _, rest = line.partition(":")
        text = rest.removeprefix(" ")
        if head == "file":
            path = text.strip()
        elif head == "old":
            old = text
        elif head == "new" and path and old:
            if path not in texts:
                if not os.path.isfile(f"{crate}/{path}"):
                    return {}
                with open(f"{crate}/{path}", encoding="utf-8") as it:
                    texts[path] = it.read()
            if texts[path].count(old) != 1:
                return {}
            texts[path] = texts[path].replace(old, text)
    return texts


def function_at(name, path, text, place):
    """The function of the crate in whose body a place of a file's text lies, by a name that
    `rt check --only` takes; None if it lies in no body, or in one of a trait."""
    heads = list(FUNCTION.finditer(text, 0, place))
    if not heads or not path.startswith("src/"):
        return None
    margin, called = heads[-1].groups()
    body = re.compile(rf"^{margin}(?:\S.*)?\{{$", re.MULTILINE).search(text, heads[-1].start())
    end = text.find(f"\n{margin}}}", heads[-1].end())
    if not body or not body.end() <= place < end:
        return None
    if margin:
        block = list(BLOCK.finditer(text, 0, heads[-1].start()))[-1:]
        kind = TYPE.match(text, block[0].start()) if block else None
        # (the type may be of another module; after it stand the trait's name and its argument, if
        # that isn't a parameter)
        more = [it for it in kind.groups()[:2] if it and len(it) > 1] if kind else []
        return f"{kind[3]}{''.join(more)}::{called}" if kind else None
    module = path.removeprefix("src/").removesuffix(".rt").split("/")
    return "::".join([name, *(module if module not in (["lib"], ["main"]) else []), called])


def functions_of(file, name, crate):
    """The functions whose bodies an edit changes; none if it changes anything else."""
    found, path, old = [], None, None
    with open(file, encoding="utf-8") as it:
        lines = it.read().split("\n")
    for line in lines:
        head, _, rest = line.partition(":")
        if head == "file":
            path = rest.strip()
        elif head == "old":
            old = rest.removeprefix(" ")
        elif head == "new":
            with open(f"{crate}/{path}", encoding="utf-8") as it:
                text = it.read()
            function = function_at(name, path, text, text.find(old))
            if not function:
                return []
            found += [function] * (function not in found)
    return found


def holds(folder, texts):
    """Whether the files of the folder have these texts. It may be gone meanwhile: then not."""
    for path, text in texts.items():
        try:
            with open(f"{folder}/{path}", encoding="utf-8") as it:
                if it.read() != text:
                    return False
        except (OSError, UnicodeDecodeError):
            return False
    return bool(texts)


class Watch(threading.Thread):
    """Looks at the prover's processes below a folder, and adds up what each edit's check takes.

    `texts` has what each edit makes of its crate. A check is told by the text that it reads."""

    def __init__(self, folder, texts):
        threading.Thread.__init__(self, daemon=True)
        self.folder, self.texts = os.path.realpath(folder), texts
        self.of, self.taken, self.is_over = {}, {}, threading.Event()

    def edit_of(self, folder):
        """The edit whose check runs in the folder; None for a check of the crate as it stands."""
        if folder not in self.of:
            told = [edit for edit, texts in self.texts.items() if holds(folder, texts)]
            self.of[folder] = told[0] if told else None
        return self.of[folder]

    def look(self):
        """Takes note of what runs now."""
        for key, folder, _, _, seconds in minutes.processes():
            if os.path.dirname(folder) == self.folder:
                known = self.taken.get(key)
                self.taken[key] = known[0] if known else self.edit_of(folder), seconds

    def run(self):
        while not self.is_over.wait(PERIOD):
            self.look()

    def seconds(self, edit):
        """The processor seconds of an edit's checks, rounded up with what was not seen, or None
        where there was none; those of the crate as it stands for None."""
        found = [seconds for other, seconds in self.taken.values() if other == edit]
        return math.ceil(sum(found) + PERIOD * len(found)) if found else None


def copied(room):
    """Copies what `rt` reads, and what earlier checks kept, to a folder. OSError if it can't."""
    os.mkdir(f"{room}/.git")
    for name in ("crates", "crates.txt", "HANDLES"):
        for way in ("-al", "-a"):
            words = ["cp", way, f"{TOP}/{name}", f"{room}/{name}"]
            if not subprocess.run(words, stderr=subprocess.DEVNULL, check=False).returncode:
                break
            shutil.rmtree(f"{room}/{name}", ignore_errors=True)
        else:
            raise OSError(f"{name} can't be copied to {room}")


def records(lines, others):
    """What `rt must-fail` says of each edit: its kind, and the rest of the text.

    `others` is given each line that speaks of none."""
    found, edit = {}, None
    for line in lines:
        line = line.rstrip("\n")
        told = LINE.match(line)
        if told:
            edit = told[2]
            kind = next((it for it, said in KINDS.items() if told[3].startswith(said)), None)
            found[edit] = kind or "NOT TRIED", told[3]
        elif edit and not line.startswith("rt: "):
            found[edit] = found[edit][0], f"{found[edit][1]}\n{line}"
        else:
            edit = None
            others(line)
    return found


def said_of(kind, text):
    """What is shown of an edit behind its name: the prover's first words, or all if it isn't
    refused."""
    if kind not in REFUSED:
        return ": " + text.removeprefix(KINDS[kind]).lstrip(": ").replace("\n", "\n    ")
    place = re.search(r"(?:note: )?\S+:\d+:\d+: .*", text)
    return f": {place[0]}" if place else ""


def put(path, text):
    """Gives a file of the copy another text, and leaves alone what it may be a link to."""
    with open(f"{path}.new", "w", encoding="utf-8") as it:
        it.write(text)
    os.replace(f"{path}.new", path)


def refusals(said, functions):
    """What refuses each of these functions in the words of `rt check --only`: the first place in
    its proof's files, or of a clause that has no proof there. One that is proved isn't there. Nor
    is one that stands on a call that isn't proved, stops at a limit, or names what is gone."""
    found = {}
    places = [it for it in said.split("\n") if PLACE.match(it)]
    for function, told in FATE.findall(said):
        asked = next((it for it in functions if f"::{function}".endswith(f"::{it}")), None)
        if not asked or told.startswith("proved"):
            continue
        folder = f"proofs/{'/'.join(function.split('::')[1:])}/"
        clauses = [f"(`{it}`)" for it in re.findall(r"`([\w-]+)`", told)]
        own = [it for it in places if folder in it.removeprefix("note: ").partition(":")[0]]
        own += [it for it in places if any(clause in it for clause in clauses)]
        real = [it for it in own if not GONE.match(it)]
        if real or told.startswith("no proof"):
            found[asked] = real[0] if real else told
    return found


def batches(files, name, crate):
    """The edits of functions' bodies in groups, in each of which no two change one function.

    A group is what its edits make of the crate's files, and each edit's functions."""
    groups = []
    for file in files:
        functions = functions_of(file, name, crate) if edited(file, crate) else []
        for texts, its in [*groups, ({}, {})]:
            made = edited(file, crate, texts)
            taken = {it for those in its.values() for it in those}
            if functions and made and not taken.intersection(functions):
                if not its:
                    groups.append((texts, its))
                texts.update(made)
                its[file] = functions
                break
    return groups


def tried_by_functions(crate, name, files):
    """Tries edits by the proofs of the functions that they change, several in one copy: each
    function's proof reads the contracts of the others alone. Gives for each edit that is refused
    so what refuses it, and the processor seconds of all."""
    found, before = {}, os.times()
    for texts, its in batches(files, name, crate):
        asked = [function for functions in its.values() for function in functions]
        words = ["rt", "check", *(it for function in asked for it in ("--only", function))]
        old = {}
        for path in texts:
            with open(f"{crate}/{path}", encoding="utf-8") as it:
                old[path] = it.read()
        try:
            for path, text in texts.items():
                put(f"{crate}/{path}", text)
            run = subprocess.run(words, cwd=crate, text=True, errors="replace", check=False,
                                 stdin=subprocess.DEVNULL, stdout=subprocess.PIPE,
                                 stderr=subprocess.STDOUT)
        finally:
            for path, text in old.items():
                put(f"{crate}/{path}", text)
        refused = refusals(run.stdout, asked) if run.returncode == 1 else {}
        for file, functions in its.items():
            why = [refused[it] for it in functions if it in refused]
            found.update({file: why[0]} if why else {})
    after = os.times()
    return found, math.ceil(sum(after[2:4]) - sum(before[2:4]))


def tried(room, name, files, anew, by_functions):
    """Tries a crate's edits in the copy. Gives (edit, kind, text, seconds or None) of each, the
    seconds of the crate's own checks or None, and those of the checks by functions."""
    found, taken = {}, 0
    if by_functions:
        found, taken = tried_by_functions(f"{room}/crates/{name}", name, files)
    left = [it for it in files if it not in found]
    each, own = tried_whole(room, name, left, anew) if left else ([], None)
    told = {it[0]: it for it in each}
    for file, why in found.items():
        edit = os.path.basename(file)[: -len(".edit")]
        told[edit] = edit, "refused", why, None
    return [told[os.path.basename(it)[: -len(".edit")]] for it in files], own, taken


def tried_whole(room, name, files, anew):
    """The same by `rt must-fail`, which proves the whole crate with each edit."""
    crate, tmp = f"{room}/crates/{name}", f"{room}/tmp"
    folder = f"{crate}/must-fail"
    shutil.rmtree(folder, ignore_errors=True)
    os.makedirs(folder)
    os.makedirs(tmp, exist_ok=True)
    for file in files:
        shutil.copy(file, folder)
    edits = [os.path.basename(it)[: -len(".edit")] for it in files]
    watch = Watch(tmp, {edit: edited(file, crate) for edit, file in zip(edits, files)})
    watch.start()
    words = ["rt", "must-fail", name] + ["--anew"] * anew
    with subprocess.Popen(words, cwd=room, env={**os.environ, "TMPDIR": tmp}, text=True,
                          stdin=subprocess.DEVNULL, stdout=subprocess.PIPE) as run:
        found = records(run.stdout, lambda line: print(line, file=sys.stderr, flush=True))
    watch.is_over.set()
    watch.join()
    never = "NOT TRIED", f"rt must-fail ended with status {run.returncode} and says nothing of it"
    each = [(edit, *found.get(edit, never), watch.seconds(edit)) for edit in edits]
    return each, watch.seconds(None)


def summary(kinds, seconds, own):
    """The last line: how many edits came to what, their seconds, and those of the crates' own
    checks."""
    each = {kind: kinds.count(kind) for kind in KINDS}
    told = sum(each[it] for it in REFUSED)
    alone = ", ".join(f"{each[it]} of them only {it}" for it in REFUSED[1:] if each[it])
    return (f"{len(kinds)} edits: {told} refused{f' ({alone})' if alone else ''}, "
            f"{each['NOT REFUSED']} not refused, {each['BAD']} bad, {each['NOT TRIED']} not tried; "
            f"{seconds} s, and {own} s of the crates as they stand")


def main(words):
    """Tries the edits that the words name, or all; returns the status."""
    parser = Words(prog="edits.py", allow_abbrev=False, description=__doc__,
                   formatter_class=argparse.RawDescriptionHelpFormatter)
    parser.add_argument("edits", nargs="*", metavar="NAME | NAME/EDIT",
                        help="a crate's edits in edits/, or one edit; all of edits/ without any")
    parser.add_argument("--anew", action="store_true",
                        help="tries those too that were tried before over the same files")
    parser.add_argument("--functions", action="store_true",
                        help="tries them first by the functions that they change alone")
    given = parser.parse_args(words)
    try:
        files = chosen(given.edits)
    except ValueError as wrong:
        parser.error(str(wrong))
    if not shutil.which("rt"):
        parser.error("the toolchain's `rt` isn't on the path")
    kinds, total, own = [], 0, 0
    above = os.path.dirname(TOP)
    beside = above if os.access(above, os.W_OK) else None
    with tempfile.TemporaryDirectory(prefix=".edits-", dir=beside) as room:
        copied(room)
        for name, those in files.items():
            print(f"{name}: trying {len(those)}", file=sys.stderr, flush=True)
            each, before, together = tried(room, name, those, given.anew, given.functions)
            own += before or 0
            total += together
            for edit, kind, text, seconds in each:
                shown = "-" if seconds is None else f"{seconds} s"
                print(f"{kind:12}{shown:>7}  {name}/{edit}{said_of(kind, text)}", flush=True)
                kinds.append(kind)
                total += seconds or 0
    print(summary(kinds, total, own))
    return 0 if all(it in REFUSED for it in kinds) else 1


if __name__ == "__main__":
    try:
        sys.exit(main(sys.argv[1:]))
    except KeyboardInterrupt:
        sys.exit(130)
    except OSError as error:
        print(f"edits.py: {error}", file=sys.stderr)
        sys.exit(2)
