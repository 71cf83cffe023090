#!/usr/bin/env python3
"""Puts the program and the tools below a folder, and takes them away again.

    ./fixprove install PREFIX [--program FILE]
    ./fixprove uninstall PREFIX

    PREFIX/libexec/fixprove       the program
    PREFIX/share/fixprove         the tools, what they import, and manifest.json: what was put where
    PREFIX/bin                    the commands: fixprove, fixprove-hints ..
    PREFIX/share/man/man1         the manual pages
    PREFIX/share/bash-completion/completions

DESTDIR in the environment stands before PREFIX, as packagers want it. Nothing that is installed
needs the repository or the toolchain, and PREFIX may be moved as a whole. Which commands there are
tools/commands.txt says. A file that isn't of an earlier installation is never written over, nor one
that was changed since. `uninstall` leaves such files, and says so.

Ends with 0; with 2 and one line where it couldn't; `install` with 70 where no program is built.
"""
import argparse
import ast
import contextlib
import functools
import hashlib
import json
import os
import sys

sys.dont_write_bytecode = True
import about  # noqa: E402
import assistants as shared  # noqa: E402

MANIFEST = "share/fixprove/manifest.json"
TOOLS = "share/fixprove/tools/"
NEW = ".fixprove-new"
CANNOT_RUN = 70

# What stands in bin/. Each finds the installation by its own place, so that it may be moved.
FIND = """#!/bin/sh
# Made by `fixprove install`: {about}.
here=$(readlink -f -- "$0") || exit 70
top=${{here%/*/*}}
"""
COMMAND = FIND + """program=$top/libexec/fixprove/fx_main
case ${{1-}} in
    -h | --help) exec python3 "$top/share/fixprove/tools/about.py" --help ;;
    --version) exec python3 "$top/share/fixprove/tools/about.py" --version "$program" ;;
esac
exec "$program" "$@"
"""
TOOL = FIND + """: "${{FIXPROVE:=$top/libexec/fixprove/fx_main}}"
export FIXPROVE PYTHONDONTWRITEBYTECODE=1
if [ "${{1-}}" = --version ]; then
    exec python3 "$top/share/fixprove/tools/about.py" --version "$FIXPROVE" {command}
fi
exec python3 "$top/share/fixprove/tools/{command}" "$@"
"""
COMPLETION = """. "${{BASH_SOURCE[0]%/*}}/fixprove"
complete -F _fixprove_tool {command}
"""


def read(name):
    """The bytes of a file of tools/ or docs/, by its name from the top."""
    return shared.read_bytes(os.path.join(about.TOP, name))


@functools.lru_cache(maxsize=None)
def modules(name):
    """The files of tools/ that a file there imports, as names below tools/."""
    found = set()
    for node in ast.walk(ast.parse(read("tools/" + name))):
        names = [it.name for it in node.names] if isinstance(node, ast.Import) else []
        if isinstance(node, ast.ImportFrom) and node.module and not node.level:
            names = [node.module]
        for top in {it.partition(".")[0] for it in names}:
            if os.path.isfile(os.path.join(about.TOOLS, top + ".py")):
                found.add(top + ".py")
            for at, _, files in os.walk(os.path.join(about.TOOLS, top)):
                within = os.path.relpath(at, about.TOOLS)
                found |= {os.path.join(within, it) for it in files if it.endswith(".py")}
    return found


def needed(names):
    """These files of tools/, and all that they import, directly or not."""
    found, todo = set(), list(names)
    while todo:
        name = todo.pop()
        if name not in found:
            found.add(name)
            is_python = read("tools/" + name).startswith(b"#!/usr/bin/env python3\n")
            todo += modules(name) if is_python or name.endswith(".py") else []
    return sorted(found)


def layout(program):
    """What is installed: {path: (bytes, whether it is a program)}, and links {path: target}.

    Paths are those below PREFIX."""
    known = dict(about.origin())
    proof, data = known.get("proof"), shared.read_bytes(program)
    if not proof or proof.get("sha256") != hashlib.sha256(data).hexdigest():
        known["proof"] = None
    files = {"libexec/fixprove/fx_main": (data, True)}
    files["share/fixprove/about.json"] = (json.dumps(known, indent=1).encode() + b"\n", False)
    files["bin/fixprove"] = (COMMAND.format(about="fixprove").encode(), True)
    completions = "share/bash-completion/completions/"
    files[completions + "fixprove"] = (read("tools/completion/fixprove"), False)
    links, tools = {}, ["about.py", "install.py", "commands.txt"]
    for name, _, further in about.commands():
        command = about.named(name)
        tools += [name] + further
        files["bin/" + command] = (TOOL.format(about=command, command=command).encode(), True)
        files[completions + command] = (COMPLETION.format(command=command).encode(), False)
        links[TOOLS + command] = name
    for name in needed(tools):
        files[TOOLS + name] = (read("tools/" + name), not name.endswith((".py", ".txt")))
    for name in ["fixprove"] + [about.named(it) for it, _, _ in about.commands()]:
        page = "man1/%s.1" % name
        if os.path.isfile(os.path.join(about.TOP, "docs/man", page)):
            files["share/man/" + page] = (read("docs/man/" + page), False)
    return files, links


def mark_of(path):
    """What the manifest says of a file or link; None where there is none, or a folder."""
    if os.path.islink(path):
        return "-> " + os.readlink(path)
    return about.sum_of(path) if os.path.isfile(path) else None


def manifest(root):
    """The manifest below a root, or None where nothing is installed."""
    path = os.path.join(root, MANIFEST)
    if not os.path.lexists(path):
        return None
    found = about.read_json(path) or {}
    files, folders = found.get("files"), found.get("folders")
    is_good = isinstance(files, dict) and isinstance(folders, list)
    if not is_good or not all(map(is_below, [*files, *folders])):
        raise shared.Fault("%s isn't one of fixprove's; nothing is done" % path)
    return found


def is_below(name):
    """Whether this is the path of something below a folder, or of the folder itself."""
    return isinstance(name, str) and not os.path.isabs(name) and ".." not in name.split("/")


def make_folders(root, names, made):
    """Makes the folders of these files. Adds each one's path to `made`, the outer ones first."""
    for name in sorted({os.path.dirname(it) for it in names}):
        missing, at = [], os.path.join(root, name)
        while not os.path.isdir(at):
            missing.append(at)
            at = os.path.dirname(at)
        for at in reversed(missing):
            os.mkdir(at)
            made.append(at)
            os.chmod(at, 0o755)


def write(path, data, is_program):
    with open(path, "wb") as file:
        file.write(data)
        file.flush()
        os.fsync(file.fileno())
    os.chmod(path, 0o755 if is_program else 0o644)


def refuse_others(root, names, old):
    """A fault where a file would be written over that no earlier installation left as it is."""
    for name in names:
        path = os.path.join(root, name)
        if os.path.lexists(path) and name != MANIFEST:
            if name not in old["files"]:
                raise shared.Fault("%s is there, and isn't fixprove's; nothing is done" % path)
            if mark_of(path) != old["files"][name]:
                raise shared.Fault("%s was changed since it was installed; nothing is done" % path)


def install(root, program):
    """Puts all below the root, or nothing. Returns how many files there are."""
    files, links = layout(program)
    old = manifest(root) or {"files": {}, "folders": []}
    refuse_others(root, list(files) + list(links), old)
    marks = {name: hashlib.sha256(data).hexdigest() for name, (data, _) in files.items()}
    marks.update({name: "-> " + target for name, target in links.items()})
    made, staged = [], []
    try:
        make_folders(root, list(marks) + [MANIFEST], made)
        new = [it for it in (os.path.relpath(it, root) for it in made) if is_below(it)]
        folders = old["folders"] + [it for it in new if it not in old["folders"]]
        kept = {name: mark for name, mark in old["files"].items() if name not in marks}
        text = json.dumps({"files": {**kept, **marks}, "folders": folders}, indent=1) + "\n"
        # the manifest is first in its place: whatever happens then, `uninstall` knows of all
        for name, (data, is_program) in [(MANIFEST, (text.encode(), False)), *files.items()]:
            staged.append(name)
            write(os.path.join(root, name) + NEW, data, is_program)
        for name, target in links.items():
            staged.append(name)
            os.symlink(target, os.path.join(root, name) + NEW)
    except BaseException as fault:
        for name in staged:
            if os.path.lexists(os.path.join(root, name) + NEW):
                os.unlink(os.path.join(root, name) + NEW)
        remove_empty(made)
        if isinstance(fault, OSError):
            where = (fault.filename or root).replace(NEW, "")
            raise shared.Fault("%s: %s; nothing is done" % (where, fault.strerror))
        raise
    for name in staged:
        os.replace(os.path.join(root, name) + NEW, os.path.join(root, name))
    for name, mark in kept.items():
        if mark_of(os.path.join(root, name)) == mark:
            os.unlink(os.path.join(root, name))
    text = json.dumps({"files": marks, "folders": folders}, indent=1) + "\n"
    write(os.path.join(root, MANIFEST) + NEW, text.encode(), False)
    os.replace(os.path.join(root, MANIFEST) + NEW, os.path.join(root, MANIFEST))
    return len(marks) + 1


def uninstall(root):
    """Takes away what the manifest has; returns the paths that were changed, which stay."""
    found, changed = manifest(root), []
    if found is None:
        raise shared.Fault("nothing was installed below %s" % root)
    for name, mark in found["files"].items():
        path = os.path.join(root, name)
        if os.path.lexists(path):
            if mark_of(path) == mark:
                os.unlink(path)
            else:
                changed.append(path)
    os.unlink(os.path.join(root, MANIFEST))
    remove_empty([os.path.normpath(os.path.join(root, it)) for it in found["folders"]])
    return changed


def remove_empty(folders):
    """Removes these folders, the last ones first, but for those in which something else is."""
    for path in reversed(folders):
        with contextlib.suppress(OSError):
            os.rmdir(path)


def say(text):
    print("fixprove: " + text, file=sys.stderr)


def main(words):
    first, rest = __doc__.split("\n\n", 1)
    parser = shared.Words(first)
    parser.formatter_class, parser.epilog = argparse.RawDescriptionHelpFormatter, rest
    parser.usage = "./fixprove install PREFIX [--program FILE] | uninstall PREFIX"
    parser.add_argument("what", choices=["install", "uninstall"], metavar="install|uninstall")
    parser.add_argument("prefix", metavar="PREFIX", help="the folder below which all is put")
    parser.add_argument("--program", metavar="FILE", help="another program than ./fixprove's")
    words = parser.parse_args(words)
    if not words.prefix:
        raise shared.Fault("PREFIX is empty")
    prefix = root = os.path.abspath(words.prefix)
    if os.environ.get("DESTDIR"):
        root = os.path.normpath(os.path.abspath(os.environ["DESTDIR"]) + prefix)
    try:
        if words.what == "uninstall":
            for path in uninstall(root):
                say("%s was changed since it was installed, and stays" % path)
            say("taken away from %s" % root)
            return 0
        program = about.BUILT if words.program is None else words.program
        if not program:
            say("no program is built of these sources: ./fixprove build makes one; nothing is done")
            return CANNOT_RUN
        with shared.Program(program):
            pass
        count = install(root, os.path.abspath(program))
    except OSError as error:
        raise shared.Fault("%s: %s" % (error.filename or root, error.strerror))
    say("%d files are below %s" % (count, root))
    bin_folder = os.path.join(prefix, "bin")
    if prefix == root and bin_folder not in os.environ.get("PATH", "").split(os.pathsep):
        say("%s isn't on the path" % bin_folder)
    return 0


if __name__ == "__main__":
    sys.argv[0] = "fixprove"
    shared.ran(main)
