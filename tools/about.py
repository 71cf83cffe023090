#!/usr/bin/env python3
"""What this is: the version, the program, and what is known of its proof.

    python3 tools/about.py --help | --version [PROGRAM]   what `fixprove` answers to these words
    python3 tools/about.py sources             prints the sum of the program's sources
    python3 tools/about.py recorded            status 0: the built program's proof is recorded
    python3 tools/about.py record BY SOURCES   records that BY proved and built the program, of
                                               sources with this sum

A proof is recorded in crates/fx_main/out/proof.json by what proved the sources and built the
program, and by nothing else. The record names the program by its SHA-256. So a program that was
changed, or put there by hand, isn't called proved. This works in the repository, and after an
installation. Errors: one line on standard error, status 2.
"""
import argparse
import contextlib
import hashlib
import json
import os
import re
import shutil
import subprocess
import sys

TOOLS = os.path.dirname(os.path.realpath(__file__))
TOP = os.path.dirname(TOOLS)
BUILT = os.path.join(TOP, "crates", "fx_main", "out", "fx_main")
RECORD = os.path.join(TOP, "crates", "fx_main", "out", "proof.json")
# (there after an installation alone: what was known then)
INSTALLED = os.path.join(TOP, "about.json")
# the parts of a crate that a proof reads
PARTS = ("src", "specs", "proofs", "c")

HELP = """Usage: {name} COMMAND [WORD ..]

Proves bounds on fixed-point programs. Commands:

  prove SCRIPT [--cert FILE] [--rounds N] [--depth N] [--boxes N] [--workers N]
                             proves a script; --cert writes the certificate
  check SCRIPT CERT          checks a certificate
  gen N                      proves a made script of degree N
  upgrade CERT NEW           writes a certificate in version 2
  fix PROGRAM SCRIPT         writes the script of a fixed-point program
  at SCRIPT POINT            evaluates a script at a point, exactly
  trim SCRIPT CERT NEW       writes a certificate without its unused steps
  batch LIST [--rounds N] [--depth N] [--boxes N] [--workers N]
                             proves up to 64 scripts, named in a file
{more}
Options of prove and batch: --rounds 1 to 64 (20), --depth 0 to 32 (16),
--boxes 1 to 8192 (4096), of batch 1 to 512 (256), --workers 1 to 16 (4).

  --help, -h                 these lines
  --version                  the version, the program's SHA-256, and whether
                             it is known to be proved

Status: 0 proved or done, 1 unproved, 2 wrong words, 3 no script, 4 a limit,
5 certificate refused, 6 a read fault, 7 a write fault, 8 no memory, 9 no
program, 10 no point, 11 too wide, 12 no list, 70 nothing could be run.

{others}"""
HERE = """
  build                      proves and builds the program
  install PREFIX             puts the program and the tools below a folder
  uninstall PREFIX           takes them away again
"""


def sum_of(name):
    """The SHA-256 of a file, in hexadecimal; OSError where it can't be read."""
    found = hashlib.sha256()
    with open(name, "rb") as file:
        for part in iter(lambda: file.read(1 << 20), b""):
            found.update(part)
    return found.hexdigest()


def sources():
    """The sum of all files that the proof reads: the SHA-256 of what `sha256sum` prints of them.

    These are crates.txt, HANDLES, and the files in src/, specs/, proofs/ and c/ of each crate, by
    the order of their names' bytes."""
    names = ["crates.txt", "HANDLES"]
    for crate in os.listdir(os.path.join(TOP, "crates")):
        for part in PARTS:
            for at, _, files in os.walk(os.path.join(TOP, "crates", crate, part)):
                names += [os.path.relpath(os.path.join(at, file), TOP) for file in files]
    found = hashlib.sha256()
    for name in sorted(names, key=os.fsencode):
        found.update(b"%s  %s\n" % (sum_of(os.path.join(TOP, name)).encode(), os.fsencode(name)))
    return found.hexdigest()


def kit():
    """The line that names the toolchain on the path, or None."""
    folder = os.path.dirname(os.path.realpath(shutil.which("rt") or ""))
    try:
        with open(os.path.join(folder, "..", "KIT-ID"), encoding="utf-8") as file:
            return file.readline().strip() or None
    except OSError:
        return None


def commit():
    """The commit of the repository, and whether a file that it has was changed since.

    None and False where git can't say."""
    if not os.path.exists(os.path.join(TOP, ".git")):
        return None, False
    said = []
    for words in (["rev-parse", "HEAD"], ["status", "--porcelain", "--untracked-files=no"]):
        try:
            how = {"stdout": subprocess.PIPE, "stderr": subprocess.DEVNULL, "check": False}
            done = subprocess.run(["git", "-C", TOP, *words], **how)
        except OSError:
            return None, False
        if done.returncode:
            return None, False
        said.append(done.stdout.decode(errors="replace").strip())
    return said[0], bool(said[1])


def record(by, before):
    """Records that `by` proved and built the program in out/, of sources whose sum was `before`.

    Returns whether it did: not where the sources have another sum by now."""
    now = sources()
    if now != before:
        if os.path.exists(RECORD):
            os.unlink(RECORD)
        return False
    name, changed = commit()
    found = {"sha256": sum_of(BUILT), "by": by, "sources": now}
    found.update(commit=name, changed=changed, kit=kit())
    with open(RECORD + ".new", "w", encoding="utf-8") as file:
        json.dump(found, file, indent=1)
        file.write("\n")
    os.replace(RECORD + ".new", RECORD)
    return True


def read_json(name):
    try:
        with open(name, encoding="utf-8") as file:
            found = json.load(file)
            return found if isinstance(found, dict) else None
    except (OSError, ValueError):
        return None


def origin():
    """What is known here of the version: a dictionary.

    commit, changed   as `commit()` has them
    page_kit          the kit that README.md names
    proof             the record of a proof, or None
    """
    kept = read_json(INSTALLED)
    if kept is not None:
        return kept
    name, changed = commit()
    try:
        with open(os.path.join(TOP, "README.md"), encoding="utf-8") as file:
            said = re.search("^Proved with `([^`]+)`", file.read(), re.M)
    except OSError:
        said = None
    page_kit = said[1] if said else None
    return {"commit": name, "changed": changed, "page_kit": page_kit, "proof": read_json(RECORD)}


def facts(program):
    """What is known of a program, by its file: a dictionary.

    version   the commit's first 12 digits, with -changed where files differ from it; None where
              it isn't known
    sha256    the program's; None where it can't be read
    proved    True where a record has this SHA-256, else None: nothing is known
    kit, by, sources   what that record says; else None
    page_kit  the kit that README.md names, which says nothing of this program
    """
    known = origin()
    found = dict.fromkeys(("version", "sha256", "proved", "kit", "by", "sources"))
    found["page_kit"] = known.get("page_kit")
    if known.get("commit"):
        found["version"] = known["commit"][:12] + ("-changed" if known.get("changed") else "")
    try:
        found["sha256"] = sum_of(program) if program else None
    except OSError:
        pass
    proof = known.get("proof")
    if isinstance(proof, dict) and found["sha256"] and proof.get("sha256") == found["sha256"]:
        found.update(proved=True, **{it: proof.get(it) for it in ("kit", "by", "sources")})
    return found


def version(program, name="fixprove"):
    """The lines that `--version` prints; `program` is a file's name, or empty if none is built."""
    found = facts(program)
    lines = ["%s %s" % (name, found["version"] or "(commit not known)")]
    if not program:
        return lines + ["program: not built", "proved: no; `fixprove` runs the sources unproved"]
    if found["sha256"] is None:
        return lines + ["program: %s can't be read" % program, "proved: not known"]
    lines += ["program: " + program, "sha256: " + found["sha256"]]
    if not found["proved"]:
        said = "; README.md has " + found["page_kit"] if found["page_kit"] else ""
        lines.append("kit: not known" + said)
        return lines + ["proved: not known; no record of a proof has this sha256"]
    lines += ["kit: " + (found["kit"] or "not known"), "sources: %s" % found["sources"]]
    is_other = not os.path.exists(INSTALLED) and found["sources"] != sources()
    other = ", of other sources than those that are here now" if is_other else ""
    return lines + ["proved: yes%s, recorded by %s" % (other, found["by"])]


class Version(argparse.Action):
    """Prints the lines of `--version`, and ends with 0."""

    def __call__(self, parser, words, values, option=None):
        print("\n".join(version(os.environ.get("FIXPROVE") or BUILT, parser.prog)))
        parser.exit(0)


def add_version(parser):
    """Adds --version to a tool's words, if it isn't there."""
    says = "the version, and what is known of the program"
    with contextlib.suppress(argparse.ArgumentError):
        parser.add_argument("--version", action=Version, nargs=0, help=says)


def commands():
    """The lines of commands.txt whose command is here: (NAME, what it does, further files)."""
    found = []
    with open(os.path.join(TOOLS, "commands.txt"), encoding="utf-8") as file:
        for line in file:
            if line.strip() and not line.startswith("#"):
                name, does, files = [it.strip() for it in line.split("|")]
                if os.path.isfile(os.path.join(TOOLS, name)):
                    found.append((name, does, files.split()))
    return found


def named(name):
    """The command on the path that runs tools/NAME after an installation."""
    return "fixprove-" + name.replace("_", "-")


def usage():
    """What `fixprove --help` prints."""
    is_here = not os.path.exists(INSTALLED)
    wide = max(len(named(name)) for name, _, _ in commands()) + 2
    rows = ["Further commands, each with --help:", ""]
    for name, does, _ in commands():
        rows.append("  %-*s%s" % (wide, "tools/" + name if is_here else named(name), does))
    rows += ["", "README.md and docs/ tell more." if is_here else "man fixprove tells more."]
    here = ("./fixprove", HERE.rstrip("\n") + "\n") if is_here else ("fixprove", "")
    return HELP.format(name=here[0], more=here[1], others="\n".join(rows))


def main(words):
    if words[:1] in (["--help"], ["-h"]):
        print(usage())
    elif words[:1] == ["--version"] and len(words) <= 3:
        print("\n".join(version(words[1] if len(words) > 1 else BUILT, *words[2:])))
    elif words == ["sources"]:
        print(sources())
    elif words == ["recorded"]:
        return 0 if facts(BUILT)["proved"] else 1
    elif words[:1] == ["record"] and len(words) == 3:
        if not record(*words[1:]):
            raise ValueError("the sources have another sum now; nothing is recorded")
    else:
        raise ValueError("wrong words; the beginning of tools/about.py has the right ones")
    sys.stdout.flush()
    return 0


if __name__ == "__main__":
    try:
        sys.exit(main(sys.argv[1:]))
    except (OSError, ValueError) as error:
        if not isinstance(error, BrokenPipeError):
            print("about.py: %s" % error, file=sys.stderr)
        os.dup2(os.open(os.devnull, os.O_WRONLY), 1)
        sys.exit(2)
