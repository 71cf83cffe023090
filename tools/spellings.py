#!/usr/bin/env python3
"""Tries whether a command writes a file over that it reads, or that its lines go to.

Use, in the repository:   python3 tools/spellings.py [--quiet] [PROGRAM]
PROGRAM is the built one, crates/fx_main/out/fx_main, if none is named.

Each spelling of a path is tried in a folder of its own, as the file that is written and as the one
that is read, for `prove --cert`, `upgrade`, `fix` and `trim`; and then names of files that differ.
Then standard output leads to the file that is written, in several ways; and to a pipe. Prints a
line for each, or with --quiet for each fault alone: whether the files kept their bytes, the status,
and the first line that was printed. Ends with 1 if a file was lost, if one path had another status
than 2 or 7, if standard output had another than 7, or if files that differ had another than 0.
"""
import os
import subprocess
import sys
import tempfile

TOP = os.path.dirname(os.path.dirname(os.path.abspath(__file__)))
FILES = {
    "s.fx": b"{ x in [1,2] /\\ y in [3,5] -> x * y in ? }\n",
    "p.fix": b"in x : s16.15 [0,0.5]; y : s16.15 dn = x * x; out y;\n",
    # a certificate of the script, in version 1
    "c.cert": bytes.fromhex(
        "46585043010003000000000001050000000100000164000001000000000000000000000100000000"
        "00000000000001000100000001640001010001000000000000000003000000000000000000000500"
        "00000000010600000100020000000000000000030000000000000000000005000100000200000000"
        "0000000000000000000000010300010000000000000002"
    ),
}
# what is tried: the file that is read, and the words with the names of that and of the new file
COMMANDS = {
    "prove --cert": ("s.fx", lambda read, new: ["prove", read, "--cert", new]),
    "upgrade": ("c.cert", lambda read, new: ["upgrade", read, new]),
    "fix": ("p.fix", lambda read, new: ["fix", read, new]),
    "trim over the script": ("s.fx", lambda read, new: ["trim", read, "c.cert", new]),
    "trim over the certificate": ("c.cert", lambda read, new: ["trim", "s.fx", read, new]),
}


def linked(make, rest=""):
    """A name that is made to lead to the file, with what stands behind it."""

    def spelled(folder, name):
        make(folder, name)
        return "other" + (rest and f"{rest}{name}")

    return spelled


def link_to_link(folder, name):
    """Makes a link to a link to the file."""
    os.symlink(name, f"{folder}/link")
    os.symlink("link", f"{folder}/other")


# what is tried, and the spelling of the file in the folder
SPELLINGS = {
    "./": lambda folder, name: f"./{name}",
    "two slashes": lambda folder, name: f".//{name}",
    "a folder and back": lambda folder, name: f"below/../{name}",
    "an absolute path": lambda folder, name: f"{folder}/{name}",
    "through /proc": lambda folder, name: f"/proc/self/cwd/{name}",
    "a symbolic link": linked(lambda folder, name: os.symlink(name, f"{folder}/other")),
    "a link to a link": linked(link_to_link),
    "a link to its folder": linked(lambda folder, name: os.symlink(".", f"{folder}/other"), "/"),
    "a hard link": linked(lambda folder, name: os.link(f"{folder}/{name}", f"{folder}/other")),
}


def plain(_, name):
    return name


def run(words, folder, out):
    """Runs the words in a folder, with no input."""
    return subprocess.run(words, cwd=folder, stdin=subprocess.DEVNULL, stdout=out, check=False)


def tell(command, what, is_kept, status, line, statuses, is_quiet):
    """Prints what was found, unless it is as it should be and nothing is wanted; whether it is."""
    is_well = is_kept and status in statuses
    if not (is_well and is_quiet):
        held = "kept" if is_kept else "LOST"
        rest = f", {line}" if line else ""
        print(f"{command}, {what}: {held}, status {status}{rest}", flush=True)
    return is_well


def attempt(program, what, command, read, new, statuses, is_quiet):
    """Runs the program in a folder of its own with these names.

    Returns whether the file kept its bytes and the status is one of these.
    """
    kept, words_of = COMMANDS[command]
    with tempfile.TemporaryDirectory() as folder:
        folder = os.path.realpath(folder)
        os.mkdir(f"{folder}/below")
        for name, content in FILES.items():
            with open(f"{folder}/{name}", "wb") as it:
                it.write(content)
        words = [program, *words_of(read(folder, kept), new(folder, kept))]
        ran = run(words, folder, subprocess.PIPE)
        is_kept = True
        for name, content in FILES.items():
            with open(f"{folder}/{name}", "rb") as it:
                is_kept &= it.read() == content
    line = ran.stdout.decode(errors="replace").partition("\n")[0]
    return tell(command, what, is_kept, ran.returncode, line, statuses, is_quiet)


# How standard output is led to the file `n`, by the mode in which a shell opens it, and the name of
# the file that is written.
OUTPUTS = {
    "> n": ("wb", "n"),
    ">> n": ("ab", "n"),
    "1<> n": ("r+b", "n"),
    "/dev/stdout, > n": ("wb", "/dev/stdout"),
    "/dev/stdout, 1<> n": ("r+b", "/dev/stdout"),
    "a hard link, 1<> n": ("r+b", "other"),
}


def output_attempt(program, command, how, is_quiet):
    """Runs the program with standard output led to the new file: status 7, and no change."""
    mode, new = OUTPUTS[how]
    kept, words_of = COMMANDS[command]
    with tempfile.TemporaryDirectory() as folder:
        for name, content in {**FILES, "n": b"what stood there before\n"}.items():
            with open(f"{folder}/{name}", "wb") as it:
                it.write(content)
        os.link(f"{folder}/n", f"{folder}/other")
        with open(f"{folder}/n", mode) as out:
            with open(f"{folder}/n", "rb") as it:
                before = it.read()
            words = [program, *words_of(kept, new)]
            ran = run(words, folder, out)
        with open(f"{folder}/n", "rb") as it:
            is_kept = it.read() == before
    what = f"standard output is the file, {how}"
    return tell(command, what, is_kept, ran.returncode, "", (7,), is_quiet)


def pipe_attempt(program, command, is_quiet):
    """Runs the program with a pipe as standard output and as the file: bytes, then the lines."""
    kept, words_of = COMMANDS[command]
    with tempfile.TemporaryDirectory() as folder:
        for name, content in FILES.items():
            with open(f"{folder}/{name}", "wb") as it:
                it.write(content)
        words = [program, *words_of(kept, "/dev/stdout")]
        ran = run(words, folder, subprocess.PIPE)
    is_there = bool(ran.stdout)
    return tell(command, "/dev/stdout, a pipe", is_there, ran.returncode, "", (0,), is_quiet)


def main(words):
    is_quiet = words[:1] == ["--quiet"]
    words = words[1:] if is_quiet else words
    if words[:1] in (["-h"], ["--help"]):
        print(__doc__, end="")
        return 0
    if len(words) > 1:
        print(__doc__, end="", file=sys.stderr)
        return 2
    program = os.path.abspath(words[0] if words else f"{TOP}/crates/fx_main/out/fx_main")
    if not os.path.isfile(program):
        sys.exit(f"{program} isn't there: ./fixprove build builds the program")
    is_well = True
    for command in COMMANDS:
        is_well &= attempt(program, "the same word", command, plain, plain, (2, 7), is_quiet)
        for what, spelling in SPELLINGS.items():
            new, old = f"the new file by {what}", f"the old one by {what}"
            is_well &= attempt(program, new, command, plain, spelling, (2, 7), is_quiet)
            is_well &= attempt(program, old, command, spelling, plain, (2, 7), is_quiet)
        for how in OUTPUTS:
            is_well &= output_attempt(program, command, how, is_quiet)
        is_well &= pipe_attempt(program, command, is_quiet)
        is_well &= attempt(program, "two files", command, plain, lambda *_: "new", (0,), is_quiet)
    return 0 if is_well else 1


if __name__ == "__main__":
    sys.exit(main(sys.argv[1:]))
