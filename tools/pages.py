#!/usr/bin/env python3
"""Tries the commands that pages show, and compares what they print.

Use, in any folder:   python3 tools/pages.py PROGRAM PAGE ..
as in                 python3 tools/pages.py crates/fx_main/out/fx_main README.md

A command is a line of a code block that begins with `$ `; the block's lines from there to the next
command are what it prints. The commands of a page run one after the other in one bash, in a folder
of their own that shows the repository, with PROGRAM as ./fixprove. So what they write is gone
afterwards. Ends with 1, and prints what differs, where some command prints other lines than its
page says, or a page has no command. Else it prints nothing.
"""
import os
import shutil
import subprocess
import sys
import tempfile

TOP = os.path.dirname(os.path.dirname(os.path.abspath(__file__)))
MARK = "--- end of command %d ---"


def blocks(text):
    """The code blocks of a page, fenced or indented by four spaces, as lists of lines."""
    found, fence, block = [], False, None
    for line in text.splitlines():
        if line.startswith("```"):
            fence, block = not fence, None
            if fence:
                block = []
                found.append(block)
        elif fence:
            block.append(line)
        elif line.startswith("    "):
            if block is None:
                block = []
                found.append(block)
            block.append(line[4:])
        elif line.strip():
            block = None
        elif block is not None:
            block.append("")
    return found


def commands(text):
    """The commands of a page and what each is said to print."""
    found = []
    for block in blocks(text):
        shown = None
        for line in block:
            if line.startswith("$ "):
                shown = []
                found.append((line[2:], shown))
            elif shown is not None:
                shown.append(line)
    return [(command, "\n".join(lines).rstrip("\n")) for command, lines in found]


def make_folder(folder, program):
    """Shows the repository in a folder, with another program behind ./fixprove."""
    for name in os.listdir(TOP):
        if name not in ("fixprove", "tools"):
            os.symlink(f"{TOP}/{name}", f"{folder}/{name}")
    shutil.copytree(f"{TOP}/tools", f"{folder}/tools")
    os.symlink(program, f"{folder}/fixprove")


def printed(every, folder):
    """What each command prints, by one bash that runs them all. Each finds the status of the one
    before in `$?`."""
    script = ["exec 2>&1", "export LC_ALL=C"]
    for at, command in enumerate(every):
        script += [f"(exit $status); {command}", "status=$?", f"echo '{MARK % at}'"]
    how = {"cwd": folder, "stdin": subprocess.DEVNULL, "stdout": subprocess.PIPE,
           "stderr": subprocess.STDOUT}
    text = subprocess.run(["bash", "-c", "\n".join(script)], check=False,
                          **how).stdout.decode(errors="replace")
    found = []
    for at in range(len(every)):
        part, mark, text = text.partition((MARK % at) + "\n")
        found.append(part.rstrip("\n") if mark else f"{part}(the commands ended here)")
    return found


def judge(page, program):
    """Prints what differs in a page, and returns whether anything does."""
    with open(page, encoding="utf-8") as it:
        wanted = commands(it.read())
    if not wanted:
        print(f"{page}: no command")
        return True
    with tempfile.TemporaryDirectory(prefix="fixprove-") as folder:
        make_folder(folder, program)
        found = printed([command for command, _ in wanted], folder)
    differs = [(command, it, new) for (command, it), new in zip(wanted, found) if it != new]
    for command, it, new in differs:
        print(f"{page}: $ {command}\nsays:\n{it}\nprinted:\n{new}")
    return bool(differs)


def main(words):
    if len(words) < 2:
        print(__doc__)
        return 2
    program = os.path.abspath(words[0])
    if not os.access(program, os.X_OK):
        print(f"{words[0]}: no program")
        return 1
    return 1 if sum([judge(page, program) for page in words[1:]]) else 0


if __name__ == "__main__":
    sys.exit(main(sys.argv[1:]))
