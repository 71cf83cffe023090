#!/usr/bin/env python3
"""How much memory the program takes to read the longest texts.

    memory.py PROGRAM [TIMES]

PROGRAM is the program that ./fixprove built (crates/fx_main/out/fx_main). Runs `prove` on texts of
2^20 bytes of many forms, accepted and refused, and prints for each the greatest resident memory of
the process, how many times the text that is, and what was answered. Ends with 1 where one took more
than TIMES times its text (20 where none is named), else with 0.
"""

import itertools
import os
import string
import subprocess
import sys
import tempfile
import time

SIZE = 1 << 20


def filled(head, part, tail=b""):
    """As many of the part as there is room for, between head and tail."""
    return head + part * ((SIZE - len(head) - len(tail)) // len(part)) + tail


def named(form):
    """The form over ever new names, the shortest first."""
    text = bytearray()
    for length in itertools.count(1):
        for letters in itertools.product(string.ascii_letters, repeat=length):
            piece = form.replace("NAME", "".join(letters)).encode()
            if len(text) + len(piece) > SIZE:
                return bytes(text)
            text += piece


TEXTS = {
    "open parentheses": filled(b"{ ", b"("),
    "sixty-four deep": filled(b"{ x", b"+" + b"(" * 64 + b"x" + b")" * 64),
    "sums": filled(b"{ x", b"+x"),
    "sums of products": filled(b"{ x", b"+x*y"),
    "negatives": filled(b"{ ", b"-"),
    "bars": filled(b"{ ", b"|"),
    "products and sums by word": filled(b"{ ", b"fma("),
    "calls of no operator": filled(b"{ ", b"a("),
    "negations": filled(b"{ ", b"not "),
    "names of operators": named("@NAME=;"),
    "operators": named("@NAME=fixed<0,ne>;"),
    "definitions": named("NAME=x;"),
    "goals of names": b"{ " + named("NAME in ? /\\ ")[:SIZE - 2],
    "names": named("NAME "),
    "goals": filled(b"{ x in ?", b"/\\x in ?"),
    "hypotheses": filled(b"{ x in [0,1]", b"->x in [0,1]"),
    "hints with needs": filled(b"{ x in ? } ", b"x->x{x<>0};"),
    "hints of likeness": filled(b"{ x in ? } ", b"x~x;"),
    "splits": filled(b"{ x in ? } $ ", b"x,"),
    "points of a split": filled(b"{ x in [0,1] -> x in ? } $ x in (", b"1,"),
    "semicolons": filled(b"", b";"),
    "at signs": filled(b"", b"@"),
    "brackets": filled(b"", b"[]"),
    "a literal": filled(b"{ x in [0,", b"1"),
    "a name": filled(b"{ ", b"a"),
    "a comment": filled(b"#", b"a"),
    "blanks": filled(b"", b" "),
    "bytes that are no text": filled(b"{ ", b"\xff"),
    "a script, then blanks": filled(b"{ x in [0,1] -> x + x in ? }", b" "),
    "a script with deep operands": filled(b"{ x in [0,1] -> " + b"(" * 64 + b"x" + b")" * 64
                                          + b" in ? } # ", b"x"),
}


def sleeps(child):
    """Whether all threads of a process sleep."""
    states = []
    for thread in os.listdir(f"/proc/{child}/task"):
        try:
            with open(f"/proc/{child}/task/{thread}/stat") as file:
                states.append(file.read().rpartition(")")[2].split()[0])
        except OSError:
            # (it has ended meanwhile)
            return False
    return all(state in "SZ" for state in states)


def greatest(child):
    """The greatest resident memory of a process that sleeps before it ends."""
    while not (sleeps(child) and (time.sleep(0.02) or sleeps(child))):
        time.sleep(0.002)
    with open(f"/proc/{child}/status") as file:
        status = dict(line.split(":", 1) for line in file)
    return int(status.get("VmHWM", "0 kB").split()[0]) * 1024


def run(program, text):
    """Status, resident memory in bytes and the first line of a run of `prove` on the text.

    What a process took can't be asked for when it has ended, and what its parent had counts as its
    own. So its lines go to a pipe that is full: it sleeps when it is to put them, and is looked at
    then.
    """
    with tempfile.NamedTemporaryFile(suffix=".fx") as script:
        script.write(text)
        script.flush()
        out, into = os.pipe()
        os.set_blocking(into, False)
        filling = 0
        try:
            while True:
                filling += os.write(into, b" " * 4096)
        except BlockingIOError:
            os.set_blocking(into, True)
        child = subprocess.Popen([program, "prove", script.name], stdout=into, stderr=into)
        os.close(into)
        memory = greatest(child.pid)
        with open(out, "rb") as lines:
            told = lines.read()[filling:]
        return child.wait(), memory, told.decode(errors="replace").split("\n")[0]


def main():
    program = sys.argv[1]
    most = float(sys.argv[2]) if len(sys.argv) > 2 else 20.0
    worst = 0.0
    for name, text in TEXTS.items():
        status, memory, line = run(program, text)
        worst = max(worst, memory / len(text))
        print(f"{name:28} {len(text):8} bytes {memory / 1e6:6.1f} MB {memory / len(text):6.1f} "
              f"times  {status} {line[:60]}")
    print(f"at most {worst:.1f} times the text")
    return 1 if worst > most else 0


if __name__ == "__main__":
    sys.exit(main())
