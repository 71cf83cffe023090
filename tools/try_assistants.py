#!/usr/bin/env python3
"""Runs hints, explain, wordlengths and picture on small scripts and compares what they say.

    python3 tools/try_assistants.py [PROGRAM]

PROGRAM is the built program, ./fixprove's if it isn't given. Prints what each comparison that fails
found, and the count on standard error; status 0 where none fails.
"""

import os
import re
import subprocess
import sys
import tempfile
import time

TOOLS = os.path.dirname(os.path.abspath(__file__))
PROGRAM = os.path.abspath(sys.argv[1] if len(sys.argv) > 1
                          else os.path.join(TOOLS, "..", "crates", "fx_main", "out", "fx_main"))
FAILED, TRIED = [], []

FIR = """@q = fixed<-{n},dn>;
p q= 0.25 * x; r q= 0.75 * z;
{ x in [-1,1] /\\ z in [-1,1] -> p + r - (0.25 * x + 0.75 * z) in [-1e-4,0] }
"""
PAIR = """@a = fixed<-{m},dn>; @b = fixed<-{n},dn>;
{ x in [0,1] -> b(a(x)) - x in [-0.1,0] }
"""
# `{ x in [1,2] /\\ y in [3,5] -> x * y in ? }` in version 2, as docs/FORMATS.md has it
SECOND = bytes.fromhex("46585043 02 03 00 00 00 01 05 00 01 00 01 64 00 01 00 00 02 00 00 02 02 00 "
                       "00 01 64 01 01 01 00 06 00 00 0a 00 00 00"
                       "01 06 00 01 02 00 06 00 00 0a 02 00 02 02 01 03 01 01 06 01 03")


def run(tool, *words):
    done = subprocess.run([sys.executable, "-B", os.path.join(TOOLS, tool)] + list(words)
                          + ["--program", PROGRAM],
                          stdout=subprocess.PIPE, stderr=subprocess.PIPE)
    return done.returncode, done.stdout.decode(), done.stderr.decode()


def judge(what, fine, found):
    TRIED.append(what)
    if not fine:
        FAILED.append(what)
        print("%s: failed\n%s" % (what, found))


def says(what, tool, status, wanted, *words):
    """The tool ends with the status and prints all of the lines, in this order."""
    found = run(tool, *words)
    at, fine = 0, found[0] == status
    for line in wanted:
        at = found[1].find(line, at)
        fine = fine and at >= 0
    judge(what, fine, found)
    return found


def faulty(what, tool, *words):
    """The tool ends with 2, one line on standard error, and nothing else."""
    found = run(tool, *words)
    judge(what, found[0] == 2 and found[1] == "" and found[2].count("\n") == 1, found)


def main():
    with tempfile.TemporaryDirectory() as folder:
        def made(name, text):
            path = os.path.join(folder, name)
            with open(path, "wb") as file:
                file.write(text if isinstance(text, bytes) else text.encode())
            return path
        explained(made)
        hinted(made)
        lengths(made)
        pictures(made)
    sys.stderr.write("%d comparisons, %d failed\n" % (len(TRIED), len(FAILED)))
    return 1 if FAILED else 0


def shown(what, page, first, *words):
    """The tool prints the lines that a page has, from `first` on, indented by four."""
    found = run(*words)
    with open(os.path.join(TOOLS, "..", "docs", page)) as file:
        lines = file.read().split("    " + first + "\n", 1)[-1].split("\n")
    wanted = [first]
    for line in lines:
        if not line.startswith("    "):
            break
        wanted.append(line[4:])
    judge(what, found[1] == "\n".join(wanted) + "\n", (found, wanted))


def explained(made):
    shown("explain: the page's example", "EXPLAIN.md", "unproved: goal 1 at x in [3b-3, 1b-1]",
          "explain", os.path.join(TOOLS, "..", "examples", "features", "unproved_box", "script.fx"),
          "--depth", "3")
    says("explain: a caret", "explain", 0,
         ["refused: BadToken in line 2, column 18",
          "\n    { x in [0,1] -> x^2 in ? }\n                     ^\n", "no powers"],
         made("power.fx", "# a square\n{ x in [0,1] -> x^2 in ? }\n"))
    says("explain: an open goal", "explain", 0,
         ["unproved: goal 2", "1  x: settled; known [0, 1], asked ?",
          "2  x * (1 - x): open; known [0, 1], asked [0, 0.3]", "above the bound by 0.7",
          "open in 0 of 16", "`$ x in 16;`", "hypothesis y in [0,1]"],
         made("open.fx", "{ x in [0,1] /\\ y in [0,1] -> x in ? /\\ x * (1 - x) in [0,0.3] }"))
    says("explain: names and hints", "explain", 0,
         ["proved", "Is `gain` meant?", "Hint 1 is assumed", "its sides differ"],
         made("names.fx", "{ gain in [0,1] -> y in ? /\\ gain in ? }\ny -> gain * 0 + 1;\n"
                          "gian ~ gain;\n"))
    says("explain: cases", "explain", 0,
         ["unproved: goal 1 at case 2, the whole box",
          "at case 2, the whole box: nothing finite is known", "divisor", "open in 1 of 16"],
         made("cases.fx", "{ x in [1,2] \\/ x in [-1,1] -> 1 / x in ? }"))
    faulty("explain: no file", "explain", "no.such.file")
    faulty("explain: no script", "explain")
    done = subprocess.run([sys.executable, "-B", os.path.join(TOOLS, "explain"),
                           made("any.fx", "{ x in ? }"), "--program", "/bin/true"],
                          stdout=subprocess.PIPE, stderr=subprocess.PIPE)
    judge("explain: another program", done.returncode == 2 and done.stderr.count(b"\n") == 1, done)


def hinted(made):
    scripts = os.path.join(TOOLS, "hint_scripts")
    wide, longest = os.path.join(TOOLS, "wide_scripts"), 0.0
    for name in sorted(os.listdir(wide)):
        line = ("\nnothing" if name in ("exp_poly.fx", "goertzel.fx", "park.fx")
                else "\nnarrower with:")
        line = "\nproved with:" if name == "rsqrt_step.fx" else line
        says("hints: " + name, "hints", 0, [line], os.path.join(wide, name))
    shown("hints: the page's example", "HINTS.md", "proved already", "hints",
          os.path.join(wide, "luma.fx"))
    for name in sorted(os.listdir(scripts)):
        began = time.time()
        wanted = ["unproved", "proved with:", "without it: unproved"]
        if name == "gain_control.fx":
            wanted = ["unproved", "proved with absolute values as cases:"]
        says("hints: " + name, "hints", 0, wanted, os.path.join(scripts, name))
        longest = max(longest, time.time() - began)
    count = len(os.listdir(scripts))
    sys.stderr.write("hint_scripts: %d, the longest took %.1f seconds\n" % (count, longest))
    open_goal = made("open.fx", "{ x in [0,2] -> x * x * x - 2 * x * x + x in [0,2] }")
    says("hints: nothing serves", "hints", 1, ["unproved", "nothing"], open_goal, "--seconds", "2")
    both, out = made("both.fx", "{ x in [0,1] -> x * x - x in [-0.3,0] }"), made("out.fx", "")
    says("hints: --write", "hints", 0, ["proved with:"], both, "--write", out)
    done = subprocess.run([PROGRAM, "prove", out], stdout=subprocess.PIPE)
    judge("hints: what was written is proved", done.returncode == 0, done)
    faulty("hints: over the script", "hints", both, "--write", both)


def lengths(made):
    fir = made("fir.fxt", FIR)
    svg = made("fir.svg", "")
    says("wordlengths: a table", "wordlengths", 0,
         ["13  unproved", "15  proved", "the least n that proves all goals: 15"], fir, "--set",
         "n=12..18", "--svg", svg)
    with open(svg) as file:
        judge("wordlengths: its picture", len(re.findall("<circle", file.read())) == 7, svg)
    says("wordlengths: by halving", "wordlengths", 0, ["the least n that proves all goals: 15"],
         fir, "--set", "n=4..24", "--fast")
    says("wordlengths: none", "wordlengths", 1, ["no n from 4 to 6"], fir, "--set", "n=4..6")
    says("wordlengths: pairs", "wordlengths", 0,
         ["  m = 4, n = 4: together 8, in goal 1 [-0.0625, 0]"], made("pair.fxt", PAIR), "--set",
         "m=2..6", "--set", "n=2..6")
    faulty("wordlengths: a range that falls", "wordlengths", fir, "--set", "n=9..4")
    faulty("wordlengths: no such placeholder", "wordlengths", fir, "--set", "k=1..4")


def pictures(made):
    half = made("half.fx", "{ x in [0,1] -> x * (1 - x) in [0,0.3] }\nx * (1 - x) $ x;\n")
    cert, svg = made("half.cert", ""), made("half.svg", "")
    subprocess.run([PROGRAM, "prove", half, "--cert", cert], stdout=subprocess.DEVNULL)
    says("picture: halves", "picture", 0,
         ["8 boxes, 0 without an assignment, at most 4 cuts deep; cut: x"], half, cert, "--svg",
         svg)
    product = made("product.fx", "{ x in [1,2] /\\ y in [3,5] -> x * y in ? }")
    says("picture: version 2", "picture", 0,
         ["1 boxes, 0 without an assignment, at most 0 cuts deep; cut: nothing"], product,
         made("second.cert", SECOND), "--svg", svg)
    faulty("picture: another script's certificate", "picture", product, cert, "--svg", svg)


if __name__ == "__main__":
    sys.exit(main())
