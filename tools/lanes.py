#!/usr/bin/env python3
"""How many turns a tree takes by lanes of two lengths: its share of the boxes that are allowed, and
twice that.

    lanes.py [PROGRAM ..]

Each worker takes a box in each turn, from its own lane's front or else from another's, and puts its
pieces last into its own lane. A lane is put no more boxes than it has places; a worker that can't
put one ends, and the caller does alone, a box a turn, what the workers left: up to the limit, where
there are more boxes. Turns, boxes that the caller did, and boxes whose tables were kept for their
pieces. Nothing of that is measured by the clock.

Where programs are named, each runs the scripts below, whose trees lean to one side, in turn with
the others: least wall clock and processor time of fifteen runs, and the greatest resident memory of
three. Two programs that differ in the lanes' length alone come from two checkouts (`run` of
`box_workers`).
"""

import os
import subprocess
import sys
import tempfile
from collections import deque

import memory
import times

RUNS = 15

# A box is the narrower, the nearer it lies to the pole.
POLE = """r = 1 / (x + 1b-10);
s = 1 / (1b-10 + x);
{ x in [0,1] -> r - s in [-1,1] }
r $ x;
"""

POINTS = [f"1b-{i}" for i in range(1, 13)] + [f"3b-{i}" for i in range(2, 14)]


def spine():
    """At each of many points boxes become ever narrower."""
    ratios = "".join(f"r{i} = (2 * |x - {p}| + 1b-30) / (|x - {p}| + 1b-30);\n"
                     for i, p in enumerate(POINTS))
    goals = " /\\ ".join(f"r{i} in [0.25,5]" for i in range(len(POINTS)))
    return f"{ratios}{{ x in [0,1] -> {goals} }}\nr0 $ x;\n"


SCRIPTS = [
    ("two boxes on each level", times.TREE, 59, ["--rounds", "64", "--depth", "32"]),
    ("towards one end", POLE, 2893, ["--depth", "32"]),
    ("towards 24 points", spine(), 2047, ["--depth", "32"]),
]


def leaning(lower, depth):
    """Halves, as long as no more than `lower` of them were lower ones."""
    return lambda path: 2 if path.count(0) <= lower and len(path) < depth else 0


TREES = [
    ("two boxes on each level", leaning(0, 32)),
    ("three lower halves on a way at most", leaning(3, 14)),
    ("even", leaning(14, 11)),
]


def size(pieces, path=()):
    return 1 + sum(size(pieces, path + (i,)) for i in range(pieces(path)))


def turns(pieces, workers, places, limit):
    lanes = [deque() for _ in range(workers)]
    put = [0] * workers
    lanes[0].append(())
    put[0] = 1
    at_work = set(range(workers))
    left = []
    count = done = kept = 0
    while any(lanes) and at_work:
        taken = {}
        for w in sorted(at_work):
            for lane in [lanes[w], *lanes[w + 1 :], *lanes[:w]]:
                if lane:
                    taken[w] = lane.popleft()
                    break
        count += 1
        for w, path in taken.items():
            done += 1
            many = pieces(path)
            kept += many > 0
            for i in range(many):
                if put[w] == places:
                    left += [path + (k,) for k in range(i, many)]
                    at_work.remove(w)
                    break
                put[w] += 1
                lanes[w].append(path + (i,))
    rest = sum(size(pieces, path) for path in [*left, *(path for lane in lanes for path in lane)])
    rest = min(rest, max(limit - done, 0))
    return count + rest, rest, kept


def resident(words):
    """The greatest resident memory of a run, in bytes: it is looked at while it waits to put its
    lines."""
    out, into = os.pipe()
    os.set_blocking(into, False)
    try:
        while True:
            os.write(into, b" " * 4096)
    except BlockingIOError:
        os.set_blocking(into, True)
    child = subprocess.Popen(words, stdout=into, stderr=into)
    os.close(into)
    most = memory.greatest(child.pid)
    with open(out, "rb") as lines:
        lines.read()
    child.wait()
    return most


def measure(programs):
    with tempfile.TemporaryDirectory() as folder:
        path = os.path.join(folder, "script.fx")
        for name, text, boxes, options in SCRIPTS:
            with open(path, "w", encoding="utf-8") as file:
                file.write(text)
            for limit in (boxes, 8192, boxes // 4):
                for workers in (2, 4, 16):
                    words = ["prove", path, *options, "--boxes", str(limit), "--workers",
                             str(workers)]
                    done = [[times.run([program, *words]) for program in programs]
                            for _ in range(RUNS)]
                    for k, program in enumerate(programs):
                        processor, wall = (min(turn[k][i] for turn in done) * 1000 for i in (0, 1))
                        most = max(resident([program, *words]) for _ in range(3))
                        print(f"{name}, {boxes} boxes of {limit}, {workers} workers, {program}: "
                              f"{wall:.1f} ms, processor {processor:.1f} ms, {most / 1e6:.1f} MB")


def main():
    for name, pieces in TREES:
        boxes = size(pieces)
        for limit in (boxes, 2 * boxes, boxes // 4):
            for workers in (2, 4, 16):
                share = -(-limit // workers)
                one, two = (turns(pieces, workers, places, limit)
                            for places in (share, min(2 * share, limit)))
                print(f"{name}, {boxes} boxes of {limit}, {workers} workers: {one[0]} turns "
                      f"({one[1]} alone, {one[2]} tables); by twice the share {two[0]} ({two[1]}, "
                      f"{two[2]})")


if __name__ == "__main__":
    if len(sys.argv) > 1:
        measure([os.path.abspath(program) for program in sys.argv[1:]])
    else:
        main()
