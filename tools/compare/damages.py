#!/usr/bin/env python3
"""What `prove` answers to damaged scripts, and `check` to damaged certificates: status and lines.

    tools/compare/damages.py scripts|certificates COUNT SEED [JOBS] [--program PROGRAM]

The other words and counts are those of runs.py. COUNT is how many damaged files are compared,
rounded up to fifties: a case is fifty damages of one file. Scripts are engineers', and are proved
with few rounds and boxes. Certificates are those that the reference writes for such scripts. A
damage turns a bit, sets or adds bytes, takes a piece out, doubles it, or exchanges two; some
files have up to four.
"""

import sys

import items
import runs
import texts

SHORT = ["--rounds", "3", "--depth", "2", "--boxes", "8"]
MANY = 50


def rows(case):
    rng = case.rng
    if case.kind == "scripts":
        text = texts.script(rng)
        for _ in range(MANY):
            yield {"a": texts.damaged(rng, text)}, ["prove", "a"] + SHORT
        return
    text, cert = items.proved(rng, SHORT, 4096)
    for damaged in items.with_damages(rng, cert, MANY)[1:]:
        yield {"a": text, "c": damaged}, ["check", "a", "c"]


def compare(case, files, words):
    return "status %d" % case.agrees(files, words).status


if __name__ == "__main__":
    sys.exit(runs.main(rows, compare, ("scripts", "certificates"), MANY))
