#!/usr/bin/env python3
"""What `prove` answers to random texts of the whole grammar: status and lines.

    tools/compare/refusals.py COUNT SEED [JOBS] [--program PROGRAM]

Words and counts are those of runs.py. Texts use all of the grammar; some are at a limit or past
it, some are a few words, and most are damaged, in words and in bytes. One refusal is told of
each, the first. What isn't refused is proved in one box, by one round.
"""

import sys

import runs
import texts


def rows(case):
    text = texts.any_grammar(case.rng)
    yield (text,)
    if text:
        yield (texts.damaged(case.rng, text),)


def compare(case, text):
    words = ["prove", "a", "--rounds", "1", "--depth", "0", "--boxes", "1"]
    found = case.agrees({"a": text}, words)
    kind = b", " + found.printed.split()[1] if found.status == 3 else b""
    return "status %d%s" % (found.status, kind.decode())


if __name__ == "__main__":
    sys.exit(runs.main(rows, compare))
