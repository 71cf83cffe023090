#!/usr/bin/env python3
"""What `prove` answers to random scripts under random options: status and lines.

    tools/compare/answers.py COUNT SEED [JOBS] [--program PROGRAM]

Words and counts are those of runs.py. Scripts are of four kinds: engineers' (roundings, hints,
relative errors, cuts), plain expressions, texts of the whole grammar, and damaged ones. Each is
run under options that are short enough for the reference.
"""

import sys

import runs
import texts


# Options with their values, and how often each is given.
OPTIONS = [("--rounds", [1, 2, 3, 5, 8, 20], 0.6), ("--depth", [0, 1, 2, 3, 4, 6], 1),
           ("--boxes", [1, 2, 7, 14, 15, 31, 64], 1)]


def options_of(rng):
    words = []
    for name, values, share in OPTIONS:
        if rng.random() < share:
            value = str(rng.choice(values))
            words += [name, value] if rng.random() < 0.7 else ["%s=%s" % (name, value)]
    if rng.random() < 0.2:
        words += ["--workers", str(rng.choice([1, 2, 4, 16]))]
    return words


def rows(case):
    yield texts.any_text(case.rng), options_of(case.rng)


def compare(case, text, options):
    return "status %d" % case.agrees({"a": text}, ["prove", "a"] + options).status


if __name__ == "__main__":
    sys.exit(runs.main(rows, compare))
