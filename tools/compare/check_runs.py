#!/usr/bin/env python3
"""What `check` answers to certificates that the reference writes: status and lines.

    tools/compare/check_runs.py COUNT SEED [JOBS] [--program PROGRAM]

Words and counts are those of runs.py. A case is a random script with its certificate in one of
the versions: as it is, with four damages of its bytes, and for another script.
"""

import sys

import items
import runs


def rows(case):
    rng = case.rng
    options = ["--depth", str(rng.choice([0, 2, 4])), "--boxes", "64"]
    other, _ = items.proved(rng, options, 65536)
    text, cert = items.proved(rng, options, 65536)
    certs = items.with_damages(rng, cert, 4)
    for cert in certs:
        yield text, cert
    yield other, certs[0]


def compare(case, text, cert):
    return "status %d" % case.agrees({"a": text, "c": cert}, ["check", "a", "c"]).status


if __name__ == "__main__":
    sys.exit(runs.main(rows, compare))
