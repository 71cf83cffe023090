#!/usr/bin/env python3
"""What `check` answers to certificates of which an item is changed: status and lines.

    tools/compare/checks.py COUNT SEED [JOBS] [--program PROGRAM]

Words and counts are those of runs.py. A case is a random script with ten certificates. They are
the reference's for that script, with one or two items changed: rules, facts, cited steps, cuts,
marks or nodes. Bytes are well formed, in either version, so that a fault is one of what the items
say.
"""

import sys

import items
import runs


def rows(case):
    text, cert = items.proved(case.rng, ["--depth", "3", "--boxes", "64"], 6000)
    certificate = runs.module("certificate")
    found = certificate.read(cert)
    for _ in range(10):
        try:
            changed = certificate.write(items.changed(case.rng, found), case.rng.choice([1, 2]))
        except (OverflowError, AssertionError, ValueError, IndexError):
            continue  # a number that has no room in a certificate
        yield text, changed


def compare(case, text, cert):
    found = case.agrees({"a": text, "c": cert}, ["check", "a", "c"])
    kind = ", " + found.printed.split()[1].decode() if found.status == 5 else ""
    return "status %d%s" % (found.status, kind)


if __name__ == "__main__":
    sys.exit(runs.main(rows, compare))
