#!/usr/bin/env python3
"""What `upgrade` makes of certificates of random items: status, line and the new file.

    tools/compare/certificates.py COUNT SEED [JOBS] [--program PROGRAM]

Words and counts are those of runs.py. A case is one list of items of no script, with all kinds of
facts, nodes and numbers. It is written in either version, as it is and with five damages of its
bytes. `upgrade` knows no script, so it tells the first fault of the bytes, or writes the same
items in version 2.
"""

import sys

import items
import runs
import texts


def rows(case):
    found = items.random_items(case.rng)
    for version in (1, 2):
        cert = runs.module("certificate").write(found, version)
        yield (cert,)
        for _ in range(5):
            yield (texts.damaged(case.rng, cert, texts.BYTES),)


def compare(case, cert):
    words = ["upgrade", "c", "n"]
    wanted = runs.answered({"c": cert}, words)
    with case.place({"c": cert}) as place:
        runs.same("upgrade", place.run(words), wanted[:2])
        runs.same("the new file", place.read("n"), wanted.files.get("n"))
    kind = ", " + wanted.printed.split()[1].decode() if wanted.status == 5 else ""
    return "status %d%s" % (wanted.status, kind)


if __name__ == "__main__":
    sys.exit(runs.main(rows, compare))
