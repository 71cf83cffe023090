#!/usr/bin/env python3
"""What `tools/recheck` answers, and what `check` does: which scripts they take, and their lines.

    tools/compare/recheck_runs.py texts|certificates COUNT SEED [JOBS] [--program PROGRAM]

The other words and counts are those of runs.py. A case of `texts` is a text of the whole grammar,
as it is and damaged: `recheck` has to refuse those that `check` refuses, and no other. A case of
`certificates` is a random script with the reference's certificate in both versions, with damages
of its bytes, and with changed items.
"""

import sys

import items
import runs
import texts
from rechecking.certificate import Fault
from rechecking.judge import lines_of
from rechecking.script import Refused, Script


def rows(case):
    rng = case.rng
    if case.kind == "texts":
        text = texts.any_grammar(rng)
        yield text, b""
        if text:
            yield texts.damaged(rng, text), b""
        return
    options = ["--depth", str(rng.choice([0, 2, 3])), "--boxes", "64"]
    text, cert = items.proved(rng, options, 8000)
    certificate = runs.module("certificate")
    found = certificate.read(cert)
    for version in (1, 2):
        whole = certificate.write(found, version)
        yield text, whole
        for _ in range(4):
            yield text, texts.damaged(rng, whole, texts.BYTES)
    for _ in range(10):
        try:
            yield text, certificate.write(items.changed(rng, found), rng.choice([1, 2]))
        except (OverflowError, AssertionError, ValueError, IndexError):
            continue  # a number that has no room in a certificate


def rechecked(text, cert):
    """Status and lines by `recheck`; a script that it refuses has status 3 and no line."""
    try:
        return 0, lines_of(Script(text), cert).encode()
    except Refused:
        return 3, b""
    except Fault as fault:
        return 5, b"certificate: %s\n" % str(fault).encode()


def compare(case, text, cert):
    with case.place({"a": text, "c": cert}) as place:
        status, printed = place.run(["check", "a", "c"])
    runs.same("recheck", rechecked(text, cert), (status, b"" if status == 3 else printed))
    kind = ", " + printed.split()[1].decode() if status in (3, 5) else ""
    return "status %d%s" % (status, kind)


if __name__ == "__main__":
    sys.exit(runs.main(rows, compare, ("texts", "certificates")))
