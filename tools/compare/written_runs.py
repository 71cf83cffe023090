#!/usr/bin/env python3
"""What the built program writes with `prove --cert`, checked by itself and by the reference.

    tools/compare/written_runs.py COUNT SEED [JOBS] [--program PROGRAM]

Words and counts are those of runs.py. Scripts are engineers', with random options and 1, 3 or 16
workers. Where the built program proves a script, the run without `--cert` prints the same, the
certificate is accepted with equal lines by the built program and by the reference, and a second
run with another number of workers writes equal bytes. Where it doesn't, the file keeps what it
held.
"""

import sys

import runs
import texts

OLD = b"what was here"


def rows(case):
    rng = case.rng
    text = texts.script(rng)
    options = ["--rounds", str(rng.choice([1, 3, 7, 20])), "--depth", str(rng.choice([0, 2, 4, 6]))]
    yield text, options + ["--boxes", "256"], rng.sample(["1", "3", "16"], 2)


def compare(case, text, options, workers):
    with case.place({"a": text, "c": OLD}) as place:
        plain = place.run(["prove", "a"] + options)
        written = [place.run(["prove", "a", "--cert", name, "--workers", many] + options)
                   for name, many in zip("cd", workers)]
        runs.same("with --cert, and without", written, [plain, plain])
        cert, status = place.read("c"), plain[0]
        if status != 0:
            runs.same("the old file", cert, OLD)
            runs.same("a new file", place.read("d"), None)
            return "status %d" % status
        runs.same("the bytes of %s and %s workers" % tuple(workers), place.read("d"), cert)
        runs.same("check", place.run(["check", "a", "c"]), plain)
    found = runs.answered({"a": text, "c": cert}, ["check", "a", "c"])
    runs.same("check by the reference", found[:2], plain)
    return "status 0"


if __name__ == "__main__":
    sys.exit(runs.main(rows, compare))
