#!/usr/bin/env python3
"""What `upgrade` makes of certificates of random scripts: status, line and the new file.

    tools/compare/upgrade_runs.py COUNT SEED [JOBS] [--program PROGRAM]

Words and counts are those of runs.py. Certificates are those of check_runs.py, in both versions,
whole and damaged. No new file may stand where the reference makes none. What was rewritten is
checked like the old one.
"""

import sys

import check_runs
import runs


def compare(case, text, cert):
    words = ["upgrade", "c", "n"]
    wanted = runs.answered({"c": cert}, words)
    with case.place({"a": text, "c": cert}) as place:
        runs.same("upgrade", place.run(words), wanted[:2])
        runs.same("the new file", place.read("n"), wanted.files.get("n"))
        if "n" in wanted.files:
            runs.same("check", place.run(["check", "a", "n"]), place.run(["check", "a", "c"]))
    return "status %d" % wanted.status


if __name__ == "__main__":
    sys.exit(runs.main(check_runs.rows, compare))
