#!/usr/bin/env python3
"""Runs every comparison of this folder on as many cases.

    tools/compare/all.py COUNT SEED [JOBS] [--program PROGRAM]

The words are those of runs.py. Prints for each comparison its name, what it prints, and how many
seconds of processor time it took with the runs of the built program. The status is 0 if each
one's is, and else 1.
"""

import os
import subprocess
import sys

import runs

NAMES = ("answers", "refusals", "roots", "trees", "damages scripts", "damages certificates",
         "written_runs", "check_runs", "checks", "rule_runs", "certificates", "upgrade_runs",
         "trim_runs", "fix_runs", "at_runs", "batch_runs", "recheck_runs texts",
         "recheck_runs certificates")


def spent():
    """Seconds of processor time of the runs that have ended."""
    times = os.times()
    return times.children_user + times.children_system


def main(words):
    if words in (["--help"], ["-h"]):
        print(__doc__.strip())
        return 0
    if runs.words_of(words, ()) is None:
        print(runs.USAGE % ("all.py", ""), file=sys.stderr)
        return 2
    worst = 0
    for name in NAMES:
        file, *kind = name.split()
        before = spent()
        print("%s:" % name, flush=True)
        command = [sys.executable, os.path.join(runs.TOOLS, "compare", file + ".py")]
        worst |= subprocess.call(command + kind + words)
        print("%.1f seconds" % (spent() - before), flush=True)
    return 1 if worst else 0


if __name__ == "__main__":
    sys.exit(main(sys.argv[1:]))
