#!/usr/bin/env python3
"""Processor minutes of a run of the gate, crate by crate: of its proofs, of its tests' proofs, and
of its edits.

Use, in the repository:   python3 tools/minutes.py [--costs FILE] COMMAND [WORD ..]
as in                     python3 tools/minutes.py bash .ci/run

--costs FILE writes the seconds of the proofs to a file, too, as tools/build_costs.txt has them.

The command runs as it would by itself. Meanwhile each process of the prover is looked at twice a
second; what it did in its last half second is not seen. The table goes to standard error when the
command ends; the exit status is the command's. Other runs of the prover on the machine at the same
time are counted too. 2 is the status for wrong words.
"""
import collections
import os
import subprocess
import sys
import time

KINDS = ("proofs", "tests", "edits")
TICKS = os.sysconf("SC_CLK_TCK")


def processes():
    """The prover's processes: (number and start, folder, kind, crate, processor seconds so far).

    The folder is the one that the process runs in, the kind one of KINDS."""
    for pid in filter(str.isdigit, os.listdir("/proc")):
        try:
            with open(f"/proc/{pid}/cmdline", "rb") as file:
                words = file.read().decode(errors="replace").split("\0")
            if "--crate-name" not in words or os.path.basename(words[0]) != "rattle":
                continue
            with open(f"/proc/{pid}/stat", encoding="utf-8") as file:
                fields = file.read().rpartition(")")[2].split()
            folder = os.readlink(f"/proc/{pid}/cwd")
        except OSError:
            # it has ended meanwhile
            continue
        is_edit = os.path.basename(folder).startswith("rt-edit")
        kind = "edits" if is_edit else "tests" if "--test" in words else "proofs"
        seconds = (int(fields[11]) + int(fields[12])) / TICKS
        yield (pid, fields[19]), folder, kind, words[words.index("--crate-name") + 1], seconds


def table(seen):
    """The rows of the table, dearest crate first, then the sum: (crate, minutes by kind).

    `seen` has the crate, kind and processor seconds of each process."""
    minutes = collections.defaultdict(lambda: dict.fromkeys(KINDS, 0.0))
    for crate, kind, seconds in seen:
        minutes[crate][kind] += seconds / 60
    rows = sorted(minutes.items(), key=lambda row: -sum(row[1].values()))
    return rows + [("all", {kind: sum(row[kind] for _, row in rows) for kind in KINDS})]


def printed(rows):
    """The table as text."""
    lines = [f"{'crate':20}" + "".join(f"{kind:>8}" for kind in KINDS) + f"{'all':>8}"]
    lines += [f"{crate:20}" + "".join(f"{row[kind]:8.1f}" for kind in KINDS)
              + f"{sum(row.values()):8.1f}" for crate, row in rows]
    return "\n".join(lines)


def write_costs(file, rows):
    """Writes the processor seconds of each crate's proof, as tools/build.py reads them."""
    with open(file, "w", encoding="utf-8") as out:
        print("# The processor seconds of each crate's proof: tools/minutes.py --costs FILE ..",
              file=out)
        for crate, row in sorted(rows):
            if row["proofs"]:
                print(f"{crate} {60 * row['proofs']:.0f}", file=out)


def main(words):
    """Runs the command that the words are; returns its status, or 2 for wrong words."""
    if words[:1] in (["-h"], ["--help"]):
        print(__doc__.strip())
        return 0
    costs = None
    if words[:1] == ["--costs"] and len(words) > 1:
        costs, words = words[1], words[2:]
    if not words or words[0].startswith("-"):
        print("usage: minutes.py [--costs FILE] COMMAND [WORD ..]", file=sys.stderr)
        return 2
    seen = {}
    try:
        run = subprocess.Popen(words)
    except OSError as fault:
        print(f"minutes.py: {words[0]}: {fault.strerror}", file=sys.stderr)
        return 2
    while run.poll() is None:
        for key, _, kind, crate, seconds in processes():
            seen[key] = (crate, kind, seconds)
        time.sleep(0.5)
    rows = table(seen.values())
    print(printed(rows), file=sys.stderr)
    if costs:
        write_costs(costs, rows[:-1])
    return run.returncode


if __name__ == "__main__":
    sys.exit(main(sys.argv[1:]))
