#!/usr/bin/env python3
"""Proves and builds the program.

Use:   ./fixprove build

The crates that the program stands on are proved side by side, as many as there are processors and
memory for, each once those below it are done. Each has a line when it is: how many are left, and
about how many minutes. To stop, press Ctrl-C: the same command goes on where it was, and what is
done stands. What the toolchain says is in crates/fx_main/out/build.log. That the program is proved
is recorded beside it, for `--version` (tools/about.py). Ends with 0 where the program is built, and
with 70 where it isn't.
"""
import functools
import heapq
import os
import re
import signal
import subprocess
import sys
import time

import about

TOP = os.path.dirname(os.path.dirname(os.path.abspath(__file__)))
PROGRAM = "fx_main"
OUT = f"{TOP}/crates/{PROGRAM}/out"
LOG = "crates/fx_main/out/build.log"
# The processor seconds that each crate's proof took in a gate from nothing, by tools/minutes.py.
COSTS = f"{TOP}/tools/build_costs.txt"
# The processor seconds of a line in a crate that has none there, and those of the program's build
# after all proofs.
PER_LINE, BUILD = 0.05, 150
# An estimate begins with the speed of the machine that COSTS is of. That speaks for so many seconds
# once crates are done.
BEGINS_WITH = 120
# The memory that a crate's proof is given, in bytes: most take 2 GB at most, and few more.
MEMORY = 3 << 30


def say(text):
    print(f"fixprove: {text}", file=sys.stderr, flush=True)


def crates():
    """The crates of the repository that each stands on, as crates.txt has them."""
    with open(f"{TOP}/crates.txt", encoding="utf-8") as it:
        rows = [line.partition("#")[0].partition(":") for line in it]
    listed = {head.split()[0]: names.split() for head, colon, names in rows if colon}
    return {name: [it for it in names if it in listed] for name, names in listed.items()}


def lines_of(name):
    """The lines of a crate's sources: about what its proof takes."""
    found = 0
    for part in ("src", "specs", "proofs"):
        for at, _, files in os.walk(f"{TOP}/crates/{name}/{part}"):
            for file in files:
                with open(f"{at}/{file}", "rb") as it:
                    found += it.read().count(b"\n")
    return found


def lanes():
    """How many crates are proved side by side."""
    with open("/proc/meminfo", encoding="ascii") as it:
        free = 1024 * int(re.search(r"MemAvailable:\s+(\d+)", it.read())[1])
    return max(1, min(len(os.sched_getaffinity(0)), free // MEMORY))


def costs():
    """The processor seconds of each crate that COSTS lists; none if it isn't there."""
    try:
        with open(COSTS, encoding="utf-8") as it:
            rows = [line.partition("#")[0].split() for line in it]
    except FileNotFoundError:
        return {}
    return {row[0]: float(row[1]) for row in rows if row}


def span(names, on, cost, at_once):
    """The seconds that these crates take, so many at a time, each after those that it stands on.

    Of those that can begin, the one on which the longest chain of others waits begins first."""
    waits = {name: [it for it in on[name] if it in names] for name in names}
    users = {name: [it for it in names if name in waits[it]] for name in names}

    @functools.lru_cache(maxsize=None)
    def chain(name):
        return cost[name] + max(map(chain, users[name]), default=0)

    open_now = [(-chain(name), name) for name in names if not waits[name]]
    heapq.heapify(open_now)
    left, running, now = {name: len(waits[name]) for name in names}, [], 0.0
    while open_now or running:
        while open_now and len(running) < at_once:
            _, name = heapq.heappop(open_now)
            heapq.heappush(running, (now + cost[name], name))
        now, name = heapq.heappop(running)
        for it in users[name]:
            left[it] -= 1
            if not left[it]:
                heapq.heappush(open_now, (-chain(it), it))
    return now


class Work:
    """What is to be done, and how long that takes."""

    def __init__(self, at_once):
        self.at_once, self.on, self.began = at_once, crates(), time.time()
        self.known, self.cost, self.kept = costs(), {}, set()
        self.add(PROGRAM)
        self.cost[PROGRAM] += BUILD
        self.left = set(self.cost)

    def add(self, name):
        if name not in self.cost:
            self.cost[name] = self.known.get(name) or PER_LINE * lines_of(name)
            for it in self.on[name]:
                self.add(it)

    def span(self, names):
        """The seconds that these crates take on the machine that COSTS is of."""
        return span(frozenset(names), self.on, self.cost, self.at_once)

    def minutes(self):
        """About how long the rest takes, by what this run took so far."""
        left = self.span(self.left)
        done = self.span(set(self.cost) - self.kept) - left
        slower = (BEGINS_WITH + time.time() - self.began) / (BEGINS_WITH + done)
        minutes = round(left * slower / 60)
        return f"about {minutes} minutes" if minutes > 1 else "a minute or two"

    def end(self, name):
        """Takes note of a crate that is done, and returns whether it was done before this run."""
        self.left.discard(name)
        library = f"{TOP}/crates/{name}/out/rlib/{name}.rlib"
        if os.path.isdir(library) and os.path.getmtime(library) < self.began:
            self.kept.add(name)
        return name in self.kept


def prove(work, log):
    """Proves the program, and before it all crates that it stands on; returns whether that went
    well."""
    # (in the program's folder, this takes the program and the crates below it, those that no other
    # waits for side by side)
    words = ["rt", "all", "check", "--jobs", str(work.at_once)]
    how = {"cwd": f"{TOP}/crates/{PROGRAM}", "stdin": subprocess.DEVNULL, "stdout": subprocess.PIPE,
           "stderr": subprocess.STDOUT}
    with subprocess.Popen(words, **how) as tool:
        try:
            for line in tool.stdout:
                log.write(line)
                log.flush()
                name = line[3:-1].decode() if line.startswith(b"== ") else ""
                if line.startswith(b"rt: waiting"):
                    say(line.decode(errors="replace").strip())
                elif name in work.left and name != PROGRAM:
                    if not os.path.isdir(f"{TOP}/crates/{name}/out/rlib/{name}.rlib"):
                        say(f"{name} was not proved")
                        return False
                    done = "was built before" if work.end(name) else "is proved and built"
                    say(f"{name} {done}; {len(work.left)} left, {work.minutes()}")
        finally:
            tool.terminate()
    return tool.returncode == 0


def main(words):
    if words:
        is_asked = words[0] in ("-h", "--help")
        print(__doc__, end="", file=sys.stdout if is_asked else sys.stderr)
        return 0 if is_asked else 2
    # (so that the toolchain's command is ended, too)
    for it in (signal.SIGTERM, signal.SIGHUP, signal.SIGINT):
        signal.signal(it, lambda number, _: sys.exit(128 + number))
    work = Work(lanes())
    say(f"{len(work.left)} crates are to be proved and built, {work.minutes()} where none is; "
        f"{work.at_once} at a time")
    os.makedirs(OUT, exist_ok=True)
    sources = about.sources()
    with open(f"{TOP}/{LOG}", "wb") as log:
        how = {"cwd": f"{TOP}/crates/{PROGRAM}", "stdin": subprocess.DEVNULL, "stdout": log,
               "stderr": log}
        if (not prove(work, log)
                or subprocess.run(["rt", "run", "--", "gen", "1"], **how).returncode):
            say(f"the program is not built; {LOG} says why")
            return 70
    # ./fixprove runs it while no source is newer: an edit during this run is
    os.utime(f"{OUT}/{PROGRAM}", (work.began, work.began))
    if not about.record("./fixprove build", sources):
        say("a source was changed meanwhile: ./fixprove build once more")
        return 70
    say("the proved program is built")
    return 0


if __name__ == "__main__":
    sys.exit(main(sys.argv[1:]))
