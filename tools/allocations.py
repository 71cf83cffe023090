#!/usr/bin/env python3
"""Refuses each allocation of whole runs of the built program in turn, and looks at what comes of
it.

Use, in the repository:   python3 tools/allocations.py [PROGRAM]     (PROGRAM: the built one,
crates/fx_main/out/fx_main)

A run is done once as it is, and then once for each of its allocations, which alone is refused. Then
the status is 8, the lines are a front of the run's, and the file that is written holds what it held
or a front of what the run wrote; or else the run answers as it did, which a program may that needs
no memory there. Prints a line for each run: how many allocations there are, how often each status
came, and the first runs that ended in another way. Ends with 1 where there are any.

The program gets its memory from the C library, so a library that is loaded before it does the
refusing. A C compiler `cc` makes it anew each time. `rt try --fail-alloc N` does the same to
unproved sources, and compiles them for each N.
"""
import collections
import os
import subprocess
import sys
import tempfile

TOP = os.path.dirname(os.path.dirname(os.path.abspath(__file__)))
NO_MEMORY = 8
OLD = b"what the file held"
FILES = {
    "product.fx": b"{ x in [1,2] /\\ y in [3,5] -> x * y in ? }\n",
    "halved.fx": b"{ x in [0,1] -> x * (1 - x) in [0,0.3] } x * (1 - x) $ x;\n",
    "open.fx": b"{ x in [0,1] -> x * (1 - x) in [0,0.1] }\n",
    "refused.fx": b"{ x in [1,0 -> x in ? }\n",
    "square.fix": b"in x : s16.15 [0,0.5]; y : s16.15 dn = x * x; out y;\n",
    "refused.fix": b"in x : s16.15 [0,1]; out x;\n",
    "third.point": b"x = 1 / 3;\n",
    "refused.point": b"x = 1; x = 2;\n",
    "all.list": b"product.fx\nhalved.fx\nopen.fx\n",
}
RUNS = (
    "prove product.fx",
    "prove halved.fx --workers 1",
    "prove halved.fx --workers 4",
    "prove open.fx",
    "prove refused.fx",
    "prove halved.fx --workers 1 --cert new.cert",
    "prove halved.fx --workers 4 --cert new.cert",
    "check product.fx product.cert",
    "check halved.fx halved.cert",
    "check halved.fx product.cert",
    "gen 1",
    "upgrade product.cert new.cert",
    "fix square.fix new.cert",
    "fix refused.fix new.cert",
    "trim product.fx product.cert new.cert",
    "at open.fx third.point",
    "at open.fx refused.point",
    "batch all.list --workers 1",
    "batch all.list --workers 4",
)
# Counts the calls for memory in the first bytes of the file COUNT, and refuses the call with the
# number in REFUSE.
REFUSES = r"""
#define _GNU_SOURCE
#include <dlfcn.h>
#include <errno.h>
#include <fcntl.h>
#include <stdatomic.h>
#include <stdlib.h>
#include <sys/mman.h>

static atomic_long unshared, *calls = &unshared;
static long refused;

__attribute__((constructor)) static void begin(void) {
    void *shared = mmap(NULL, sizeof *calls, PROT_READ | PROT_WRITE, MAP_SHARED,
                        open(getenv("COUNT"), O_RDWR), 0);
    if (shared == MAP_FAILED) abort();
    refused = atol(getenv("REFUSE"));
    calls = shared;
}

static int refuses(void) {
    return atomic_fetch_add(calls, 1) + 1 == refused;
}

#define REAL(name) \
    static __typeof__(name) *real; \
    if (!real) real = (__typeof__(name) *)dlsym(RTLD_NEXT, #name)

void *malloc(size_t size) {
    REAL(malloc);
    return refuses() ? NULL : real(size);
}

void *realloc(void *old, size_t size) {
    REAL(realloc);
    return refuses() ? NULL : real(old, size);
}

void *aligned_alloc(size_t align, size_t size) {
    REAL(aligned_alloc);
    return refuses() ? NULL : real(align, size);
}

int posix_memalign(void **place, size_t align, size_t size) {
    REAL(posix_memalign);
    return refuses() ? ENOMEM : real(place, align, size);
}
"""


class Room:
    """A folder with the scripts and programs, certificates, and the library that refuses."""

    def __init__(self, folder, program):
        self.folder, self.program, self.library = folder, program, f"{folder}/refuses.so"
        for name, text in FILES.items():
            self.write(name, text)
        self.write("refuses.c", REFUSES.encode())
        subprocess.run(["cc", "-O1", "-shared", "-fPIC", "-o", self.library, f"{folder}/refuses.c",
                        "-ldl"], check=True)
        for name in ("product", "halved"):
            self.run(["prove", f"{name}.fx", "--cert", f"{name}.cert"])

    def write(self, name, text):
        with open(f"{self.folder}/{name}", "wb") as it:
            it.write(text)

    def read(self, name):
        with open(f"{self.folder}/{name}", "rb") as it:
            return it.read()

    def run(self, words, refused=0):
        """Runs the program; returns its status, what it printed, what the file that is written
        holds, and how many allocations there were."""
        self.write("new.cert", OLD)
        self.write("count", bytes(8))
        env = {**os.environ, "LD_PRELOAD": self.library, "REFUSE": str(refused),
               "COUNT": f"{self.folder}/count"}
        how = {"cwd": self.folder, "env": env, "stdin": subprocess.DEVNULL,
               "stdout": subprocess.PIPE, "timeout": 120, "check": False}
        ran = subprocess.run([self.program, *words], **how)
        count = int.from_bytes(self.read("count"), "little")
        return ran.returncode, ran.stdout, self.read("new.cert"), count


def is_well(whole, found):
    """Whether what came of a refusal is the whole run's answer, or lack of memory with a front of
    it."""
    if found[0] != NO_MEMORY:
        return found[:3] == whole[:3]
    return whole[1].startswith(found[1]) and (found[2] == OLD or whole[2].startswith(found[2]))


def main(words):
    if len(words) > 1 or words[:1] in (["-h"], ["--help"]):
        print(__doc__, end="", file=sys.stderr)
        return 2
    program = os.path.abspath(words[0] if words else f"{TOP}/crates/fx_main/out/fx_main")
    if not os.path.isfile(program):
        sys.exit(f"{program} isn't there: ./fixprove build builds the program")
    bad = 0
    with tempfile.TemporaryDirectory() as folder:
        room = Room(folder, program)
        for text in RUNS:
            whole = room.run(text.split())
            statuses, odd, number = collections.Counter(), [], 0
            # (several workers may ask for more in one run than in another)
            while number < whole[3] + 20:
                number += 1
                found = room.run(text.split(), number)
                if found[3] < number:
                    break
                statuses[found[0]] += 1
                if not is_well(whole, found):
                    odd.append(f"allocation {number}: status {found[0]}, {found[1]!r}, a file of "
                               f"{len(found[2])} bytes")
            told = ", ".join(f"status {status} {count} times"
                             for status, count in sorted(statuses.items()))
            print(f"{text}: status {whole[0]}, {whole[3]} allocations; one refused: "
                  f"{told or 'none'}", *odd[:5], sep="\n    ", flush=True)
            bad += len(odd)
    return 1 if bad else 0


if __name__ == "__main__":
    sys.exit(main(sys.argv[1:]))
