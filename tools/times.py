#!/usr/bin/env python3
"""How long whole runs of the program take.

    times.py PROGRAM [RUNS]

PROGRAM is the program that ./fixprove built (crates/fx_main/out/fx_main). Runs it RUNS times (9
where none is named) on each script below for each number of workers, and prints the least processor
time and the least wall clock, start of the program included. Runs with `--cert` say how long the
certificate is, and how long `check` takes. A loaded machine gives other times. (Memory can't be
told so: what this program has would count, too; `tools/memory.py` looks at a run before it ends.)
"""

import os
import sys
import tempfile
import time


def form(degree):
    """A polynomial in Horner's form."""
    text = ""
    for i in range(degree, -1, -1):
        number = f"{(37 * i + 11) % 64}b-6"
        text = (number if i == degree
                else f"{text} * x + {number}" if i + 1 == degree else f"({text}) * x + {number}")
    return text


def made(degree):
    """A polynomial whose operations are rounded, against exact arithmetic: the script of `gen` of
    this degree."""
    return (f"@q = fixed<-12,dn>;\ny q= {form(degree)};\nMy = {form(degree)};\n"
            "{ x in [0,1] -> y - My in ? }\n$ x in 64;\n")


CUTS = """@q = fixed<-16,ne>;
a q= x * y;
b q= a * z + x;
r q= b * b - y;
M = (x * y * z + x) * (x * y * z + x) - y;
{ x in [0,1] /\\ y in [0,1] /\\ z in [0,1] -> r in ? /\\ r - M in ? }
$ x in 16;
$ y in 16;
$ z in 16;
"""

HALVES = """r = x * (1 - x) + y * (1 - y);
{ x in [0,1] /\\ y in [0,1] -> r in [-1,0.502] }
r $ x, y;
"""

# The upper half of each box that is left open is settled at once, and of the lower the same holds
# again.
TREE = f"""@q = fixed<-24,ne>;
r = (2 * x + 1b-30) / (x + 1b-30);
y q= {form(12)};
My = {form(12)};
{{ x in [0,1] -> r in [0.25,5] /\\ y - My in ? }}
r $ x;
"""

# The script of `gen 12` where its variable lies in one of the sixteenths of its range, each of
# which is a case.
CASES = made(12).replace(
    "x in [0,1]", " \\/ ".join(f"x in [{k}b-4,{k + 1}b-4]" for k in range(16))
).replace("x in 64;", "x in 4;")

SCRIPTS = [
    ("gen 12, 65 boxes", made(12), (1, 2, 4), ["--rounds", "64"]),
    ("16 cases of it, 80 boxes", CASES, (1, 2, 4), ["--rounds", "64"]),
    ("three variables that are cut, 4369 boxes", CUTS, (1, 2, 4, 8), ["--boxes", "8192"]),
    ("two variables that are halved, 4727 boxes", HALVES, (1, 2, 4),
     ["--boxes", "8192", "--depth", "32"]),
    ("two boxes on each level, 59 boxes", TREE, (1, 2, 4), ["--rounds", "64", "--depth", "32"]),
]

# A list for `batch`: this many scripts, of degrees 4 to 9.
LISTED = [made(4 + i % 6) for i in range(28)]


def run(words):
    """Processor seconds, wall seconds, status and what is printed."""
    read, write = os.pipe()
    began = time.monotonic()
    pid = os.fork()
    if pid == 0:
        os.dup2(write, 1)
        os.close(read)
        os.execv(words[0], words)
    os.close(write)
    with os.fdopen(read, "rb") as lines:
        text = lines.read()
    _, status, used = os.wait4(pid, 0)
    wall = time.monotonic() - began
    return used.ru_utime + used.ru_stime, wall, os.waitstatus_to_exitcode(status), text.decode()


def measured(name, words, runs):
    done = [run(words) for _ in range(runs)]
    answers = {(status, text) for _, _, status, text in done}
    processor, wall = min(d[0] for d in done), min(d[1] for d in done)
    print(f"{name:52} {processor * 1000:8.1f} {wall * 1000:8.1f}  "
          + " ".join(f"status {status}, "
                     f"{text.strip().splitlines()[-1][:60] if text.strip() else ''}"
                     for status, text in answers))


def main(words):
    if len(words) not in (1, 2):
        sys.exit(__doc__)
    program, runs = os.path.abspath(words[0]), int(words[1]) if len(words) == 2 else 9
    print(f"{'':52} {'ms':>8} {'wall ms':>8}")
    with tempfile.TemporaryDirectory() as folder:
        for name, text, workers, options in SCRIPTS:
            path = os.path.join(folder, "script.fx")
            with open(path, "w", encoding="utf-8") as file:
                file.write(text)
            for count in workers:
                measured(f"{name}, {count} worker" + "s" * (count > 1),
                         [program, "prove", path, "--workers", str(count)] + options, runs)
            cert = os.path.join(folder, "proof.cert")
            measured(f"{name}, 1 worker, --cert",
                     [program, "prove", path, "--workers", "1", "--cert", cert] + options, runs)
            if os.path.exists(cert):
                measured(f"{name}, check of {os.path.getsize(cert)} bytes",
                         [program, "check", path, cert], runs)
                os.remove(cert)
        names = [os.path.join(folder, f"{i}.fx") for i in range(len(LISTED))]
        for path, text in zip(names, LISTED):
            with open(path, "w", encoding="utf-8") as file:
                file.write(text)
        listed = os.path.join(folder, "scripts.list")
        with open(listed, "w", encoding="utf-8") as file:
            file.write("".join(f"{path}\n" for path in names))
        for count in (1, 2, 4):
            measured(f"batch of {len(names)} scripts, {count} worker" + "s" * (count > 1),
                     [program, "batch", listed, "--boxes", "512", "--workers", str(count)], runs)


if __name__ == "__main__":
    main(sys.argv[1:])
