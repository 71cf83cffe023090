#!/usr/bin/env python3
"""What `batch` answers to random lists of scripts, by 1, 2, 4 and 16 workers: status and lines.

    tools/compare/batch_runs.py COUNT SEED [JOBS] [--program PROGRAM]

Words and counts are those of runs.py. Lists name 1 to 5 scripts, some twice, some that aren't
there, some under odd names; some lists are damaged, and a few have 64 names or 65. Options are
short enough for the reference. Where each script was answered, the lines are those of `prove` by
itself, too.
"""

import sys

import runs
import texts

NAMES = ["a", "b.fx", "a b", "-", "--x", "\u00e4", "c\r", "#"]
WORDS = [b"\n", b"\n\n", b"\r", b" ", b"a", b"lost", b"-", b"#", b"\xff", b"\xc3\xa4", b"\xc3",
         b"\x00"]
WORKERS = [1, 2, 4, 16]
UNREAD = (2, 6, 12)


def options_of(rng):
    boxes = str(rng.choice([1, 2, 7, 14, 15, 31, 64]))
    if rng.random() < 0.03:
        boxes = rng.choice(["512", "513", "0", "x"])
    words = ["--boxes", boxes, "--depth", str(rng.choice([0, 1, 2, 3]))]
    if rng.random() < 0.7:
        words += ["--rounds", str(rng.choice([1, 2, 3, 5, 8, 20]))]
    return words


def files_of(rng):
    """Files by their names, and the list among them."""
    names = rng.sample(NAMES, rng.randint(1, 5))
    files = {name: texts.any_text(rng) for name in names}
    listed = list(names)
    for _ in range(rng.choice([0, 0, 1, 2])):
        listed.append(rng.choice(names))
    if rng.random() < 0.1:
        listed.append("lost")
    rng.shuffle(listed)
    if rng.random() < 0.03:
        # as many names as a list may have, or one more, of a script that is soon answered
        files["a"] = b"{ x in [1,2] -> x in ? }"
        listed = ["a"] * rng.choice([64, 65])
    text = "\n".join(listed).encode() + rng.choice([b"", b"\n", b"\n"])
    if rng.random() < 0.25:
        text = texts.damaged(rng, text, WORDS)
    files["list"] = text
    return files


def rows(case):
    yield files_of(case.rng), options_of(case.rng)


def is_alike(place, files):
    """Whether the folder has a file just where `files` does, for each line of the list."""
    for line in files["list"].split(b"\n"):
        try:
            name = line.decode()
            if place.has(name or "lost") != (name in files):
                return False
        except ValueError:
            pass
    return True


def alone(place, listed, options):
    """Status and lines of `prove` on each name of the list."""
    status, lines = 0, b""
    for name in listed:
        one, printed = place.run(["prove"] + options + ["--", name])
        status = status or one
        lines += b"script " + name.encode() + b"\n" + printed
    return status, lines


def compare(case, files, options):
    wanted = runs.answered(files, ["batch", "list"] + options)
    answer = wanted[:2]
    with case.place(files) as place:
        if not is_alike(place, files):
            raise runs.Skipped("a name that the folder reads otherwise")
        for many in WORKERS:
            runs.same("%d workers" % many,
                      place.run(["batch", "list", "--workers", str(many)] + options), answer)
        if wanted.status not in UNREAD and len(files["list"]) < 100:
            listed = files["list"].decode().split("\n")
            listed = listed[:-1] if listed[-1] == "" else listed
            runs.same("script by script", alone(place, listed, options), answer)
    kind = ", " + wanted.printed.split()[1].decode() if wanted.status == 12 else ""
    return "status %d%s" % (wanted.status, kind)


if __name__ == "__main__":
    sys.exit(runs.main(rows, compare))
