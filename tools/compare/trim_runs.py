#!/usr/bin/env python3
"""What `trim` makes of certificates of random scripts: status, line and the new file.

    tools/compare/trim_runs.py COUNT SEED [JOBS] [--program PROGRAM]

Words and counts are those of runs.py. Scripts are engineers'. Of each that the reference proves
there are: the certificate that the built program writes, which has steps that nothing uses; and
the reference's in both versions, with some steps twice, of which later ones cite either. These
are trimmed as they are, damaged, and for another script. No new file may stand where the
reference makes none. What was trimmed is checked with the lines of the old one, and trimmed once
more to the same bytes.
"""

import sys

import items
import runs
import texts

OPTIONS = ["--depth", "2", "--boxes", "64"]


def with_more_steps(rng, old):
    """The items with some steps twice; what cites such a step cites one of both."""
    made, places, steps = [], [], 0
    for item in old:
        kind = item[0]
        if kind == "Step":
            _, rule, arg, fact, met, premises = item
            now = []
            for _ in range(rng.choice([1, 1, 1, 2, 3])):
                cited = tuple(rng.choice(places[p]) for p in premises)
                again = None if met is None else rng.choice(places[met])
                made.append((kind, rule, arg, fact, again, cited))
                now.append(steps)
                steps += 1
            places.append(now)
        elif kind == "Leaf":
            made.append((kind, [rng.choice(places[p]) for p in item[1]]))
        elif kind == "Dead":
            made.append((kind, rng.choice(places[item[1]])))
        else:
            made.append(item)
    return made


def written(case, text):
    """The certificate that the built program writes."""
    with case.place({"a": text}) as place:
        place.run(["prove", "a", "--cert", "c"] + OPTIONS)
        return place.read("c")


def rows(case):
    rng, certificate = case.rng, runs.module("certificate")
    other, _ = items.proved(rng, OPTIONS, 16384)
    text, cert = items.proved(rng, OPTIONS, 16384)
    own = written(case, text)
    if own is not None and len(own) < 65536:
        yield text, own
    for version in (1, 2):
        more = certificate.write(with_more_steps(rng, certificate.read(cert)), version)
        yield text, more
        for _ in range(2):
            yield text, texts.damaged(rng, more, texts.BYTES)
        yield other, more


def compare(case, text, cert):
    words = ["trim", "a", "c", "n"]
    wanted = runs.answered({"a": text, "c": cert}, words)
    with case.place({"a": text, "c": cert}) as place:
        runs.same("trim", place.run(words), wanted[:2])
        runs.same("the new file", place.read("n"), wanted.files.get("n"))
        runs.same("the old file", place.read("c"), cert)
        if "n" in wanted.files:
            runs.same("check", place.run(["check", "a", "n"]), place.run(["check", "a", "c"]))
            runs.same("once more", place.run(["trim", "a", "n", "m"])[0], 0)
            runs.same("the file of once more", place.read("m"), place.read("n"))
    return "status %d" % wanted.status


if __name__ == "__main__":
    sys.exit(runs.main(rows, compare))
