#!/usr/bin/env python3
"""Holds the graph of crates in crates.txt to what files cite, and to numbers that only fall.

Use, in the repository:   python3 tools/paths.py [--all | --cited | --write]

A crate's files cite another by `Rattle.NAME` or `NAME::`, and crates.txt lists what they cite: each
name is cited by the crate that declares it, which tools/homes.py sees to. A chain leads from a
crate down to one below it. Ends with 1, and prints a line for each fault: crates.txt lists for a
crate another one of the repository that no file of it cites, or leaves out one that a file cites;
the longest chain is above its number in tools/paths.txt. Else it prints nothing.
  --all     prints a line for each crate, too: its longest chain, and what it lists; and the count
  --cited   prints crates.txt without the crates of the repository that aren't cited, and ends
  --write   lowers the numbers of tools/paths.txt to the counts; it raises none
"""
import functools
import os
import re
import sys

TOP = os.path.dirname(os.path.dirname(os.path.abspath(__file__)))
NUMBERS = f"{TOP}/tools/paths.txt"
PROGRAM = "fx_main"


def read(file):
    with open(file, encoding="utf-8") as it:
        return it.read()


def crates():
    """What each line of crates.txt lists, by the crate's name, in the order of the lines."""
    rows = (line.partition("#")[0].partition(":")
            for line in read(f"{TOP}/crates.txt").splitlines())
    return {head.split()[0]: names.split() for head, colon, names in rows if colon}


def texts_of(name):
    """The texts of a crate's files, without comments, which cite nothing. Edits aren't part of a
    crate."""
    for part in ("src", "specs", "proofs"):
        for at, _, files in os.walk(f"{TOP}/crates/{name}/{part}"):
            for file in files:
                text = read(f"{at}/{file}")
                yield re.sub(r"//.*" if file.endswith(".rt") else r"(?m)(^|\s)--\s.*", "", text)


def cited(name):
    """The words by which a crate's files may cite others, and those by which they surely do: a
    module of the crate may have the name of another crate."""
    words, sure, modules = set(), set(), set()
    for text in texts_of(name):
        logic = re.findall(r"\bRattle\.(\w+)", text)
        words.update(logic)
        sure.update(logic)
        words.update(re.findall(r"\b(\w+)::", text))
        words.update(re.findall(r"(?m)^\s*(?:pub )?use (\w+);", text))
        sure.update(re.findall(r"(?m)^(?:pub )?use (\w+)(?:::|;)", text))
        modules.update(re.findall(r"(?m)^\s*(?:pub )?mod (\w+)", text))
    return words, sure - modules


def counts(below):
    """The numbers that may only fall, by their names in tools/paths.txt, and the longest chain from
    each crate."""

    @functools.lru_cache(maxsize=None)
    def chain(name):
        return 1 + max(map(chain, below[name]), default=0)

    return {"chain": chain(PROGRAM) - 1}, {name: chain(name) for name in below}


def without(text, idle):
    """crates.txt without what isn't cited."""
    for line in text.splitlines():
        head, colon, names = line.partition("#")[0].partition(":")
        left_out = idle[head.split()[0]] if colon else []
        yield (f"{head}:{''.join(f' {it}' for it in names.split() if it not in left_out)}"
               if left_out else line)


def main(words):
    if len(words) > 1 or words[:1] not in ([], ["--all"], ["--cited"], ["--write"]):
        print(__doc__, end="", file=sys.stderr)
        return 2
    listed = crates()
    idle, faults = {}, []
    for name, names in listed.items():
        known, sure = cited(name)
        idle[name] = [it for it in names if it in listed and it not in known]
        faults += [f"crates.txt: {name} lists {it}, which no file of it cites"
                   for it in idle[name]]
        faults += [f"crates.txt: {name} doesn't list {it}, which a file of it cites"
                   for it in sorted(sure & listed.keys() - {name, *names})]
    if words == ["--cited"]:
        print(*without(read(f"{TOP}/crates.txt"), idle), sep="\n")
        return 0
    found, each = counts({name: [it for it in names if it in listed]
                          for name, names in listed.items()})
    if words == ["--all"]:
        for name in sorted(each, key=each.get):
            print(f"{name}: chain of {each[name]}, lists {' '.join(listed[name]) or 'nothing'}")
        print(", ".join(f"{name} {number}" for name, number in found.items()))
    text = read(NUMBERS)
    allowed = {name: int(number) for name, number in re.findall(r"(?m)^(\w+) (\d+)$", text)}
    for name, number in found.items():
        if name not in allowed or number > allowed[name]:
            faults.append(f"crates.txt: '{name}' is {number}, and tools/paths.txt allows "
                          f"{allowed.get(name, 'no number')}")
        elif number < allowed[name] and words == ["--write"]:
            text = re.sub(rf"(?m)^{name} \d+$", f"{name} {number}", text)
        elif number < allowed[name]:
            print(f"'{name}' fell from {allowed[name]} to {number}: python3 tools/paths.py --write "
                  "notes that", file=sys.stderr)
    if words == ["--write"]:
        with open(NUMBERS, "w", encoding="utf-8") as it:
            it.write(text)
    for it in faults:
        print(it)
    return 1 if faults else 0


if __name__ == "__main__":
    sys.exit(main(sys.argv[1:]))
