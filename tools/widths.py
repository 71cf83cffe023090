#!/usr/bin/env python3
"""Counts lines past 100 columns, of code, definitions, proofs and pages: the numbers only fall.

Use, in the repository:   python3 tools/widths.py [--all | --write]

Ends with 1, and prints a line for each fault, where a count is above its number in
tools/widths.txt. Else it prints nothing.
  --all     prints a line for each crate and each page that has such lines, too, and the counts
  --write   lowers the numbers of tools/widths.txt to the counts; it raises none
"""
import os
import re
import sys

TOP = os.path.dirname(os.path.dirname(os.path.abspath(__file__)))
NUMBERS = f"{TOP}/tools/widths.txt"
MOST = 100
PARTS = ("src", "specs", "proofs")


def wide(name, part):
    """How many lines of a part of a crate are too wide."""
    found = 0
    for at, _, files in os.walk(f"{TOP}/crates/{name}/{part}"):
        for file in files:
            with open(f"{at}/{file}", encoding="utf-8") as it:
                found += sum(len(line.rstrip("\n")) > MOST for line in it)
    return found


def pages(top=TOP):
    """How many lines of each page are too wide: of each .md that isn't made by a build."""
    found = {}
    for at, folders, files in os.walk(top):
        folders[:] = sorted(it for it in folders if it not in (".git", "out", "open"))
        for file in sorted(files):
            if file.endswith(".md"):
                with open(f"{at}/{file}", encoding="utf-8") as it:
                    number = sum(len(line.rstrip("\n")) > MOST for line in it)
                if number:
                    found[os.path.relpath(f"{at}/{file}", top)] = number
    return found


def main(words):
    if len(words) > 1 or words[:1] not in ([], ["--all"], ["--write"]):
        print(__doc__, end="", file=sys.stderr)
        return 2
    names = sorted(os.listdir(f"{TOP}/crates"))
    each = {name: {part: wide(name, part) for part in PARTS} for name in names}
    found = {part: sum(it[part] for it in each.values()) for part in PARTS}
    texts = pages()
    found["pages"] = sum(texts.values())
    if words == ["--all"]:
        for name in sorted(names, key=lambda it: sum(each[it].values())):
            if any(each[name].values()):
                print(f"{name}: " + ", ".join(f"{part} {each[name][part]}" for part in PARTS))
        for name in sorted(texts, key=texts.get):
            print(f"{name}: {texts[name]}")
        print(", ".join(f"{part} {number}" for part, number in found.items()))
    with open(NUMBERS, encoding="utf-8") as it:
        text = it.read()
    allowed = {part: int(number) for part, number in re.findall(r"(?m)^(\w+) (\d+)$", text)}
    faults = []
    for part, number in found.items():
        if number > allowed.get(part, 0):
            faults.append(f"{part}: {number} lines past {MOST} columns, and tools/widths.txt "
                          f"allows {allowed.get(part, 'no number')}")
        elif number < allowed[part] and words == ["--write"]:
            text = re.sub(rf"(?m)^{part} \d+$", f"{part} {number}", text)
        elif number < allowed[part]:
            print(f"'{part}' fell from {allowed[part]} to {number}: python3 tools/widths.py "
                  "--write notes that", file=sys.stderr)
    if words == ["--write"]:
        with open(NUMBERS, "w", encoding="utf-8") as it:
            it.write(text)
    for it in faults:
        print(it)
    return 1 if faults else 0


if __name__ == "__main__":
    sys.exit(main(sys.argv[1:]))
