#!/usr/bin/env python3
"""Holds crates.txt to its layers, and the list of them in docs/DESIGN.md to crates.txt.

Use, in the repository:   python3 tools/layers.py [--write]

crates.txt has the crates by layer: a line `# name` begins one, the lowest stands first. A crate
stands on crates of earlier lines alone. The list has the layers from the top, each with the layers
that it stands on and its crates, and of each crate the first sentence of its README. Ends with 1,
and prints a line for each fault: a crate stands in no layer, or above one that it stands on; it has
no README whose first paragraph has a full stop; the list isn't that of crates.txt and the READMEs.
Else it prints nothing.
  --write   puts the list into docs/DESIGN.md, if each crate has a sentence
"""
import os
import re
import sys
import textwrap

TOP = os.path.dirname(os.path.dirname(os.path.abspath(__file__)))
DESIGN = f"{TOP}/docs/DESIGN.md"
PICTURE = re.compile(r"(?s)(?<=<!-- layers -->\n).*?(?=<!-- end of layers -->)")


def read(file):
    with open(file, encoding="utf-8") as it:
        return it.read()


def layers():
    """The layers' names, the lowest first, and of each crate, in the order of lines, its layer's
    number and what its line lists.

    The lines of comment before the first empty line speak of the whole file."""
    names, crates = [], {}
    _, _, text = read(f"{TOP}/crates.txt").partition("\n\n")
    for line in text.splitlines():
        if line.startswith("# "):
            names.append(line[2:])
            continue
        head, colon, listed = line.partition("#")[0].partition(":")
        if colon:
            crates[head.split()[0]] = len(names), listed.split()
    return names, crates


def purpose(name):
    """What a crate is for: the first sentence of its README, or None if it has none."""
    file = f"{TOP}/crates/{name}/README.md"
    _, *paragraphs = (read(file) if os.path.exists(file) else "").split("\n\n")
    found = re.match(r"(?s)(.*?\.)\s", paragraphs[0] + "\n") if paragraphs else None
    return found and found[1].replace("\n", " ")


def picture(names, crates, purposes):
    """The list of the layers, the highest first."""
    for number in range(len(names), 0, -1):
        inside = [name for name, (layer, _) in crates.items() if layer == number]
        below = {crates[it][0]
                 for name in inside for it in crates[name][1] if it in crates} - {number}
        on = f" (on {', '.join(map(str, sorted(below)))})" if below else ""
        yield from textwrap.wrap(f"**{number}: {names[number - 1]}**{on}", 100)
        yield ""
        for name in inside:
            yield from textwrap.wrap(
                f"- [`{name}`](../crates/{name}/README.md): {purposes[name]}", 100,
                subsequent_indent="  ", break_long_words=False, break_on_hyphens=False)
        yield ""


def main(words):
    if len(words) > 1 or words[:1] not in ([], ["--write"]):
        print(__doc__, end="", file=sys.stderr)
        return 2
    names, crates = layers()
    faults, before = [], set()
    for name, (layer, listed) in crates.items():
        if not layer:
            faults.append(f"crates.txt: {name} stands in no layer")
        faults += [f"crates.txt: {name} stands on {it}, which comes behind it"
                   for it in listed if it in crates and it not in before]
        before.add(name)
    purposes = {name: purpose(name) for name in crates}
    faults += [f"crates/{name}/README.md: has no first paragraph with a full stop, so "
               "docs/DESIGN.md has no sentence of it" for name, it in purposes.items() if not it]
    text, wanted = read(DESIGN), None
    if all(purposes.values()):
        wanted = "".join(f"{line}\n" for line in picture(names, crates, purposes))
    found = PICTURE.search(text)
    if not found:
        faults.append("docs/DESIGN.md: has no lines <!-- layers --> and <!-- end of layers -->")
    elif wanted and words == ["--write"]:
        with open(DESIGN, "w", encoding="utf-8") as it:
            it.write(text[: found.start()] + wanted + text[found.end() :])
    elif wanted and found[0] != wanted:
        faults.append("docs/DESIGN.md: its layers aren't those of crates.txt and READMEs: python3 "
                      "tools/layers.py --write puts them there")
    for it in faults:
        print(it)
    return 1 if faults else 0


if __name__ == "__main__":
    sys.exit(main(sys.argv[1:]))
