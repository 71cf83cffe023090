#!/usr/bin/env python3
"""Finds links and paths in pages that lead nowhere.

Use, in the repository:   python3 tools/links.py [PAGE ..]

Without PAGE it reads each .md of the repository. A link `[text](path)` is sought beside its page,
and its `#heading` in the page that it names. A path in backticks that begins with a folder of the
repository, such as `docs/FORMATS.md`, is sought from the top, or beside its page; a word in
capitals in it, `..`, `*` or `{` makes it a pattern, of which the part before is sought. Code blocks
aren't read: tools/pages.py runs their commands. Ends with 1, and prints a line for each fault.
"""
import os
import re
import sys

TOP = os.path.dirname(os.path.dirname(os.path.abspath(__file__)))
ROOMS = ("docs/", "examples/", "tools/", "scripts/", "reference/", "edits/", "crates/", ".ci/")
MADE = ("/out/", "/must-fail/")
PATTERN = re.compile(r"\.\.|[*{<]|(?<![\w.])[A-Z][A-Z_]*(?![\w.])")


def read(path):
    with open(path, encoding="utf-8") as file:
        return file.read()


def prose(text):
    """The lines of a page outside code blocks, numbered from 1."""
    fenced, code, blank = False, False, True
    for number, line in enumerate(text.splitlines(), 1):
        if line.startswith("```"):
            fenced = not fenced
        elif not line.strip():
            blank, code = True, False
        elif not fenced:
            code = line.startswith("    ") and (blank or code)
            blank = False
            if not code:
                yield number, line


def headings(text):
    """The names by which links find a page's headings."""
    return {re.sub(r"[^\w\- ]", "", line.lstrip("#").strip().lower()).replace(" ", "-")
            for _, line in prose(text) if line.startswith("#")}


def faults(page, top=TOP):
    """The faults of a page, each with its line."""
    text, beside = read(page), os.path.dirname(os.path.abspath(page))
    for number, line in prose(text):
        for link in re.findall(r"\]\(([^)\s]+)\)", re.sub(r"`[^`]*`", "", line)):
            if re.match(r"\w+:", link):
                continue
            path, _, heading = link.partition("#")
            file = os.path.join(beside, path) if path else page
            if not os.path.exists(file):
                yield number, link
            elif heading and heading not in headings(read(file)):
                yield number, link
        for path in re.findall(r"`([^`\s]+)`", line):
            if path.startswith(ROOMS) and not any(it in path for it in MADE):
                place = PATTERN.search(path)
                path = path[:place.start()].rpartition("/")[0] if place else path
                if not any(os.path.exists(os.path.join(it, path)) for it in (top, beside)):
                    yield number, path


def main(words):
    pages = words or [os.path.join(at, file) for at, _, files in os.walk(TOP) for file in files
                      if file.endswith(".md") and not re.search(r"/(\.git|out|open)(/|$)", at)]
    found = [f"{os.path.relpath(page, TOP)}:{number}: {path} isn't there"
             for page in sorted(pages) for number, path in faults(page)]
    print(*found, sep="\n", end="\n" if found else "")
    return 1 if found else 0


if __name__ == "__main__":
    sys.exit(main(sys.argv[1:]))
