"""What pages of docs/ have in rows and entries, as the tests read it.

`table` has the rows of a page's tables, `listed` the entries of its lists, and `rules` the rules of
docs/RULES.md. A row of a table whose first cell is empty goes on with the row before it.
"""
import os
import re
from collections import namedtuple

TOP = os.path.dirname(os.path.dirname(os.path.abspath(__file__)))
HEAD = re.compile(r"(\d+) +(\S.*?)  +(\w+)(?: \(Gappa: ([\w, ]+)\))?")

# A rule: its number, what it is about, the names of its definition and of Gappa's rules, its
# premises, and its conclusions, each with its side condition or "".
Rule = namedtuple("Rule", "number words definition gappa premises conclusions")


def read(page):
    """The text of a page of docs/."""
    with open(os.path.join(TOP, "docs", page), encoding="utf-8") as file:
        return file.read()


def section(text, heading):
    """What stands under a heading `## ..`, up to the next."""
    return text.partition("\n## %s\n" % heading)[2].partition("\n## ")[0]


def cells(line):
    """The cells of a table's row; `\\|` is a bar inside a cell."""
    return [cell.replace("\\|", "|").strip() for cell in re.split(r"(?<!\\)\|", line)[1:-1]]


def table(text, *heads):
    """The rows of the tables that have these heads, as lists of cells."""
    found, inside = [], False
    for line in text.splitlines():
        row = cells(line) if line.startswith("|") else []
        if tuple(row) == heads:
            inside = True
        elif not row:
            inside = False
        elif inside and row[0]:
            if not set(line) <= set("|-"):
                found.append(row)
        elif inside:
            found[-1] = [" ".join(filter(None, both)) for both in zip(found[-1], row)]
    return found


def listed(text):
    """The entries of the lists `- ..`, each in one line."""
    return [" ".join(it.split()) for it in re.findall(r"^- (.*(?:\n  .*)*)", text, re.M)]


def quoted(text):
    """What stands in backticks."""
    return re.findall(r"`([^`]*)`", text)


def parted(text):
    """A conclusion and its side condition."""
    return tuple(it.strip() for it in text.partition("  if ")[::2])


def rules(text):
    """The rules of the page docs/RULES.md, in its order.

    In an entry a line `from` begins the premises, and then a line `gives` the conclusions. A line
    that begins where the words after these stand goes on with the premises, or is one more
    conclusion. One that begins behind that goes on with the conclusion before it."""
    found, last = [], None
    for line in section(text, "The rules").splitlines():
        if not line.startswith("    "):
            continue
        head, word, said = HEAD.fullmatch(line[4:]), line[8:15].strip(), line[15:]
        if head:
            number, words, definition, gappa = head.groups()
            gappa = gappa.split(", ") if gappa else []
            found.append(Rule(int(number), words, definition, gappa, [], []))
            last = "head"
        elif (last, word) in (("head", "from"), ("from", "")):
            found[-1].premises.append(said)
            last = "from"
        elif (last, word) == ("from", "gives") or (last, word) == ("gives", "") and said[0] != " ":
            found[-1].conclusions.append(said)
            last = "gives"
        elif (last, word) == ("gives", ""):
            said = said.strip()
            found[-1].conclusions[-1] += ("  " if said.startswith("if ") else " ") + said
        else:
            raise ValueError("docs/RULES.md has a line out of its place: %s" % line)
    return [it._replace(premises=" ".join(it.premises), conclusions=[*map(parted, it.conclusions)])
            for it in found]
