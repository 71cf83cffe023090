"""Templates of scripts: their placeholders, the script for some values, and what values cost.

In a template `{n}` stands for the value of n, `{n+3}`, `{n-1}` and `{2*n}` for what they say.
Values are whole numbers; costs are exact fractions.
"""

import re
from fractions import Fraction

from script_text import ROUND_CEILING, Fault, decimal

PLACE = re.compile(
    r"\{ *(?:([0-9]+) *\* *)?([A-Za-z_]\w*)(?: *([+-]) *([0-9]+))? *\}")
SET = re.compile(r"([A-Za-z_]\w*)=(-?[0-9]+)\.\.(-?[0-9]+)$")
COMMENT = re.compile(r"#[^\n]*")
SIGN = re.compile(r"[+-][ \t\r\n]*$")
# the front of a literal whose exponent is to follow, as 1b, 2.5e or 0x1p
EXPONENT = re.compile(
    r"(?<![\w.])(?:0x[0-9a-fA-F]+(?:\.[0-9a-fA-F]+)?p|[0-9]+(?:\.[0-9]+)?e|[0-9]+b)$")


def sets_of(texts, template):
    """The placeholders and their values, {name: range}, of words such as `n=4..24`. A Fault if one
    has another form, more than 512 values, stands twice, or isn't in the template; or if a
    placeholder of the template, outside of comments, has no values."""
    found = {}
    for text in texts:
        match = SET.match(text)
        if not match:
            raise Fault("--set %s: it has the form n=4..24" % text)
        name, low, high = match.group(1), int(match.group(2)), int(match.group(3))
        if low > high or high - low > 511 or name in found:
            raise Fault("--set %s: a range rises, has at most 512 values, and is given once" % text)
        found[name] = range(low, high + 1)
    used = {match.group(2) for match in PLACE.finditer(template)}
    for name in found:
        if name not in used:
            raise Fault("the template has no {%s}" % name)
    for match in PLACE.finditer(COMMENT.sub("", template)):
        if match.group(2) not in found:
            raise Fault("the template has %s, and there is no --set for %s"
                        % (match.group(), match.group(2)))
    return found


def filled(template, values):
    """The script for some values, {name: whole}. What is no placeholder with a value stays.

    A sign before a value below 0 goes into it where a script has one sign at most (`fixed<-{n},dn>`
    with n = -3 is `fixed<3,dn>`); after an operand it is an operation and stays (`x --3`)."""
    made, at = "", 0
    for match in PLACE.finditer(template):
        factor, name, sign, more = match.groups()
        if name not in values:
            continue
        number = int(factor or 1) * values[name] + int((sign or "+") + (more or "0"))
        made += template[at:match.start()]
        at = match.end()
        before = SIGN.search(made)
        if number < 0 and before:
            front = made[:before.start()]
            last = COMMENT.sub("", front).rstrip()[-1:]
            operand = last.isalnum() or last in ("_", ")", "|")
            if last == "" or not operand or EXPONENT.search(front):
                made, number = front, -number if before.group()[0] == "-" else number
        made += str(number)
    return made + template[at:]


def said(names, values):
    """Values in words: `n = 4, m = 5`."""
    return ", ".join("%s = %d" % pair for pair in zip(names, values))


class Cost:
    """What values cost: sums and products of placeholders and numbers that aren't negative, such as
    `3*n + 2*m + k` or `n * (m + 2)`. So no value costs more than a greater one."""

    TOKEN = re.compile(r"\s*(?:([0-9]+(?:\.[0-9]+)?)|([A-Za-z_]\w*)|([+*()])|$)")

    def __init__(self, text, ranges):
        """`ranges` is {name: range}; a Fault if the text is no cost of just these names."""
        self.text, self.names, self.words, at = " ".join(text.split()), list(ranges), [], 0
        while at < len(text.rstrip()):
            match = self.TOKEN.match(text, at)
            if not match or not match.lastindex:
                raise Fault("--cost %s: it has sums and products of placeholders and of numbers "
                            "from 0 up, such as 3*n + 2*m" % text)
            self.words.append(match.group(match.lastindex))
            at = match.end()
        self.words.append("")
        self.at, self.ranges, self.used = 0, ranges, set()
        self.made, _ = self.sum()
        if self.words[self.at]:
            raise Fault("--cost %s: `%s` can't stand there" % (self.text, self.words[self.at]))
        for name in ranges:
            if name not in self.used:
                raise Fault("--cost %s: it has no %s" % (self.text, name))

    def take(self):
        self.at += 1
        return self.words[self.at - 1]

    def sum(self):
        """A sum, and whether a placeholder is in it."""
        parts = [self.product()]
        while self.words[self.at] == "+":
            self.take()
            parts.append(self.product())
        return ("+", [part for part, _ in parts]), any(varies for _, varies in parts)

    def product(self):
        parts = [self.factor()]
        while self.words[self.at] == "*":
            self.take()
            parts.append(self.factor())
        if sum(varies for _, varies in parts) > 1:
            below = [name for name in self.ranges if self.ranges[name][0] < 0]
            if below:
                raise Fault("--cost %s: no product of placeholders may stand beside a range that "
                            "begins below 0, as that of %s" % (self.text, below[0]))
        return ("*", [part for part, _ in parts]), any(varies for _, varies in parts)

    def factor(self):
        word = self.take()
        if word == "(":
            inner = self.sum()
            if self.take() != ")":
                raise Fault("--cost %s: a parenthesis isn't closed" % self.text)
            return inner
        if word in self.ranges:
            self.used.add(word)
            return ("name", word), True
        if word and word[0].isdigit():
            return ("number", Fraction(word)), False
        if word and (word[0].isalpha() or word[0] == "_"):
            raise Fault("--cost %s: there is no --set for %s" % (self.text, word))
        raise Fault("--cost %s: %s" % (
            self.text, "`%s` can't stand there" % word if word else "it ends too early"))

    def __call__(self, values):
        """The cost of values, a tuple in the order of the ranges."""
        given = dict(zip(self.names, values))

        def of(node):
            if node[0] == "name":
                return Fraction(given[node[1]])
            if node[0] == "number":
                return node[1]
            found = Fraction(node[0] == "*")
            for part in node[1]:
                found = found + of(part) if node[0] == "+" else found * of(part)
            return found
        return of(self.made)


def cost_text(cost):
    """A cost as a number in decimals; a fraction that isn't whole is rounded to four digits up."""
    if cost.denominator == 1:
        return str(cost.numerator)
    return decimal(cost, 4, ROUND_CEILING)
