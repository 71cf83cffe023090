"""What a refusal of a script means: its line and column, the place, and usual slips."""

import difflib
import re

KINDS = {
    "NotText": "The bytes aren't UTF-8.",
    "BadToken": "No token begins with this.",
    "Unexpected": "No script has this here.",
    "FormulaForm": "This can't stand in this part of the formula: hypotheses have no `?`, goals no "
    "`\\/`, `not` and `@FIX`, and `not` stands before `e <= b` and `e >= b` alone.",
    "UnsupportedOperator": "There is no such operator or direction.",
    "NameUsed": "This name is defined or used already; a definition stands before its uses.",
    "BadBound": "The upper bound is below the lower, or the lower bound of a `-/` isn't above -1.",
    "SplitRange": "A `$` hint cuts a variable that has a hypothesis `x in [a,b]` with two bounds, "
    "in every case.",
    "BadSplit": "A `$` hint cuts variables alone, not definitions; into 1 piece or more; at points "
    "that rise inside the range.",
    "LiteralLimit": "The number has too many digits, or too large an exponent (docs/FORMATS.md, "
    "Tokens).",
    "Limit": "The script passes a limit of docs/FORMATS.md.",
}
SHIFT = (
    "There is no shift. As a division by 8 in Q15, x >> 3 is fixed<-15,dn>(x * 1b-3), and x << 3 "
    "is 8 * x; one that changes the format rounds or does nothing (docs/TUTORIAL.md, section 1)."
)
BOUND = (
    "A bound is one number with a sign, no expression: write 0.25 or 1b-2 for 1 / 4; of 1 / 3 a "
    "decimal on the safe side."
)


def slip(text, at):
    """A usual slip that would be refused at this byte, in a sentence, or nothing."""
    here, line_before = text[at:], text[:at].rpartition("\n")[2]
    formula = "{" in text[:at] and "}" not in text[:at]
    word = here[:1]
    if text.startswith("\xef\xbb\xbf"):
        return "A byte order mark stands at the front; save the file as UTF-8 without it."
    if (
        here.startswith("//")
        or here.startswith("/*")
        or here[:1] in "/*"
        and line_before.endswith("/")
    ):
        return "A comment begins with `#`."
    if here.startswith("**") or word == "^" or word == "*" and line_before.endswith("*"):
        return "There are no powers; write the product, x * x."
    if here.startswith("&&") or word == "&" or word == "!":
        return "`and` is written /\\, `or` \\/, and `not` before a bound: not x <= 1."
    if formula and (here.startswith("and ") or here.startswith("or ")):
        return "`and` is written /\\, and `or` \\/."
    if here[:2] in (">>", "<<") or line_before[-1:] == word and word in ("<", ">"):
        return SHIFT
    if re.match(r"in\s+\w+\s*:\s*[su]\d", re.sub(r"#[^\n]*\n|\s+", " ", text).strip()):
        return (
            "This looks like a fixed-point program: `fixprove fix PROGRAM SCRIPT` makes a script "
            "of it."
        )
    turned = re.search(r"(?:^|[\s{])([-+]?[0-9][^\s<>]*)\s*(<=|>=|<|>)\s*$", line_before)
    if formula and turned and turned.group(1)[-1] != "-" and re.match(r"[A-Za-z_]\w*", here):
        sign = {
            "<": "not %s <= %s in a hypothesis",
            ">": "not %s >= %s in a hypothesis",
            "<=": "%s >= %s",
            ">=": "%s <= %s",
        }[turned.group(2)]
        name = re.match(r"\w+", here).group()
        return "The bound stands on the right: write %s." % (sign % (name, turned.group(1)))
    if formula and here[:2] in ("==", "< ", "> ") or formula and word in ("<", ">", "="):
        return {
            "=": "An equation e = 1 is written e in [1,1], one of two expressions e - f in [0,0].",
            "<": "A strict bound e < b is written `not e >= b` in a hypothesis, and e <= b in a "
            "goal.",
            ">": "A strict bound e > b is written `not e <= b` in a hypothesis, and e >= b in a "
            "goal.",
        }[word]
    bracket = line_before.rpartition("[")[2]
    if formula and "[" in line_before and "]" not in bracket and word in ("/", "*", "+", "-", "("):
        return BOUND
    if formula and "[" in line_before and "]" not in bracket and word == ";":
        return "The bounds of a range are separated by a comma."
    if not here.strip():
        return "The text ends too early: is a `}`, a `)` or a `;` missing?"
    if not formula and not line_before.strip():
        front = text[:at].rstrip().rpartition("\n")[2].partition("#")[0].rstrip()
        if front and front[-1] not in ";}{":
            return "Is a `;` missing at the end of the line before?"
    if here.startswith("sqrt"):
        return (
            "There is no root: take the root as the variable, and write its argument as a square "
            "(docs/COMING_FROM_GAPPA.md)."
        )
    if here.startswith("float"):
        return "There is no floating point: docs/COMING_FROM_GAPPA.md says what to write instead."
    return ""


def place(text, at):
    """The line and column of a byte, and the line with a caret below it. Of the text's end it is
    the end of the last line that has something."""
    if not text[at:].strip():
        at = len(text[:at].rstrip())
    before = text[:at]
    line = text[before.rfind("\n") + 1 :].partition("\n")[0].rstrip("\r")
    front = before[before.rfind("\n") + 1 :]
    shown = line.encode("latin-1").decode("utf-8", "replace")
    front = front.encode("latin-1").decode("utf-8", "replace")
    caret = "".join("\t" if c == "\t" else " " for c in front) + "^"
    if len(shown) > 160:
        begin = max(0, len(front) - 80)
        shown, caret = shown[begin : begin + 160], caret[begin:]
    return before.count("\n") + 1, len(front) + 1, shown, caret


def refused(text, line):
    """Prints what a refusal's line means for a text."""
    words = line.split()
    kind, at = words[1], int(words[-1])
    row, column, shown, caret = place(text, at)
    print("refused: %s in line %d, column %d" % (kind, row, column))
    print("    " + shown)
    print("    " + caret)
    print(KINDS[kind.partition("(")[0]])
    meant = slip(text, at)
    if meant:
        print(meant)
    if kind in ("UnsupportedOperator", "BadToken", "Unexpected"):
        name = re.match(r"[A-Za-z_]\w*", text[at:])
        known = set(re.findall(r"[A-Za-z_]\w*", text[:at])) | {"fixed", "int", "fma"}
        near = difflib.get_close_matches(name.group(), known - {name.group()}, 1) if name else []
        if near and not meant:
            print("Is `%s` meant?" % near[0])
