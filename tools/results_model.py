"""What a run answers, as one dictionary: the model of `results` and `many`.

docs/RESULTS.md has its schema. Numbers are exact: an end is m * base^e, with m as a string of
decimal digits. Decimals beside it are rounded outward. Whatever is said of a script is what the
program printed; its text is read for goals, bounds and hints alone.
"""

import hashlib
import os
import re
from fractions import Fraction

import about
import assistants as shared
from script_text import ROUND_CEILING, ROUND_FLOOR, Script, decimal, tokens_of

FORMAT = "fixprove-results 1"
# the word of each status
WORDS = {0: "proved", 1: "unproved", 2: "usage", 3: "refused", 4: "limit", 5: "certificate",
         6: "unread", 7: "unwritten", 8: "memory", 12: "list"}
DEFAULTS = {"rounds": 20, "depth": 16, "boxes": 4096, "workers": 4}
BATCH_BOXES = 256
ASSUMED = re.compile(r"hint ([0-9]+) assumed")
FIRST = {"script:": 3, "limit:": 4, "certificate:": 5, "unproved:": 1}


def shown(data):
    """A name or a line as text; bytes that aren't UTF-8 as \\xNN."""
    return data.decode("utf-8", "backslashreplace")


def sha256(data):
    return hashlib.sha256(data).hexdigest()


def end_of(text, is_upper, digits):
    """An end of a line or a bound of a script, as the schema has it; an infinite one as it is."""
    if text.endswith("inf"):
        return text
    sign, body = ("-", text[1:]) if text[0] == "-" else ("", text.lstrip("+"))
    if body.startswith("0x"):
        front, _, exponent = body[2:].partition("p")
        whole, _, back = front.partition(".")
        number, base, power = int(whole + back, 16), 2, int(exponent or 0) - 4 * len(back)
    else:
        base, mark = (2, "b") if "b" in body or body.isdigit() else (10, "e")
        front, _, exponent = body.partition(mark)
        whole, _, back = front.partition(".")
        number, power = int(whole + back), int(exponent or 0) - len(back)
    exact = Fraction(-number if sign else number) * Fraction(base) ** power
    near = decimal(exact, digits, ROUND_CEILING if is_upper else ROUND_FLOOR)
    direction = "exact" if Fraction(near) == exact else "up" if is_upper else "down"
    return {"m": (sign if number else "") + str(number), "e": power, "base": base, "text": text,
            "decimal": near, "direction": direction}


def interval_of(low, high, digits):
    return {"low": end_of(low, False, digits), "high": end_of(high, True, digits)}


def joined(text):
    """The tokens of a piece of a script, joined by one space, as the program prints them."""
    return " ".join(token.text for token in tokens_of(text)[:-1])


def asked_of(claim, digits):
    """The interval that a goal asks for, perhaps with an infinite end; None of `?`."""
    if claim.ask:
        return None
    rest = [token.text for token in tokens_of(claim.text[len(claim.says):])[:-1]]
    signed, bounds = "", []
    for word in rest:
        if word in "+-":
            signed = word
        elif word[0].isdigit():
            bounds.append(signed + word)
            signed = ""
    if claim.kind == "le":
        return interval_of("-inf", bounds[0], digits)
    if claim.kind == "ge":
        return interval_of(bounds[0], "+inf", digits)
    return interval_of(bounds[0], bounds[1], digits)


def spelled(claim):
    """A goal in one line: its expression as the program prints it, and what it asks for."""
    return joined(claim.says), " ".join(claim.text[len(claim.says):].split())


def read_script(data):
    """The script that these bytes spell, or None where they spell none that can be read here."""
    try:
        return Script(data.decode("latin-1"))
    except (shared.Fault, IndexError, KeyError, ValueError, RecursionError):
        return None


def status_of(lines):
    """The status of one script of `batch`, by its lines: 0 where they are lines of goals."""
    return FIRST.get(lines[0].partition(" ")[0], 0) if lines else 0


def goal_rows(script, lines, digits):
    """The goals, with what was found where lines are given.

    None where the lines aren't those of the script's goals. Without a script (None), what the goals
    ask isn't known: `ask` is None then."""
    goals, found = [], []
    for line in lines or []:
        match = shared.LINE.match(line)
        if match and not ASSUMED.fullmatch(line):
            found.append(match)
    if lines is not None and script is not None and len(found) != len(script.goals):
        return None
    for at in range(len(script.goals) if script is not None else len(found)):
        claim = script.goals[at] if script is not None else None
        text, ask = spelled(claim) if claim else (found[at].group(1), None)
        if lines is not None and "".join(text.split()) != "".join(found[at].group(1).split()):
            return None
        row = {"number": at + 1, "text": text, "ask": ask, "asked": None, "found": None,
               "outcome": "unknown"}
        if claim:
            row["asked"] = asked_of(claim, digits)
        if lines is not None:
            match = found[at]
            row["text"] = match.group(1)
            row["found"] = match.group(4) or interval_of(match.group(2), match.group(3), digits)
            row["outcome"] = "proved"
        goals.append(row)
    return goals


def assumed_rows(script, lines):
    """The assumed hints that the lines name, counted among the script's hints with `->`."""
    rewrites = [it for it in script.hints if it.kind == "rewrite"] if script is not None else []
    found = []
    for line in lines:
        match = ASSUMED.fullmatch(line)
        if match:
            number = int(match.group(1))
            text = rewrites[number - 1].text if number <= len(rewrites) else None
            text = joined(text.rpartition(";")[0]) if text else None
            found.append({"number": number, "text": text})
    return found


def open_row(line, digits):
    """The open goal and its box, from the line of an unproved script."""
    match = shared.OPEN.match(line)
    if not match:
        return None
    ranges = shared.RANGE.findall(match.group(3))
    box = {name: interval_of(low, high, digits) for name, low, high in ranges}
    case = int(match.group(2)) if match.group(2) else None
    return {"goal": int(match.group(1)), "case": case, "box": box}


def script_result(name, data, status, lines, is_check=False, digits=6, script=None):
    """What was answered of one script.

    name, data   the script's name, as bytes, and its bytes (None where it couldn't be read)
    status       the program's
    lines        what it printed of this script, as texts
    script       what `read_script` gives of the bytes, if that is known
    A Fault where the lines of a proved script aren't those of its goals.
    """
    if script is None and data is not None and status in (0, 1, 4, 5):
        script = read_script(data)
    word = WORDS.get(status, "status %d" % status)
    found = {"name": shown(name), "sha256": None if data is None else sha256(data),
             "status": status, "word": word, "lines": lines, "goals": [], "assumed": [],
             "open": None}
    if status == 0:
        goals = goal_rows(script, lines, digits)
        if goals is None:
            raise shared.Fault("%s: the lines aren't those of its goals" % found["name"])
        found.update(goals=goals, assumed=assumed_rows(script, lines))
        found["word"] = "assumed" if found["assumed"] else "accepted" if is_check else word
        for goal in goals if found["assumed"] else []:
            goal["outcome"] = "assumed"
        return found
    found["goals"] = goal_rows(script, None, digits) if script is not None else []
    if status == 1 and lines:
        found["open"] = open_row(lines[0], digits)
        number = found["open"]["goal"] if found["open"] else 0
        for goal in found["goals"]:
            goal["outcome"] = "open" if goal["number"] == number else "unknown"
    return found


def exit_of(script, allow_assumed):
    """The status that stands for one script: 1 for 0 by an assumed hint that isn't allowed."""
    is_failure = script["status"] == 0 and script["assumed"] and not allow_assumed
    return 1 if is_failure else script["status"]


def batch_results(names, texts, lines, digits=6):
    """The answers of `batch`, script by script; None where the lines aren't those of this list."""
    found, at = [], 0
    heads = [b"script " + it for it in names] + [None]
    for number, (name, data) in enumerate(zip(names, texts)):
        if at >= len(lines) or lines[at] != heads[number]:
            return None
        at += 1
        first, script = at, None
        if at < len(lines) and status_of([shown(lines[at])]):
            at += 1
        else:
            script = read_script(data)
            at += len(script.goals) if script is not None else 0
            while at < len(lines) and (ASSUMED.fullmatch(shown(lines[at])) or
                                       script is None and lines[at] != heads[number + 1]):
                at += 1
        own = [shown(it) for it in lines[first:at]]
        if not own:
            return None
        found.append(script_result(name, data, status_of(own), own, False, digits, script))
    return found if at == len(lines) else None


def options_used(command, words):
    """The options of a run, with the program's own numbers for those that weren't given."""
    if command == "check":
        return {}
    own = dict(DEFAULTS, boxes=BATCH_BOXES) if command == "batch" else DEFAULTS
    given = {name: getattr(words, name, None) for name in own}
    return {name: own[name] if given[name] is None else given[name] for name in own}


def program_facts(path):
    """What a report says of the program; `proved` is True, or None where nothing is known."""
    found = about.facts(path)
    return {name: found[name] for name in ("version", "sha256", "kit", "proved")}


def report(command, options, program, status, scripts, allow_assumed):
    """The whole: what `--json` writes."""
    exits = [exit_of(it, allow_assumed) for it in scripts]
    first = next((it for it in exits if it), 0)
    return {"format": FORMAT, "command": command, "options": options, "program": program,
            "status": status, "exit": status or first, "allow_assumed": allow_assumed,
            "scripts": scripts}


def lines_of(data):
    """What a run printed, as lines of bytes, without the end of each."""
    return data.split(b"\n")[:-1] if data.endswith(b"\n") else data.split(b"\n") if data else []


def named_file(name):
    """A file that a report names, as {name, sha256}; the sum is None where it can't be read."""
    try:
        return {"name": shown(os.fsencode(name)), "sha256": about.sum_of(name)}
    except OSError:
        return {"name": shown(os.fsencode(name)), "sha256": None}
