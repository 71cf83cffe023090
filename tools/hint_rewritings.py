"""Rewritings of a script that say the same of its variables, with which more hints are checked or
more rules serve.

Each gives the text of another script, or nothing if it changes nothing:
- `powers_as_products`: each ` / 2^k` as ` * 1b-k`, of which multiples are known;
- `sizes_as_cases`: each |e| a variable of its own, in two cases: e at or above 0, and at or below;
- `named_coefficients`: each long coefficient of the definitions a variable with one value;
- `names_as_variables`: each named value without roundings a variable that a hypothesis fixes.
"""

from script_text import literal_value


def spliced(text, changes):
    """The text with pieces replaced: [(start, end, new)]."""
    made, last = "", 0
    for start, end, new in sorted(changes):
        made, last = made + text[last:start] + new, end
    return made + text[last:]


def fresh(names, used):
    """The first name that isn't used; it is used then."""
    name = next(n for n in names if n not in used)
    used.add(name)
    return name


def power_of_two(value):
    """k where the value is 2^k; else nothing."""
    above, below = value.numerator, value.denominator
    if value <= 0 or above & (above - 1) or below & (below - 1):
        return None
    return above.bit_length() - below.bit_length()


def powers_as_products(script):
    """The script's text with products by 1b-k for quotients by 2^k, or nothing."""
    changes = []
    for k, token in enumerate(script.tokens[:-1]):
        after = script.tokens[k + 1]
        if token.text == "/" and after.kind == "literal":
            power = power_of_two(literal_value(after.text))
            if power:
                changes.append((token.start, after.end, "* 1b%d" % -power))
    return spliced(script.text, changes) if changes else None


def with_hypotheses(text, head, claims):
    """The text with a first part of hypotheses; `head` is the length of its definitions."""
    return text[:head] + "{ " + claims + "\n  ->" + text[head + 1 :]


def is_rounded(script, token):
    """Whether a token stands in a definition that rounds each of its operations."""
    before = [t for t in script.tokens if t.end <= token.start]
    ends = [k for k, t in enumerate(before) if t.text == ";"]
    words = before[ends[-1] + 1 if ends else 0 :]
    if token.start >= len(script.head) or len(words) < 2 or words[0].text == "@":
        return False
    return words[1].text != "="


def sizes_as_cases(script, most=64):
    """The script's text with a variable for each absolute value, or nothing: if it has none, if
    they are nested, or if there would be too many cases."""
    bars = [token for token in script.tokens if token.text == "|"]
    if not bars or len(bars) % 2:
        return None
    used, names, changes = {token.text for token in script.tokens}, {}, []
    for left, right in zip(bars[::2], bars[1::2]):
        inner = [t for t in script.tokens if left.end <= t.start and t.end <= right.start]
        if not inner or any(t.text in (";", "{", "}", "->") for t in inner):
            return None
        if len(inner) > 1 and is_rounded(script, left):
            return None
        says = " ".join(t.text for t in inner)
        if says not in names:
            stem = inner[0].text if len(inner) == 1 else "e"
            names[says] = fresh(["%s_size" % stem] + ["size%d" % n for n in range(99)], used)
        changes.append((left.start, right.end, names[says]))
    if 2 ** len(names) * script.cases() > most:
        return None
    text = spliced(script.text, changes)
    head = len(script.head) + sum(
        len(new) - (end - start) for start, end, new in changes if end <= len(script.head)
    )
    parts = []
    for says, name in names.items():
        part = says if says.isidentifier() else "(%s)" % says
        parts.append(
            "%s >= 0 /\\ %s - %s in [0,0] \\/ %s <= 0 /\\ %s - -%s in [0,0]"
            % (says, name, part, says, name, part)
        )
    return with_hypotheses(text, head, "\n  -> ".join(parts))


def named_coefficients(script, bits=12):
    """The script's text with its long coefficients as variables, or nothing if its definitions have
    none."""
    used, names, changes = {token.text for token in script.tokens}, {}, []
    for k, token in enumerate(script.tokens):
        before = [t.text for t in script.tokens[max(0, k - 2) : k]]
        inside = token.start < len(script.head) and before[-1:] != ["<"] and before != ["<", "-"]
        if token.kind != "literal" or not inside:
            continue
        exact = literal_value(token.text)
        if exact.numerator.bit_length() + exact.denominator.bit_length() > bits:
            if exact not in names:
                names[exact] = fresh(("k%d" % n for n in range(9999)), used), token.text
            changes.append((token.start, token.end, names[exact][0]))
    if not names:
        return None
    claims = " /\\ ".join("%s in [%s,%s]" % (name, text, text) for name, text in names.values())
    text = spliced(script.text, changes)
    return with_hypotheses(text, len(script.head) + len(text) - len(script.text), claims)


def names_as_variables(script, most=60):
    """The script's text with each named value that has no roundings as a variable, fixed by a
    hypothesis `v - (..) in [0,0]`; nothing if there is none, or too many."""
    below = {
        at: any(script.nodes[k][0] == "rnd" for k in script.below([at]))
        for at in script.defined.values()
    }
    changes, claims, start = [], [], 0
    for k, token in enumerate(script.tokens):
        if token.start >= len(script.head):
            break
        if token.text != ";":
            continue
        words = script.tokens[start:k]
        start = k + 1
        name = words[0].text
        plain = len(words) > 3 and words[1].text == "=" and words[0].kind == "name"
        if (
            plain
            and not below[script.defined[name]]
            and script.nodes[script.defined[name]][0] != "lit"
        ):
            body = script.text[words[2].start : words[-1].end]
            claims.append("%s - (%s) in [0,0]" % (name, body))
            changes.append((words[0].start, token.end, ""))
    if not claims or len(claims) > most:
        return None
    text = spliced(script.text, changes)
    head = len(script.head) + len(text) - len(script.text)
    return with_hypotheses(text, head, "\n  /\\ ".join(claims))
