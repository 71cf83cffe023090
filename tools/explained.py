"""Sentences of tools/explain: ends that are known beside those that are asked, and names."""

import difflib

import assistants as shared


def script_goal(script, answer):
    return script.goals[answer.goal - 1]


def compared(known, goal, asked=True):
    """What is known of a goal beside what it asks, in as many digits as tell the two apart. Known
    ends are rounded outward and asked ones alike, so that what lies inside never seems to lie
    outside."""
    if known is None:
        text, digits = "nothing finite is known", 6
    else:
        ends = [] if isinstance(known, str) else list(known) + [goal.lower, goal.upper]
        least = 12 if all(end is None or end.denominator == 1 for end in ends) else 6
        digits = next((d for d in range(least, 60) if not ends or apart(known, goal, d)), 60)
        text = "known " + shared.decimals(known, digits)
    if not asked:
        return text
    if goal.ask:
        return text + ", asked ?"
    return text + ", asked " + shared.decimals((goal.lower, goal.upper), digits)


def apart(known, goal, digits):
    """Whether so many digits show which ends that are known and asked differ."""
    for end, bound, way in (
        (known[0], goal.lower, shared.ROUND_FLOOR),
        (known[1], goal.upper, shared.ROUND_CEILING),
    ):
        if (
            None not in (end, bound)
            and end != bound
            and shared.decimal(end, digits, way) == shared.decimal(bound, digits, way)
        ):
            return False
    return True


def spelled(bound):
    """A grid number as a literal."""
    power = bound.denominator.bit_length() - 1
    return "%db%d" % (bound.numerator, -power) if power else str(bound.numerator)


def merged(pieces):
    """Neighbouring pieces as one."""
    found = []
    for low, high in pieces:
        if found and found[-1][1] == low:
            found[-1] = (found[-1][0], high)
        else:
            found.append((low, high))
    return found


def tell_names(script):
    """Prints of which variables no hypothesis speaks, which definitions nothing uses, and which
    operators round to multiples above 1."""
    spoken = script.below(
        [side for _, c in script.hypotheses() for side in (c.left, c.right) if side is not None]
    )
    times = {}
    for token in script.tokens:
        if token.kind == "name":
            times[token.text] = times.get(token.text, 0) + 1
    for name, node in script.variables.items():
        if node in spoken:
            continue
        others = [n for n in list(script.variables) + list(script.defined) if n != name]
        near = difflib.get_close_matches(name, others, 1, 0.6)
        once = times[name] == 1
        print(
            "No hypothesis speaks of `%s`%s.%s"
            % (
                name,
                ", which occurs once" if once else "",
                " Is `%s` meant?" % near[0] if near and once else "",
            )
        )
    for name in list(script.defined) + list(script.operators):
        if times[name] == 1:
            print("Nothing uses the definition of `%s`." % name)
    for name, (_, power) in script.operators.items():
        if power > 0:
            print(
                "`%s` rounds to multiples of 2^%d; for %d fraction bits write fixed<-%d,..>."
                % (name, power, power, power)
            )
