"""The plain picture of `wordlengths`: a bound against the word length, an SVG without libraries."""

import math

import assistants as shared


def size(interval):
    """The greatest absolute value of an interval; None where it has none."""
    if interval is None or isinstance(interval, str) or None in interval:
        return None
    return max(abs(interval[0]), abs(interval[1]))


def logarithm(exact):
    """The binary logarithm of a fraction above 0, as a float."""
    return math.log2(exact.numerator) - math.log2(exact.denominator)


def points_of(table, name, values):
    """What a table shows: (value, logarithm of the bound, proved) each, where there is a bound, and
    (value, logarithm of what is asked) each. A Fault if nothing can be drawn."""
    points = []
    for value in values:
        answer, interval = table.at(**{name: value})
        wide = size(interval)
        if wide:
            points.append((value, logarithm(wide), answer.status == 0))
    if not points:
        raise shared.Fault("nothing can be drawn: no value has a finite bound that isn't 0")
    asked = [(value, table.asked(**{name: value})) for value in values]
    return points, [(value, logarithm(bound)) for value, bound in asked if bound]


def title(script, goal):
    """The words of a goal, or its number where they are long."""
    says = " ".join(script.goals[goal - 1].says.split())
    return says if len(says) < 60 else "goal %d" % goal


def drawn(table, name, values):
    """The bound against the word length, on a logarithmic scale; the asked bound is a line."""
    points, asks = points_of(table, name, values)
    every = [y for _, y, _ in points] + [y for _, y in asks]
    low, high = math.floor(min(every)) - 1, math.ceil(max(every)) + 1
    left, top, width, height = 90, 40, 560, 320

    def across(value):
        return left + width * (value - values[0] + 0.5) / len(values)

    def down(y):
        return top + height * (high - y) / (high - low)
    out = ['<svg xmlns="http://www.w3.org/2000/svg" viewBox="0 0 %d %d" font-family="sans-serif"'
           ' font-size="13">' % (left + width + 30, top + height + 60),
           '<rect width="100%" height="100%" fill="white"/>']
    for y in range(low, high + 1, max(1, (high - low) // 10)):
        out.append('<path d="M%d %.1fh%d" stroke="#ddd"/><text x="%d" y="%.1f" text-anchor="end">'
                   '2^%d</text>' % (left, down(y), width, left - 8, down(y) + 4, y))
    for value in values[::max(1, len(values) // 16)]:
        out.append('<text x="%.1f" y="%d" text-anchor="middle">%d</text>'
                   % (across(value), top + height + 20, value))
    for k, (value, y) in enumerate(asks):
        half = width / len(values) / 2
        out.append('<path d="M%.1f %.1fh%.1f" stroke="#c33" stroke-width="2"/>'
                   % (across(value) - half, down(y), 2 * half))
        if k == len(asks) - 1:
            out.append('<text x="%d" y="%.1f" text-anchor="end" fill="#c33">asked</text>'
                       % (left + width, down(y) - 6))
    out.append('<polyline fill="none" stroke="#36c" points="%s"/>'
               % " ".join("%.1f,%.1f" % (across(v), down(y)) for v, y, _ in points))
    for value, y, fine in points:
        out.append('<circle cx="%.1f" cy="%.1f" r="4" stroke="#36c" fill="%s"><title>%s = %d'
                   '</title></circle>'
                   % (across(value), down(y), "#36c" if fine else "white", name, value))
    out.append('<rect x="%d" y="%d" width="%d" height="%d" fill="none" stroke="#888"/>'
               % (left, top, width, height))
    says = title(table.script(**{name: values[-1]}), table.goal)
    for mark, sign in (("&", "&amp;"), ("<", "&lt;"), (">", "&gt;")):
        says = says.replace(mark, sign)
    out.append('<text x="%d" y="24">bound of |%s| (filled: all goals are proved)</text>'
               % (left, says))
    out.append('<text x="%d" y="%d" text-anchor="middle">%s</text></svg>'
               % (left + width // 2, top + height + 45, name))
    return "\n".join(out) + "\n"
