"""The plain pictures of `picture`: an SVG without libraries.

Labels of upper ends are rounded up, of lower ends down. Boxes without an assignment are drawn
first, so that they lie under the others.
"""

from fractions import Fraction

import assistants as shared
from picture_reader import most
from picture_sheets import exact, high, low

COLOURS = ("#3366cc", "#cc7722", "#2a9d5c", "#9b4dca", "#b03060", "#5f7f1f", "#117a8b", "#7a5c3e")
PARTS = {"&": "&amp;", "<": "&lt;", ">": "&gt;"}


def plain(text):
    text = " ".join(text.split())
    text = text if len(text) < 70 else text[:67] + "..."
    return "".join(PARTS.get(c, c) for c in text)


class Canvas:
    """The lines of an SVG; panels stand below each other."""

    WIDTH, LEFT, RIGHT = 860, 110, 80

    def __init__(self):
        self.lines, self.top = [], 10

    def text(self, x, y, text, anchor="start", more=""):
        self.lines.append('<text x="%.1f" y="%.1f" text-anchor="%s"%s>%s</text>'
                          % (x, y, anchor, more, text))

    def box(self, x, y, width, height, fill, more=""):
        self.lines.append('<rect x="%.2f" y="%.2f" width="%.2f" height="%.2f" fill="%s"%s/>'
                          % (x, y, max(width, 0.4), max(height, 0.8), fill, more))

    def line(self, x, y, x2, y2, colour, more=""):
        self.lines.append('<path d="M%.1f %.1fL%.1f %.1f" stroke="%s"%s/>'
                          % (x, y, x2, y2, colour, more))

    def svg(self):
        return ('<svg xmlns="http://www.w3.org/2000/svg" width="%d" height="%d" '
                'viewBox="0 0 %d %d" font-family="sans-serif" font-size="12">\n'
                '<rect width="100%%" height="100%%" fill="white"/>\n%s\n</svg>\n'
                % (self.WIDTH, self.top, self.WIDTH, self.top, "\n".join(self.lines)))


def seen(boxes):
    if not boxes:
        raise shared.Fault("no box has a finite range")
    return boxes


class Scale:
    """Places between two numbers."""

    def __init__(self, least, greatest, begin, end):
        if least == greatest:
            least -= abs(least) / 10 + Fraction(1, 10 ** 30)
            greatest += abs(greatest) / 10 + Fraction(1, 10 ** 30)
        self.low, self.high, self.begin, self.end = least, greatest, begin, end

    def __call__(self, number):
        share = (min(max(number, self.low), self.high) - self.low) / (self.high - self.low)
        return self.begin + (self.end - self.begin) * float(share)


def frame(goal, number, boxes):
    """What a goal's panel shows: its least and its greatest value, and the bounds that lie near
    what was found. A bound that is far away would leave nothing to be seen."""
    ends = [end for box in boxes if box.goals and isinstance(box.goals[number], tuple)
            for end in box.goals[number] if end is not None]
    asks = [bound for bound in (goal.lower, goal.upper) if bound is not None]
    if ends and asks:
        wide = max(max(ends) - min(ends), max(map(abs, ends)) / 1000)
        asks = [bound for bound in asks if min(ends) - 3 * wide <= bound <= max(ends) + 3 * wide]
    every = ends + asks or [Fraction(0)]
    return min(every), max(every), asks


def panel(canvas, script, number, boxes, cut, names):
    """One goal over one variable, or over the cases where nothing is cut."""
    goal, height, left, right = script.goals[number], 220, canvas.LEFT, canvas.WIDTH - canvas.RIGHT
    top = canvas.top + 30
    canvas.text(left, canvas.top + 18, "goal %d: %s" % (number + 1, plain(goal.says)))
    least, greatest, asks = frame(goal, number, boxes)
    down = Scale(least, greatest, top + height, top)
    if cut is None:
        spans = {id(box): (Fraction(box.case - 1), Fraction(box.case)) for box in boxes}
    else:
        spans = {id(box): box.ranges[cut] for box in boxes if cut in box.ranges}
    drawn = seen([box for box in boxes if id(box) in spans and None not in spans[id(box)]])
    across = Scale(min(spans[id(b)][0] for b in drawn), max(spans[id(b)][1] for b in drawn),
                   left, right)
    deepest = max([box.depth for box in boxes] + [1])
    for box in sorted(drawn, key=lambda box: box.goals is not None):
        x, x2 = across(spans[id(box)][0]), across(spans[id(box)][1])
        colour = COLOURS[(box.case - 1) % len(COLOURS)]
        if box.goals is None:
            canvas.box(x, top, x2 - x, height, "#ccc", ' fill-opacity="0.6"')
        elif isinstance(box.goals[number], tuple):
            ends = box.goals[number]
            y = down(greatest if ends[1] is None else ends[1])
            y2 = down(least if ends[0] is None else ends[0])
            canvas.box(x, y, x2 - x, y2 - y, colour,
                       ' fill-opacity="0.55" stroke="%s" stroke-width="0.4"' % colour)
        tall = 14.0 * box.depth / deepest
        if cut is not None:
            canvas.box(x, top + height + 4 + 14 - tall, x2 - x, tall, "#777",
                       ' stroke="white" stroke-width="0.3"')
    for bound in asks:
        canvas.line(left, down(bound), right, down(bound), "#c33", ' stroke-width="1.5"')
        says = "asked " + exact(bound, bound == goal.upper)
        canvas.text(right + 4, down(bound) + 4, says if len(says) < 14 else "asked",
                    more=' fill="#c33"')
    canvas.box(left, top, right - left, height, "none", ' stroke="#888"')
    if least <= 0 <= greatest:
        canvas.line(left, down(Fraction(0)), right, down(Fraction(0)), "#888",
                    ' stroke-dasharray="3 3"')
        canvas.text(left - 6, down(Fraction(0)) + 4, "0", "end")
    for end, y, shown in ((greatest, top + 4, high), (least, top + height + 4, low)):
        if end and (abs(down(Fraction(0)) - y) > 14 or not least <= 0 <= greatest):
            canvas.text(left - 6, y, shown(end), "end")
    below = top + height + 34
    if cut is None:
        for case in sorted({box.case for box in boxes})[::max(1, -(-len(drawn) // 12))]:
            middle = (across(Fraction(case - 1)) + across(Fraction(case))) / 2
            canvas.text(middle, below - 14, "case %d" % case, "middle")
    else:
        canvas.text(left - 6, top + height + 18, "depth", "end", ' fill="#777"')
        canvas.text(left, below, low(across.low))
        canvas.text(right, below, high(across.high), "end")
        canvas.text((left + right) / 2, below, names[cut], "middle")
    canvas.top = below + 14


def shade(share):
    """From light to dark blue."""
    ends = ((236, 242, 250), (8, 48, 107))
    return "#%02x%02x%02x" % tuple(int(a + (b - a) * share) for a, b in zip(*ends))


def chart(canvas, script, number, case, cases, boxes, cuts, names):
    """One goal in one case over two variables."""
    one, two = cuts
    left, top, side = canvas.LEFT, canvas.top + 30, 420
    drawn = seen([b for b in boxes if one in b.ranges and two in b.ranges
                  and None not in b.ranges[one] + b.ranges[two]])
    canvas.text(left, canvas.top + 18, "goal %d%s: |%s|" % (
        number + 1, ", case %d" % case if cases > 1 else "", plain(script.goals[number].says)))
    across = Scale(min(b.ranges[one][0] for b in drawn), max(b.ranges[one][1] for b in drawn),
                   left, left + side)
    down = Scale(min(b.ranges[two][0] for b in drawn), max(b.ranges[two][1] for b in drawn),
                 top + side, top)
    sizes = {id(b): most(b.goals[number]) if b.goals else None for b in drawn}
    known = [size for size in sizes.values() if size is not None] or [Fraction(0)]
    scale = Scale(min(known), max(known), 0.0, 1.0)
    for box in sorted(drawn, key=lambda b: -1 if sizes[id(b)] is None else sizes[id(b)]):
        size = sizes[id(box)]
        x, x2 = across(box.ranges[one][0]), across(box.ranges[one][1])
        y, y2 = down(box.ranges[two][1]), down(box.ranges[two][0])
        canvas.box(x, y, x2 - x, y2 - y, "#e8c4b8" if size is None else shade(scale(size)),
                   ' stroke="white" stroke-width="0.4"')
    canvas.box(left, top, side, side, "none", ' stroke="#888"')
    canvas.text(left, top + side + 18, low(across.low))
    canvas.text(left + side, top + side + 18, high(across.high), "end")
    canvas.text(left + side / 2, top + side + 18, names[one], "middle")
    canvas.text(left - 6, top + side, low(down.low), "end")
    canvas.text(left - 6, top + 10, high(down.high), "end")
    canvas.text(left - 6, top + side / 2, names[two], "end")
    right = left + side + 40
    if min(known) < max(known):
        for k in range(40):
            canvas.box(right, top + 200 - 5 * k, 18, 5.4, shade(k / 39))
        canvas.text(right + 24, top + 205, "at most " + high(min(known)))
    else:
        canvas.box(right, top + 5, 18, 18, shade(0.5))
    canvas.text(right + 24, top + 12, "at most " + high(max(known)))
    if None in sizes.values():
        canvas.box(right, top + 230, 18, 18, "#e8c4b8")
        canvas.text(right + 24, top + 244, "no assignment")
    canvas.top = top + side + 34


def pictured(script, shown, numbers):
    """The SVG of a certificate's goals with these numbers, from 0. `shown` is a Shown."""
    canvas, names = Canvas(), list(script.variables)
    for number in numbers:
        if len(shown.cuts) < 2:
            cut = shown.cuts[0] if shown.cuts else None
            panel(canvas, script, number, shown.boxes, cut, names)
            continue
        for case in range(1, shown.cases + 1):
            boxes = [b for b in shown.boxes if b.case == case]
            chart(canvas, script, number, case, shown.cases, boxes, shown.cuts[:2], names)
    return canvas.svg()
