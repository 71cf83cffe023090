"""Pictures of a certificate for a report, by matplotlib.

With at most one cut variable each goal has a panel of bars, with more a map of each case. Positions
are drawn as floats; numbers in labels are rounded to the safe side.
"""

from fractions import Fraction

import assistants as shared
import picture_sheets as sheets
from picture_plain import frame
from picture_reader import finite, most, worst

MOST = 24       # panels or maps in a picture
LEGEND = 12     # cases in a legend


def colours(cases):
    """A colour for each case."""
    from matplotlib import colormaps
    if cases <= 10:
        return [colormaps["tab10"](k) for k in range(cases)]
    if cases <= 20:
        return [colormaps["tab20"](k) for k in range(cases)]
    return [colormaps["turbo"](0.05 + 0.9 * k / (cases - 1)) for k in range(cases)]


def case_words(script, case):
    """A case in words: the conjunctions by which it differs from the others."""
    number, found = case - 1, []
    for part in reversed(script.parts):
        number, place = divmod(number, len(part))
        if len(part) > 1:
            found.insert(0, " /\\ ".join(claim.text for claim in part[place]))
    return sheets.plain("case %d: %s" % (case, "; ".join(found)), 120)


def place_words(script, box, cut):
    """Where a box lies, in words."""
    names = list(script.variables)
    found = ["%s in [%s, %s]" % (names[v], sheets.low(box.ranges[v][0]),
                                 sheets.high(box.ranges[v][1])) for v in cut if v in box.ranges]
    return ", ".join(found)


def limits(axes, least, greatest, margin=0.08):
    """Sets the limits of the axis of values with a margin."""
    wide = float(greatest - least) or abs(float(greatest)) * 0.2 or 1.0
    axes.set_ylim(float(least) - margin * wide, float(greatest) + margin * wide)


def bars(axes, below, script, number, shown, paint):
    """One goal over one variable, or over the cases; `below` are the axes of the depth, or None."""
    from matplotlib.patches import Rectangle
    goal, cut = script.goals[number], shown.cuts[0] if shown.cuts else None
    least, greatest, asks = frame(goal, number, shown.boxes)
    limits(axes, least, greatest)
    floor, roof = axes.get_ylim()
    thin, drawn = (roof - floor) / 400, []
    for box in sorted(shown.boxes, key=lambda box: box.goals is not None):
        if cut is None:
            span = (box.case - 0.35, box.case + 0.35)
        elif cut in box.ranges and None not in box.ranges[cut]:
            span = tuple(map(float, box.ranges[cut]))
        else:
            continue
        drawn.append((box, span))
        colour = paint[box.case - 1]
        if below is not None and box.depth:
            below.add_patch(Rectangle((span[0], 0), span[1] - span[0], box.depth, linewidth=0.3,
                                      facecolor="#777777", edgecolor="white"))
        if box.goals is None:
            axes.add_patch(Rectangle((span[0], floor), span[1] - span[0], roof - floor, zorder=1,
                                     facecolor=sheets.NONE, edgecolor="#999999", hatch="////",
                                     linewidth=0.3))
        elif isinstance(box.goals[number], tuple):
            low, high = box.goals[number]
            low = floor if low is None else float(low)
            high = roof if high is None else float(high)
            if high - low < thin:
                # what is too thin to be seen is a line, above those of the bounds
                axes.plot(span, [(low + high) / 2] * 2, color=colour, linewidth=2.4, zorder=4.5,
                          solid_capstyle="butt")
                continue
            axes.add_patch(Rectangle((span[0], low), span[1] - span[0], high - low, zorder=2,
                                     facecolor=colour, edgecolor=colour, alpha=0.6, linewidth=0.5))
    if not drawn:
        raise shared.Fault("no box has a finite range")
    left, right = min(s[0] for _, s in drawn), max(s[1] for _, s in drawn)
    axes.set_xlim(left, right) if cut is not None else axes.set_xlim(left - 0.3, right + 0.3)
    mark_worst(axes, goal, number, drawn, (floor, roof))
    close = len(asks) == 2 and float(asks[1] - asks[0]) < 0.05 * (roof - floor)
    for bound in asks:
        axes.axhline(float(bound), color=sheets.ASKED, linewidth=1.2, zorder=4)
        side = "center" if not close else "bottom" if bound == goal.upper else "top"
        axes.annotate("asked " + sheets.exact(bound, bound == goal.upper), (1, float(bound)),
                      xycoords=("axes fraction", "data"), xytext=(4, 0), va=side,
                      textcoords="offset points", fontsize=7, color=sheets.ASKED,
                      annotation_clip=False)
    if least <= 0 <= greatest:
        axes.axhline(0, color="#888888", linewidth=0.6, linestyle=(0, (4, 3)), zorder=1.5)
    axes.grid(axis="y", color="#e4e4e4", linewidth=0.5)
    axes.set_ylabel(sheets.plain(goal.says, 30))
    title(axes, script, number, shown, asks)
    if cut is None:
        cases = sorted({box.case for box in shown.boxes})
        axes.set_xticks(cases if len(cases) <= 20 else cases[::len(cases) // 16])
        axes.set_xlabel("case" if len(cases) > 1 else "the whole box (nothing is cut)")
        if len(cases) == 1:
            axes.set_xticks([])
    else:
        name = list(script.variables)[cut]
        (below or axes).set_xlabel(name)
    if below is not None:
        deepest = max(box.depth for box in shown.boxes)
        below.set_ylim(0, deepest + 0.5)
        below.set_yticks(sorted({0, deepest // 2, deepest}))
        below.set_ylabel("cuts")
        axes.tick_params(labelbottom=False)


def mark_worst(axes, goal, number, drawn, ends):
    """Frames the worst box of a panel."""
    from matplotlib.patches import Rectangle
    box = worst(goal, number, [box for box, _ in drawn])
    if box is None or len(drawn) == 1:
        return
    span = next(span for other, span in drawn if other is box)
    low, high = box.goals[number]
    low, high = ends[0] if low is None else float(low), ends[1] if high is None else float(high)
    thin = (ends[1] - ends[0]) / 60
    if high - low < thin:
        low, high = (low + high - thin) / 2, (low + high + thin) / 2
    axes.add_patch(Rectangle((span[0], low), span[1] - span[0], high - low, zorder=5, fill=False,
                             edgecolor=sheets.WORST, linewidth=1.4))


def title(axes, script, number, shown, asks):
    """The title: the goal, what was found, and the bounds that are outside of the panel."""
    goal = script.goals[number]
    intervals = [box.goals[number] for box in shown.boxes
                 if box.goals and isinstance(box.goals[number], tuple)]
    says = "goal %d: %s" % (number + 1, sheets.plain(goal.text))
    if intervals:
        lows, highs = [i[0] for i in intervals], [i[1] for i in intervals]
        says += "\nfound: [%s, %s]" % (
            sheets.low(None if None in lows else min(lows), 6),
            sheets.high(None if None in highs else max(highs), 6))
    bounds = [bound for bound in (goal.lower, goal.upper) if bound is not None]
    outside = [bound for bound in bounds if bound not in asks]
    if outside:
        says += "; asked, outside of the panel: %s" % ", ".join(
            sheets.exact(bound, bound == goal.upper) for bound in outside)
    axes.set_title(says)


def legend(figure, height, script, shown, paint, maps):
    """The legend: cases, boxes without an assignment, the worst box, the bounds."""
    from matplotlib.lines import Line2D
    from matplotlib.patches import Patch
    handles = []
    if not maps:
        cases = sorted({box.case for box in shown.boxes if box.goals})
        if shown.cases == 1:
            handles.append(Patch(facecolor=paint[0], alpha=0.6, label="interval in a box"))
        else:
            handles += [Patch(facecolor=paint[case - 1], alpha=0.6, label=case_words(script, case))
                        for case in cases[:LEGEND]]
            if len(cases) > LEGEND:
                handles.append(Line2D([], [], linestyle="none",
                                      label="and %d cases more" % (len(cases) - LEGEND)))
    empty = sum(1 for box in shown.boxes if box.goals is None)
    if empty:
        handles.append(Patch(facecolor=sheets.NONE, edgecolor="#999999", hatch="////",
                             label="no assignment (%d of %d boxes)" % (empty, len(shown.boxes))))
    if len(shown.boxes) > 1:
        handles.append(Patch(facecolor="none", edgecolor=sheets.ON_MAP if maps else sheets.WORST,
                             linewidth=1.4, label="worst box (closest to a bound, or greatest)"))
    if not maps and any(not goal.ask for goal in script.goals):
        handles.append(Line2D([], [], color=sheets.ASKED, label="bound that is asked"))
    figure.legend(handles=handles, loc="lower left", bbox_to_anchor=(0.012, 0.42 / height),
                  ncol=4 if shown.cases == 1 or maps else 1, fontsize=7,
                  frameon=False, borderaxespad=0)
    return len(handles)


def chart(figure, axes, script, number, case, shown):
    """One goal in one case over the two variables with the most cuts."""
    from matplotlib import cm, colors
    from matplotlib.patches import Rectangle
    goal, (one, two) = script.goals[number], shown.cuts[:2]
    boxes = [b for b in shown.boxes if b.case == case and one in b.ranges and two in b.ranges
             and None not in b.ranges[one] + b.ranges[two]]
    if not boxes:
        raise shared.Fault("no box has a finite range")
    known = [most(b.goals[number]) for b in boxes if b.goals]
    bounds = [max(abs(goal.lower), abs(goal.upper))] if goal.kind in ("in", "rel") \
        and not goal.ask else []
    roof = float(max(known or [Fraction(1)])) or 1.0
    if bounds and roof < float(max(bounds)) <= 4 * roof:
        roof = float(max(bounds))
    scale = cm.ScalarMappable(colors.Normalize(0, roof), "Blues")

    def corner(box):
        (x, x2), (y, y2) = box.ranges[one], box.ranges[two]
        return (float(x), float(y)), float(x2 - x), float(y2 - y)
    for box in sorted(boxes, key=lambda b: most(b.goals[number]) if b.goals else -1):
        where, width, height = corner(box)
        if box.goals is None:
            axes.add_patch(Rectangle(where, width, height, facecolor=sheets.NONE, zorder=1,
                                     edgecolor="#999999", hatch="////", linewidth=0.3))
            continue
        axes.add_patch(Rectangle(where, width, height, edgecolor="white", linewidth=0.3, zorder=2,
                                 facecolor=scale.to_rgba(float(most(box.goals[number])))))
    box, where = worst(goal, number, boxes), ""
    if box is not None:
        axes.add_patch(Rectangle(*corner(box), fill=False, edgecolor=sheets.ON_MAP, linewidth=2,
                                 zorder=3))
        interval = box.goals[number]
        where = "\nworst: [%s, %s] at %s" % (
            sheets.low(interval[0], 5), sheets.high(interval[1], 5),
            place_words(script, box, shown.cuts))
        if len(where) > 84:
            where = where.replace(" at ", "\n  at ")
    axes.set_xlim(float(min(b.ranges[one][0] for b in boxes)),
                  float(max(b.ranges[one][1] for b in boxes)))
    axes.set_ylim(float(min(b.ranges[two][0] for b in boxes)),
                  float(max(b.ranges[two][1] for b in boxes)))
    names = list(script.variables)
    axes.set_xlabel(names[one])
    axes.set_ylabel(names[two])
    head = "goal %d: %s" % (number + 1, sheets.plain(goal.text, 70))
    if shown.cases > 1:
        head += "\n" + case_words(script, case)
    axes.set_title(head + where)
    bar = figure.colorbar(scale, ax=axes, fraction=0.05, pad=0.03)
    everywhere = known and all(finite(b.goals[number]) for b in boxes if b.goals)
    bar.set_label("absolute value is at most (%s)" % (
        "everywhere %s" % sheets.high(max(known), 4) if everywhere else "not finite everywhere"))
    for bound in bounds:
        if float(bound) <= roof:
            bar.ax.axhline(float(bound), color=sheets.ASKED, linewidth=1.5)
            bar.ax.annotate("asked " + sheets.exact(bound, True), (1, float(bound)),
                            xycoords=("axes fraction", "data"), xytext=(2, 3), fontsize=6,
                            textcoords="offset points", color=sheets.ASKED, annotation_clip=False)


def pictured(words, script, shown, numbers, answer, program):
    """Writes the picture of the goals with these numbers, from 0, to the file `words.report`."""
    pyplot = sheets.ready(words.report)
    maps = len(shown.cuts) > 1
    panels = len(numbers) * (shown.cases if maps else 1)
    if panels > MOST:
        raise shared.Fault("--report: that are %d panels, and at most %d are drawn (--goal chooses "
                           "one)" % (panels, MOST))
    deep = not maps and bool(shown.cuts)
    paint = colours(shown.cases)
    lines = 2 if shown.cases == 1 or maps else min(shown.cases, LEGEND) + 4
    rows = 0.18 * lines + 0.25
    each = 4.6 if maps else 3.1
    height = each * panels + rows
    figure = pyplot.figure(figsize=(8, height))
    legend(figure, height, script, shown, paint, maps)
    for k in range(panels):
        top, base = 1 - (each * k + 0.55) / height, 1 - (each * (k + 1) - 0.5) / height
        if maps:
            axes = figure.add_axes([0.11, base, 0.78, top - base - 0.25 / height])
            chart(figure, axes, script, numbers[k // shown.cases], k % shown.cases + 1, shown)
            continue
        share = 0.16 if deep else 0
        tall = top - base
        axes = figure.add_axes([0.13, base + share * tall, 0.72, (1 - share) * tall])
        below = None
        if deep:
            below = figure.add_axes([0.13, base, 0.72, (share - 0.03) * tall], sharex=axes)
        bars(axes, below, script, numbers[k], shown, paint)
    sheets.small_print(
        figure, height, sheets.of_files("script", words.script, program),
        "certificate version %d, accepted by check; %d boxes, at most %d cuts deep%s; made by "
        "tools/picture%s" % (shown.version, len(shown.boxes), max(b.depth for b in shown.boxes),
                             "" if not maps or len(shown.cuts) == 2 else
                             ", over further variables the worst of each place",
                             "" if words.goal is None else " --goal %d" % words.goal))
    sheets.written(figure, words.report)
    pyplot.close(figure)
