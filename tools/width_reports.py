"""Pictures of `wordlengths` for a report, by matplotlib: bounds against word lengths, pairs that
are proved, and the widths that a search found beside the uniform one."""

import math

import picture_sheets as sheets
from width_pictures import points_of, title
from width_templates import cost_text


def options_text(words):
    """The options of the command, but for names of files, as small print."""
    found = ["--set " + text for text in words.set]
    for name in ("goal", "rounds", "depth", "boxes", "cost", "seconds"):
        value = getattr(words, name, None)
        if value is not None and (name != "goal" or not words.optimise):
            found.append("--%s %s" % (name, "'%s'" % value if name == "cost" else value))
    for name in ("optimise", "exhaustive"):
        if getattr(words, name):
            found.append("--" + name)
    return "made by tools/wordlengths " + " ".join(found)


def sheet(words, program, height):
    """A figure and its axes, with the small print."""
    pyplot = sheets.ready(words.report)
    figure = pyplot.figure(figsize=(8, height))
    axes = figure.add_axes([0.13, 1.15 / height, 0.72, 1 - 1.75 / height])
    sheets.small_print(figure, height, sheets.of_files("template", words.template,
                                                            program), options_text(words))
    return figure, axes


def done(figure, words):
    from matplotlib import pyplot
    sheets.written(figure, words.report)
    pyplot.close(figure)


def of_table(words, table, ranges, found, program):
    """The picture of a table: of one placeholder, or of two."""
    names = list(ranges)
    if len(names) == 1:
        curve(words, table, names[0], ranges[names[0]], found, program)
    else:
        pairs(words, table, names, ranges, found, program)


def curve(words, table, name, values, least, program):
    """The bound against the word length, on a logarithmic scale."""
    from matplotlib.lines import Line2D
    from matplotlib.ticker import FuncFormatter, MaxNLocator
    points, asks = points_of(table, name, values)
    figure, axes = sheet(words, program, 5)
    axes.plot([v for v, _, _ in points], [y for _, y, _ in points], color="#3366cc", zorder=2)
    for value, y, fine in points:
        axes.plot([value], [y], "o", markersize=6, color="#3366cc", zorder=3,
                  markerfacecolor="#3366cc" if fine else "white")
    for value, y in asks:
        axes.plot([value - 0.5, value + 0.5], [y, y], color=sheets.ASKED, linewidth=1.4, zorder=2.5)
    handles = [
        Line2D([], [], marker="o", color="#3366cc", label="all goals are proved"),
        Line2D([], [], marker="o", color="#3366cc", markerfacecolor="white",
               label="not all goals are proved")]
    if asks:
        bounds = {table.asked(**{name: value}) for value, _ in asks}
        says = sheets.exact(bounds.pop(), True) + " at most" if len(bounds) == 1 else "by " + name
        handles.append(Line2D([], [], color=sheets.ASKED, label="asked: " + says))
    slope(axes, points)
    handles.append(Line2D([], [], color="#999999", linestyle=":", label="half as much a bit"))
    if least is not None:
        axes.axvline(least, color="#2a9d5c", linewidth=1, linestyle="--", zorder=1)
        handles.append(Line2D([], [], color="#2a9d5c", linestyle="--",
                              label="least %s that proves all goals: %d" % (name, least)))
    axes.set_xlim(values[0] - 0.5, values[-1] + 0.5)
    axes.xaxis.set_major_locator(MaxNLocator(integer=True, nbins=16))
    axes.yaxis.set_major_locator(MaxNLocator(integer=True))
    axes.yaxis.set_major_formatter(FuncFormatter(sheets.power))
    axes.grid(color="#e4e4e4", linewidth=0.5)
    axes.set_xlabel("word length %s" % name)
    says = title(table.script(**{name: values[-1]}), table.goal)
    axes.set_ylabel("bound of the absolute value")
    axes.set_title("goal %d: the bound of |%s|" % (table.goal, sheets.plain(says, 60)))
    axes.legend(handles=handles, fontsize=7)
    done(figure, words)


def slope(axes, points):
    """A line along which each bit more halves the bound, through the last point."""
    value, y, _ = points[-1]
    low = points[0][0]
    axes.plot([low, value], [y + (value - low), y], color="#999999", linestyle=":", linewidth=1,
              zorder=1, scaley=False)


def pairs(words, table, names, ranges, front, program):
    """Which pairs are proved, and the pairs at which neither number can be less."""
    from matplotlib.lines import Line2D
    from matplotlib.patches import Patch, Rectangle
    from matplotlib.ticker import MaxNLocator
    first, second = names
    figure, axes = sheet(words, program, 5.6)
    for a in ranges[first]:
        for b in ranges[second]:
            fine = table.at(**{first: a, second: b})[0].status == 0
            axes.add_patch(Rectangle((b - 0.5, a - 0.5), 1, 1, edgecolor="white", linewidth=0.5,
                                     facecolor="#7aa6d8" if fine else "#ececec"))
    for a, b in front or []:
        axes.plot([b], [a], "o", color="#0b3d78", markersize=6)
    axes.set_xlim(ranges[second][0] - 0.5, ranges[second][-1] + 0.5)
    axes.set_ylim(ranges[first][0] - 0.5, ranges[first][-1] + 0.5)
    axes.xaxis.set_major_locator(MaxNLocator(integer=True, nbins=16))
    axes.yaxis.set_major_locator(MaxNLocator(integer=True, nbins=16))
    axes.set_xlabel("word length %s" % second)
    axes.set_ylabel("word length %s" % first)
    axes.set_title("which word lengths prove all goals")
    axes.legend(handles=[
        Patch(color="#7aa6d8", label="proved"), Patch(color="#ececec", label="not proved"),
        Line2D([], [], marker="o", linestyle="none", color="#0b3d78",
               label="neither number can be less")],
        fontsize=7, loc="lower left", bbox_to_anchor=(0, 1.0), ncol=3, frameon=False)
    axes.set_title("which word lengths prove all goals", pad=20)
    done(figure, words)


def of_search(words, search, start, cost, program):
    """The widths that were found, beside the uniform one."""
    from matplotlib.patches import Patch
    from matplotlib.ticker import MaxNLocator
    names, best, even = search.judge.names, search.best, start[1]
    height = max(4.0, 2.4 + 0.26 * len(names))
    figure, axes = sheet(words, program, height)
    places = range(len(names))
    axes.barh(places, best, height=0.6, color="#3366cc", zorder=2)
    for k in places:
        axes.plot([even[k]] * 2, [k - 0.42, k + 0.42], color="#cc7722", linewidth=2, zorder=3)
        axes.annotate(str(best[k]), (best[k], k), xytext=(4 if best[k] >= 0 else -12, 0), zorder=4,
                      textcoords="offset points", va="center", fontsize=8)
    axes.set_yticks(list(places))
    axes.set_yticklabels(["%s%s" % (name, weight(cost, names, best, k))
                          for k, name in enumerate(names)])
    axes.invert_yaxis()
    axes.set_xlim(min(0, min(best + even) - 1), max(best + even) * 1.08 + 1)
    axes.xaxis.set_major_locator(MaxNLocator(integer=True, nbins=16))
    axes.grid(axis="x", color="#e4e4e4", linewidth=0.5)
    axes.set_xlabel("word length")
    axes.set_ylabel("placeholder")
    price, uniform = cost(best), cost(even)
    axes.set_title("cost %s: %s found, %s uniform%s" % (
        sheets.plain(cost.text, 50), cost_text(price), cost_text(uniform),
        "\nno bit less of any one is proved" if ended(search) else ""))
    axes.legend(handles=[Patch(color="#3366cc", label="found"),
                         Patch(color="#cc7722", label="uniform: %d" % start[0])],
                fontsize=7, loc="upper left", bbox_to_anchor=(1.01, 1), frameon=False)
    done(figure, words)


def ended(search):
    """Whether of each placeholder one bit less was tried at the point found, and isn't proved."""
    return all(new is None or word in ("unproved", "limit")
               for _, new, word in search.lower(search.best))


def weight(cost, names, point, place):
    """What one bit more costs, in words."""
    more = list(point)
    more[place] += 1
    step = cost(tuple(more)) - cost(point)
    return "" if math.isclose(float(step), 1) else " (%s a bit)" % cost_text(step)
