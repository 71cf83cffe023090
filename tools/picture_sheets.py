"""Pictures for a report by matplotlib: where they are written, their small print, their labels.

`picture` and `wordlengths` share it. Numbers in labels are rounded to the safe side: an upper end
up, a lower end down.
"""

import hashlib
import io
import os
import sys
import textwrap

import assistants as shared
from script_text import ROUND_CEILING, ROUND_FLOOR

try:
    import about
except ImportError:
    about = None

KINDS = ("svg", "pdf", "png")
ASKED, WORST, ON_MAP, NONE = "#c03030", "#000000", "#e07000", "#d9d9d9"


def ready(name):
    """matplotlib's pyplot, for a file of this name. A Fault, before anything is done, if the name
    has another ending than .svg, .pdf or .png, or if this Python has no matplotlib."""
    if os.path.splitext(name)[1].lower().lstrip(".") not in KINDS:
        raise shared.Fault("--report %s: the name ends with .svg, .pdf or .png" % name)
    try:
        import matplotlib
        matplotlib.use("Agg")
        from matplotlib import pyplot
    except ImportError:
        raise shared.Fault("--report needs matplotlib, which %s hasn't (apt-get install "
                           "python3-matplotlib, or pip install matplotlib)" % sys.executable)
    pyplot.rcParams.update({
        "font.size": 9, "axes.titlesize": 9, "axes.titlelocation": "left",
        "svg.hashsalt": "fixprove", "pdf.fonttype": 42, "axes.formatter.useoffset": False,
        "axes.axisbelow": True})
    return pyplot


def written(figure, name):
    """Writes a figure at once, so that a file is never half written; it holds no time of day."""
    kind = os.path.splitext(name)[1].lower().lstrip(".")
    data = io.BytesIO()
    about = {"svg": {"Date": None}, "pdf": {"CreationDate": None}}.get(kind)
    figure.savefig(data, format=kind, dpi=160, metadata=about)
    try:
        with open(name, "wb") as file:
            file.write(data.getvalue())
    except OSError as error:
        raise shared.Fault("%s: %s" % (name, error.strerror))


def digest(data):
    """The first 12 digits of the SHA-256 of some bytes."""
    return hashlib.sha256(data).hexdigest()[:12]


def small_print(figure, height, *parts):
    """The small print below a figure that is so many inches high."""
    text = "\n".join(line for part in parts for line in textwrap.wrap(part, 150))
    figure.text(0.012, 0.06 / height, text.replace("$", r"\$"), fontsize=6, color="#444444",
                va="bottom")


def of_files(kind, script, program):
    """The small print of a file (its kind: script, or template) and the program's: their names,
    beginnings of their SHA-256, and the version if it is known."""
    version = about.facts(program.path).get("version") if about else None
    return "%s %s, sha256 %s..; program %s, sha256 %s..%s" % (
        kind, os.path.basename(script), digest(shared.read_bytes(script)),
        os.path.basename(program.path), digest(shared.read_bytes(program.path)),
        ", version %s" % version if version else "")


def plain(text, most=84):
    """A text as a label: in one line, cut where it is too long, and without mathematics."""
    text = " ".join(text.split())
    return (text if len(text) <= most else text[:most - 3] + "...").replace("$", r"\$")


def high(end, digits=4):
    """An upper end in decimals, not below it."""
    return "+inf" if end is None else shared.decimal(end, digits, ROUND_CEILING)


def low(end, digits=4):
    """A lower end in decimals, not above it."""
    return "-inf" if end is None else shared.decimal(end, digits, ROUND_FLOOR)


def exact(bound, up):
    """A bound that is asked: exactly in up to 12 digits, or with .. after digits rounded inward."""
    if bound is None:
        return ""
    digits = next((d for d in range(1, 13) if shared.decimal(bound, d, ROUND_FLOOR)
                   == shared.decimal(bound, d, ROUND_CEILING)), None)
    if digits is not None:
        return shared.decimal(bound, digits)
    return shared.decimal(bound, 8, ROUND_FLOOR if up else ROUND_CEILING) + ".."


def power(exponent, _=None):
    """A tick of a logarithmic scale."""
    return "$2^{%d}$" % exponent if exponent == int(exponent) else ""
