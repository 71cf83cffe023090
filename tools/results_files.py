"""The files of a report: JSON, JUnit XML and one page of HTML.

A report is the dictionary of results_model. Each `.._bytes(report, ..)` gives the bytes of a file;
`write_all` writes several, or none of them.
"""

import json
import os
import stat
import tempfile
import xml.etree.ElementTree as xml

import assistants as shared
import results_model as model

NEEDED = "--html needs Jinja2: apt-get install python3-jinja2"


def json_bytes(report):
    """The report as JSON: ASCII, two spaces a level, the keys in a fixed order."""
    return json.dumps(report, indent=2).encode() + b"\n"


def interval_text(interval):
    """An interval as the program or the script writes it; `?` of None, and words as they are."""
    if interval is None or isinstance(interval, str):
        return interval or "?"
    ends = [it if isinstance(it, str) else it["text"] for it in ends_of(interval)]
    return "[%s, %s]" % tuple(ends)


def decimals_text(interval):
    """An interval in decimals, rounded outward; `=` stands before an exact end."""
    if interval is None or isinstance(interval, str):
        return ""
    ends = []
    for it in ends_of(interval):
        mark = "=" if isinstance(it, dict) and it["direction"] == "exact" else ""
        ends.append(it if isinstance(it, str) else mark + it["decimal"])
    return "[%s, %s]" % tuple(ends)


def ends_of(interval):
    return interval["low"], interval["high"]


def goal_text(goal):
    """A goal with what it asks for, as in `y - My in [-1b-3, 1b-3]`."""
    return "%s %s" % (goal["text"], goal["ask"]) if goal["ask"] else goal["text"]


def what_failed(script, allow_assumed):
    """Why a script counts as failed, in one line; None where it doesn't."""
    if script["status"]:
        return "; ".join(script["lines"]) or "status %d: %s" % (script["status"], script["word"])
    if script["assumed"] and not allow_assumed:
        return ", ".join(said_of(hint) for hint in script["assumed"])
    return None


def said_of(hint):
    return "hint %d is assumed%s" % (hint["number"], ": " + hint["text"] if hint["text"] else "")


# ---- JUnit

def plain(text):
    """Text without the characters that XML can't hold; they are shown as \\xNN."""
    return "".join(it if it in "\t\n" or " " <= it < "\ud800" or "\ue000" <= it < "\ufffe" or
                   it > "\uffff" else "\\x%02x" % ord(it) for it in text)


def junit_case(suite, name, script, kind=None, says="", more=""):
    """Adds a test to a suite; kind is failure, error or skipped, or None where it passed."""
    case = xml.SubElement(suite, "testcase", classname=plain(script["name"]), name=plain(name))
    if kind:
        inner = xml.SubElement(case, kind, message=plain(says))
        if kind != "skipped":
            inner.set("type", script["word"])
            inner.text = plain(more or says)
    elif more:
        xml.SubElement(case, "system-out").text = plain(more)
    return kind or "passed"


def junit_suite(root, script, allow_assumed):
    """Adds a script's suite: a test for each goal, and one for an answer that isn't of goals."""
    suite, kinds = xml.SubElement(root, "testsuite", name=plain(script["name"])), []
    if script["status"] not in (0, 1):
        says = what_failed(script, allow_assumed)
        kinds.append(junit_case(suite, "answer", script, "error", says))
    elif not script["goals"]:
        says = what_failed(script, allow_assumed)
        kinds.append(junit_case(suite, "answer", script, says and "failure", says or ""))
    for goal in script["goals"]:
        name = "goal %d: %s" % (goal["number"], goal_text(goal))
        more = "asked: %s\nfound: %s" % (goal["ask"] or "not known", interval_text(goal["found"]))
        if goal["found"] is not None:
            more += "  # %s" % decimals_text(goal["found"]) if decimals_text(goal["found"]) else ""
        if goal["outcome"] == "open":
            says = script["lines"][0]
            more = "%s\nasked: %s" % (says, goal["ask"])
            kinds.append(junit_case(suite, name, script, "failure", says, more))
        elif goal["outcome"] == "unknown":
            says = "nothing is said of this goal"
            kinds.append(junit_case(suite, name, script, "skipped", says))
        elif goal["outcome"] == "assumed" and not allow_assumed:
            says = what_failed(script, allow_assumed)
            kinds.append(junit_case(suite, name, script, "failure", says, says + "\n" + more))
        else:
            hints = "".join("\n" + said_of(hint) for hint in script["assumed"])
            kinds.append(junit_case(suite, name, script, None, "", more + hints))
    counts = {"tests": len(kinds), "failures": kinds.count("failure"),
              "errors": kinds.count("error"), "skipped": kinds.count("skipped")}
    for key, count in counts.items():
        suite.set(key, str(count))
    return counts


def junit_bytes(report, seconds=None):
    """The report as JUnit XML: a suite for each script, a test for each goal.

    `seconds` is how long the run took, where that is known."""
    root = xml.Element("testsuites", name="fixprove " + report["command"])
    if seconds is not None:
        root.set("time", "%.3f" % seconds)
    totals = {}
    for script in report["scripts"]:
        for key, count in junit_suite(root, script, report["allow_assumed"]).items():
            totals[key] = totals.get(key, 0) + count
    for key, count in totals.items():
        root.set(key, str(count))
    return xml.tostring(root, "utf-8", xml_declaration=True) + b"\n"


# ---- HTML

PAGE = """<!doctype html>
<html lang="en">
<meta charset="utf-8">
<title>fixprove {{ report.command }}: {{ summary }}</title>
<style>
body { font: 15px/1.4 sans-serif; margin: 2em auto; max-width: 75em; padding: 0 1em; color: #222 }
table { border-collapse: collapse; margin: 0.6em 0 }
td, th { border: 1px solid #bbb; padding: 0.25em 0.6em; text-align: left; vertical-align: top }
th { background: #f0f0f0 }
code, pre, td.n { font-family: monospace; font-size: 13px; overflow-wrap: anywhere }
pre { background: #f6f6f6; padding: 0.6em; overflow: auto }
.good { background: #e2f3e2 } .bad { background: #fbe0dc } .none { background: #f2f2f2 }
h2 { margin-top: 1.6em; overflow-wrap: anywhere }
</style>
<h1>fixprove {{ report.command }}: {{ summary }}</h1>
<table>
<tr><th>status<td>{{ report.status }}{% if report.exit != report.status %}, counted as
 {{ report.exit }}: an assumed hint is a failure{% endif %}
<tr><th>options<td class="n">{% for name, value in report.options.items() %}--{{ name }} {{ value }}
 {% else %}none{% endfor %}
<tr><th>version<td class="n">{{ report.program.version or "not known" }}
<tr><th>program, SHA-256<td class="n">{{ report.program.sha256 }}
<tr><th>program proved<td>{% if report.program.proved %}yes, with {{ report.program.kit }}
{%- else %}not known{% endif %}
</table>
{% if report.scripts|length > 1 %}
<table>
<tr><th>script<th>status<th>
{% for script in report.scripts %}<tr class="{{ 'bad' if failed(script) else 'good' }}">
<td class="n"><a href="#s{{ loop.index }}">{{ script.name }}</a>
<td>{{ script.status }} {{ script.word }}<td class="n">{{ failed(script) or "" }}
{% endfor %}</table>
{% endif %}
{% for script in report.scripts %}
<h2 id="s{{ loop.index }}">{{ script.name }}: {{ script.word }}</h2>
<p>SHA-256 <code>{{ script.sha256 or "not read" }}</code>
{% if script.certificate %}<br>certificate <code>{{ script.certificate.name }}</code>, SHA-256
<code>{{ script.certificate.sha256 or "none" }}</code>{% endif %}</p>
{% if failed(script) %}<p class="bad">{{ failed(script) }}</p>{% endif %}
{% if script.goals %}<table>
<tr><th>goal<th>expression<th>asked<th>found, exactly<th>in decimals, rounded outward<th>
{% for goal in script.goals %}<tr class="{{ colour(goal) }}"><td>{{ goal.number }}
<td class="n">{{ goal.text }}<td class="n">{{ goal.ask or "not known" }}
<td class="n">{% if goal.found is not none %}{{ interval(goal.found) }}{% endif %}
<td class="n">{% if goal.found is not none %}{{ decimals(goal.found) }}{% endif %}
<td>{{ goal.outcome if goal.outcome != "unknown" else "nothing is said" }}
{% endfor %}</table>{% endif %}
{% for hint in script.assumed %}<p class="{{ 'good' if report.allow_assumed else 'bad' }}">
Hint {{ hint.number }} is assumed, one more hypothesis: <code>{{ hint.text or "" }}</code></p>
{% endfor %}
{% if script.open and script.open.box %}<p>The first open box of goal {{ script.open.goal }}
{%- if script.open.case %}, case {{ script.open.case }}{% endif %}:</p>
<table><tr><th>variable<th>exactly<th>in decimals, rounded outward
{% for name, range in script.open.box.items() %}<tr><td class="n">{{ name }}
<td class="n">{{ interval(range) }}<td class="n">{{ decimals(range) }}
{% endfor %}</table>{% endif %}
{% if texts[loop.index0] %}<details><summary>script</summary>
<pre>{{ texts[loop.index0] }}</pre></details>{% endif %}
{% endfor %}
</html>
"""


def template():
    """The page's template; a Fault where Jinja2 isn't installed."""
    try:
        import jinja2
    except ImportError:
        raise shared.Fault(NEEDED)
    made = jinja2.Environment(autoescape=True, undefined=jinja2.StrictUndefined, trim_blocks=True)
    return made.from_string(PAGE)


def summary_of(report):
    """How many scripts pass, in a few words, and how many of these by assumed hints."""
    good = sum(1 for it in report["scripts"] if not model.exit_of(it, report["allow_assumed"]))
    if len(report["scripts"]) == 1:
        return "%s, %s" % (report["scripts"][0]["name"], report["scripts"][0]["word"])
    assumed = sum(1 for it in report["scripts"] if it["assumed"]) if report["allow_assumed"] else 0
    more = ", %d of them by hints that are assumed" % assumed if assumed else ""
    return "%d of %d scripts pass%s" % (good, len(report["scripts"]), more)


def html_bytes(report, texts):
    """The report as one page. `texts` has each script's text, or None where none is to be shown."""
    good = ("proved", "assumed") if report["allow_assumed"] else ("proved",)

    def colour(goal):
        word = goal["outcome"]
        return "good" if word in good else "none" if word == "unknown" else "bad"

    scripts = [dict(it, certificate=it.get("certificate")) for it in report["scripts"]]
    made = template().render(
        report=dict(report, scripts=scripts), texts=texts, summary=summary_of(report),
        colour=colour, failed=lambda it: what_failed(it, report["allow_assumed"]),
        interval=interval_text, decimals=decimals_text)
    return made.encode("utf-8", "backslashreplace") + b"\n"


# ---- files

def check_names(outputs, inputs):
    """A Fault where an output can't be written, is written twice, or is one of the inputs."""
    seen = [os.path.realpath(it) for it in inputs]
    for name in outputs:
        path = os.path.realpath(name)
        folder = os.path.dirname(path)
        if path in seen:
            raise shared.Fault("%s is read or written already" % name)
        if os.path.isdir(path):
            raise shared.Fault("%s is a folder" % name)
        if not os.path.isdir(folder) or not os.access(folder, os.W_OK):
            raise shared.Fault("%s: its folder isn't there, or can't be written" % name)
        seen.append(path)


def write_all(files):
    """Writes {name: bytes}: each file whole or not at all, and none where one can't be made."""
    staged = []
    try:
        for name, data in files.items():
            path = os.path.realpath(name)
            if os.path.exists(path) and not stat.S_ISREG(os.stat(path).st_mode):
                staged.append((None, path, data))   # a device or a pipe, say
                continue
            handle, new = tempfile.mkstemp(prefix=".fixprove-", dir=os.path.dirname(path))
            staged.append((new, path, data))
            with os.fdopen(handle, "wb") as file:
                file.write(data)
            mode = stat.S_IMODE(os.stat(path).st_mode) if os.path.exists(path) else None
            umask = os.umask(0)
            os.umask(umask)
            os.chmod(new, 0o666 & ~umask if mode is None else mode)
        for new, path, data in staged:
            if new is None:
                with open(path, "wb") as file:
                    file.write(data)
            else:
                os.replace(new, path)
    except OSError as error:
        for new, _, _ in staged:
            if new is not None and os.path.exists(new):
                os.unlink(new)
        raise shared.Fault("%s: %s" % (error.filename, error.strerror))
