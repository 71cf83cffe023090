#!/usr/bin/env python3
"""Makes the manual pages: docs/man/man1/NAME.1 from docs/man/NAME.1.md.

    python3 tools/man.py            writes the options of each page anew, and makes the pages
    python3 tools/man.py --check    prints what isn't in order, with status 1; needs no pandoc

In a page of Markdown what stands between the lines `<!-- options -->` and `<!-- end -->` is made of
what the command prints for --help. A command without a page gets one, of the text at the beginning
of its file; what is written there by hand stays later. The pages themselves are made by pandoc
(apt-get install pandoc), and committed, so that nobody needs it to install them. Each has the
SHA-256 of its Markdown in its first line. A page is in order if each option of its command stands
there, and if it is made of its Markdown as that is. Errors: one line on standard error, status 2.
"""
import ast
import hashlib
import os
import re
import subprocess
import sys

sys.dont_write_bytecode = True
import about  # noqa: E402

PAGES = os.path.join(about.TOP, "docs", "man")
BEGIN, END = "<!-- options -->\n", "<!-- end -->\n"
OPTION = re.compile(r"(?<![\w-])(?:--[a-z][a-z-]*|-[a-zA-Z]\b)")
MARK = '.\\" made by tools/man.py of Markdown with SHA-256 '
NEW = """% {upper}(1) | fixprove

# NAME

{name} - {does}

# SYNOPSIS

{usage}

# DESCRIPTION

{about}

# OPTIONS

{begin}{end}
# SEE ALSO

**fixprove**(1)
"""


def commands():
    """(the command on the path, its words here, what it does) of each, `fixprove` first."""
    found = [("fixprove", [os.path.join(about.TOP, "fixprove")], "")]
    for name, does, _ in about.commands():
        words = [sys.executable, "-B", os.path.join(about.TOOLS, name)]
        found.append((about.named(name), words, does))
    return found


def help_of(words):
    """What a command prints for --help, without line breaks in options; ValueError if it fails."""
    done = subprocess.run([*words, "--help"], env=dict(os.environ, COLUMNS="2000"), check=False,
                          stdin=subprocess.DEVNULL, stdout=subprocess.PIPE, stderr=subprocess.PIPE)
    if done.returncode or done.stderr or not done.stdout:
        raise ValueError("%s --help: status %d" % (words[-1], done.returncode))
    return done.stdout.decode()


def escaped(text):
    """Text as Markdown, but for what stands between backquotes."""
    parts = text.split("`")
    parts[::2] = [re.sub(r"([\\*_<>\[\]~^$|#])", r"\\\1", it) for it in parts[::2]]
    return "`".join(parts)


def folded(text, first="", rest=""):
    """Text in lines of at most 98 columns; a code span stays in one line."""
    lines, line = [], first
    for word in re.findall(r"(?:`[^`]*`|[^\s`])+", text):
        if len(line) + len(word) > 97 and line.strip():
            lines.append(line.rstrip())
            line = rest
        line += word + " "
    return "\n".join(lines + [line.rstrip()])


def options_of(text):
    """The options of an argparse help as a definition list in Markdown; empty where it has none."""
    part = re.search(r"^(?:options|optional arguments):\n((?: .*\n?)+)", text, re.M)
    found = []
    for line in part[1].splitlines() if part else []:
        words, _, says = line.strip().partition("  ")
        names = re.sub(r"(--?[a-zA-Z-]+) ([^,]+)", r"\1` *\2*`", words)
        names = "`" + names.replace(", ", "`, `") + "`"
        says = says.strip()
        found.append(names.replace("``", "") + "\n" + folded(escaped(says), ":   ", "    ") + "\n")
    return "\n".join(found)


def on_the_path(text):
    """Text with tools/NAME named as it is after an installation."""
    for tool, _, _ in about.commands():
        text = re.sub(r"\btools/%s\b" % tool, about.named(tool), text)
    return text


def skeleton(name, words, does):
    """A page for a command that has none, of what stands at the beginning of its file."""
    said = on_the_path(ast.get_docstring(ast.parse(read(words[-1]))) or does)
    usage, rest = [], []
    for part in said.split("\n\n"):
        if part.startswith("    " + name) and not usage:
            usage.append(part)
        else:
            rest.append(part if part.startswith("    ") else folded(escaped(part)))
    return NEW.format(upper=name.upper(), name=name, does=does, begin=BEGIN, end=END,
                      usage="\n".join(usage) or "**%s** *WORD*..." % name,
                      about="\n\n".join(rest))


def read(path):
    with open(path, encoding="utf-8") as file:
        return file.read()


def write(path, text):
    with open(path + ".new", "w", encoding="utf-8") as file:
        file.write(text)
    os.replace(path + ".new", path)


def page_of(name):
    return os.path.join(PAGES, name + ".1.md"), os.path.join(PAGES, "man1", name + ".1")


def sum_of(text):
    return hashlib.sha256(text.encode()).hexdigest()


def make(name, words, does):
    """Brings a page up to date, and makes it."""
    source, made = page_of(name)
    printed = help_of(words)
    text = read(source) if os.path.exists(source) else skeleton(name, words, does)
    if BEGIN in text and END in text:
        front, _, rest = text.partition(BEGIN)
        text = (front + BEGIN + "\n" + options_of(on_the_path(printed)) + "\n" + END
                + rest.partition(END)[2])
    write(source, text)
    done = subprocess.run(["pandoc", "-s", "-f", "markdown-smart", "-t", "man"], check=False,
                          input=text.encode(), stdout=subprocess.PIPE)
    if done.returncode:
        raise ValueError("pandoc ends with %d on %s" % (done.returncode, source))
    write(made, MARK + sum_of(text) + "\n" + done.stdout.decode())


def faults(name, printed, does):
    """What isn't in order with a command's page, in lines; `printed` is what it says for --help."""
    source, made = page_of(name)
    if not os.path.exists(source) or not os.path.exists(made):
        return ["%s has no page: python3 tools/man.py makes one" % name]
    text, page = read(source), read(made)
    found = []
    if page.split("\n", 1)[0] != MARK + sum_of(text):
        found.append("%s isn't made of its Markdown as that is now: python3 tools/man.py" % made)
    if does and "\n%s - %s\n" % (name, does) not in text:
        found.append("%s doesn't say what tools/commands.txt says of it" % source)
    plain = re.sub(r"\\f\[\w*\]", "", page).replace("\\", "")
    for option in sorted(set(OPTION.findall(printed))):
        if option not in OPTION.findall(plain):
            found.append("%s: %s of --help isn't there: python3 tools/man.py" % (source, option))
    return found


def main(words):
    if words[:1] in (["--help"], ["-h"]):
        print(__doc__, end="")
        return 0
    if words not in ([], ["--check"]):
        raise ValueError("wrong words (--help tells the right ones)")
    if words:
        found = [line for name, its, does in commands()
                 for line in faults(name, help_of(its), does)]
        print("\n".join(found), end="\n" if found else "")
        return 1 if found else 0
    try:
        subprocess.run(["pandoc", "--version"], stdout=subprocess.DEVNULL, check=True)
    except (OSError, subprocess.CalledProcessError):
        raise ValueError("pandoc is needed: apt-get install pandoc")
    os.makedirs(os.path.join(PAGES, "man1"), exist_ok=True)
    for it in commands():
        make(*it)
    return 0


if __name__ == "__main__":
    try:
        sys.exit(main(sys.argv[1:]))
    except (OSError, ValueError) as error:
        print("man.py: %s" % error, file=sys.stderr)
        sys.exit(2)
