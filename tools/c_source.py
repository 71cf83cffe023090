"""A file of C as `from_c` reads it: the preprocessor's text, places in the user's file, comments.

What isn't served is refused by `Refused`, with its place. The headers that a file may include are
written here; those of a compiler or a vendor aren't read.
"""

import difflib
import os
import re
import subprocess
import tempfile

from pycparser import c_ast, c_generator, c_parser

from script_text import Fault

WORDS = ((8, "char"), (16, "short"), (32, "int"), (64, "long"))


def limits(width):
    """The names of a width's least and greatest numbers."""
    most, unsigned = 2 ** (width - 1) - 1, 2 ** width - 1
    long, suffix = "l" * (width == 64), "u" * (width > 16) + "l" * (width == 64)
    return ("#define INT{0}_MAX {1}{2}\n#define INT{0}_MIN (-INT{0}_MAX - 1)\n"
            "#define UINT{0}_MAX {3}{4}\n").format(width, most, long, unsigned, suffix)


CONSTANTS = "".join("#define INT%d_C(x) x%s\n#define UINT%d_C(x) x%s\n" % (w, s, w, "u" + s)
                    for w, s in ((8, ""), (16, ""), (32, ""), (64, "l")))
STDINT = "#ifndef FIXPROVE_STDINT\n#define FIXPROVE_STDINT\n" + "".join(
    "typedef %s %s%d_t;\n" % (t, u, w) for w, s in WORDS
    for u, t in (("int", "signed " + s), ("uint", "unsigned " + s))) + "".join(
        limits(w) for w, _ in WORDS) + CONSTANTS + "typedef uint64_t size_t;\n#endif\n"
STDDEF = "#include <stdint.h>\n#ifndef NULL\n#define NULL ((void *)0)\n#endif\n"
LIMITS = ("#define CHAR_BIT 8\n#define SCHAR_MAX 127\n#define SCHAR_MIN (-128)\n"
          "#define UCHAR_MAX 255\n#define SHRT_MAX 32767\n#define SHRT_MIN (-32768)\n"
          "#define USHRT_MAX 65535\n#define INT_MAX 2147483647\n#define INT_MIN (-INT_MAX - 1)\n"
          "#define UINT_MAX 4294967295u\n")
# (bool is no integer here: a use is refused where it stands, but true and false are served)
STDBOOL = "typedef _Bool bool;\n#define true 1\n#define false 0\n"
# what a vendor's header for fixed point names: the types of CMSIS-DSP
VENDOR = ("#ifndef FIXPROVE_VENDOR\n#define FIXPROVE_VENDOR\n#include <stdint.h>\n"
          "typedef int8_t q7_t;\ntypedef int16_t q15_t;\ntypedef int32_t q31_t;\n"
          "typedef int64_t q63_t;\n#endif\n")
STANDARD = {"stdint.h": STDINT, "inttypes.h": STDINT, "stddef.h": STDDEF, "limits.h": LIMITS,
            "stdbool.h": STDBOOL, "math.h": "", "stdlib.h": STDDEF, "string.h": STDDEF,
            "assert.h": "", "stdio.h": STDDEF}
VENDORS = {"arm_math.h": VENDOR, "arm_acle.h": VENDOR, "cmsis_compiler.h": VENDOR,
           "cmsis_gcc.h": VENDOR, "dsp/basic_math_functions.h": VENDOR}
TOKEN = re.compile(r"[A-Za-z_]\w*|\.?[0-9](?:[eEpP][-+]|[\w.])*|\"(?:\\.|[^\"\\])*\""
                   r"|'(?:\\.|[^'\\])*'|<<=|>>=|\.\.\.|->|\+\+|--|<<|>>|<=|>=|==|!=|&&|\|\|"
                   r"|[-+*/%&|^]=|\S")
# attributes that leave what a text means as it is
ATTRIBUTES = {"aligned", "always_inline", "artificial", "cold", "const", "deprecated",
              "fallthrough", "flatten", "format", "gnu_inline", "hot", "leaf", "noclone",
              "noinline", "nonnull", "nothrow", "optimize", "packed", "pure", "section", "unused",
              "used", "visibility", "warn_unused_result"}
MARK = re.compile(r'# (\d+) "((?:\\.|[^"\\])*)"')


class Refused(Exception):
    """What keeps a routine from being served: a node or coordinates of pycparser, or a text that
    names the place, and one line."""

    def __init__(self, where, what):
        Exception.__init__(self, what)
        self.where, self.what = getattr(where, "coord", where), what


def says(node):
    """An expression or a type as C text, in one line."""
    return " ".join(c_generator.CGenerator().visit(node).split())


STEPPED = ("p++", "++", "p--", "--")


class Names(c_ast.NodeVisitor):
    """The variables of an expression, those that change within it, and whether it has calls."""

    def __init__(self, e, whole=None):
        self.met, self.changed, self.whole, self.called = [], [], whole, False
        self.visit(e)

    def visit_FuncCall(self, e):
        self.called = True
        self.generic_visit(e)

    def visit_ID(self, e):
        self.met.append(e.name)

    def visit_Assignment(self, e):
        if e is not self.whole:
            self.changed.append(e.lvalue)
        self.generic_visit(e)

    def visit_UnaryOp(self, e):
        if e.op in STEPPED and e is not self.whole:
            self.changed.append(e.expr)
        self.generic_visit(e)

    def visit_StructRef(self, e):
        self.visit(e.name)      # a field's name is no variable


def written(folder, headers):
    """Writes headers to a folder."""
    for name, text in headers.items():
        os.makedirs(os.path.dirname(os.path.join(folder, name)), exist_ok=True)
        with open(os.path.join(folder, name), "w", encoding="ascii") as it:
            it.write(text)


def blanked(text):
    """The text with its comments as blanks, lines and columns kept."""
    def blank(match):
        found = match.group()
        return re.sub(r"[^\n]", " ", found) if found.startswith("/") else found
    return re.sub(r"/\*.*?\*/|//[^\n]*|\"(?:\\.|[^\"\\\n])*\"|'(?:\\.|[^'\\\n])*'", blank, text,
                  flags=re.S)


class Source:
    """A file, preprocessed by gcc with the headers above, and parsed: `tree`. `text` is the file's.
    Raises Refused where gcc or the parser doesn't take it."""

    def __init__(self, path, text=None):
        self.path, self.sources = path, {}
        self.text = self.read(path) if text is None else text
        if text is not None:
            self.sources[path] = text
        with tempfile.TemporaryDirectory(prefix="fixprove-") as folder:
            written(folder, dict(STANDARD, **VENDORS))
            name = path
            if text is not None:
                name = os.path.join(folder, "text.c")
                with open(name, "w", encoding="latin-1") as it:
                    it.write(text)
            words = ["gcc", "-E", "-nostdinc", "-I", folder, "-D__restrict=restrict",
                     "-D__inline=inline", "-D__extension__=",
                     "-D__inline__=inline", "-D__restrict__=restrict", "-D__const=const", name]
            try:
                done = subprocess.run(words, stdout=subprocess.PIPE, stderr=subprocess.PIPE,
                                      stdin=subprocess.DEVNULL, check=False)
            except OSError:
                raise Fault("gcc isn't there: apt-get install gcc")
        self.made = done.stdout.decode("latin-1").replace(name, path)
        if done.returncode:
            raise self.of_gcc(done.stderr.decode("latin-1").replace(name, path))
        self.made = "".join("\n" if line.startswith("#pragma") else line if line.startswith("#")
                            else re.sub(r"_Pragma\(.*?\)", "", line)
                            for line in self.made.splitlines(True))
        self.made = self.attributes()
        self.map, self.marked = None, self.marks()
        try:
            self.tree = c_parser.CParser().parse(self.made, path)
        except c_parser.ParseError as fault:
            place, _, what = str(fault).partition(": ")
            match = re.match(r"(.*):(\d+):(\d+)$", place) or self.place_by_gcc()
            where = self.at(match.group(1), int(match.group(2)), int(match.group(3))) \
                if match else path
            raise Refused(where, "this isn't C that is read here: " + what)

    def attributes(self):
        """The text with attributes as blanks. Refuses those that may change what a text means."""
        found, last = [], 0
        for match in re.finditer(r"\b__attribute(?:__)?\s*\(\((.*?)\)\)", self.made, re.S):
            names = re.findall(r"\w+", re.sub(r"\(.*?\)", "", match.group(1) + ")"))
            for name in names:
                if name.strip("_") not in ATTRIBUTES:
                    before = self.made[:match.start()]
                    lines = before[before.rfind("\n# ") + 1:].split("\n")
                    mark = MARK.match(lines[0])
                    raise Refused("%s:%d:%d" % (
                        os.path.basename(mark.group(2)), int(mark.group(1)) + len(lines) - 2,
                        len(lines[-1]) + 1) if mark else self.path,
                        "the attribute %s isn't served" % name)
            found += [self.made[last:match.start()], re.sub(r"[^\n]", " ", match.group())]
            last = match.end()
        return "".join(found + [self.made[last:]])

    def place_by_gcc(self):
        """Where gcc finds the first error of the preprocessed text."""
        done = subprocess.run(["gcc", "-fsyntax-only", "-x", "cpp-output", "-"],
                              input=self.made.encode("latin-1"), stdout=subprocess.PIPE,
                              stderr=subprocess.STDOUT, check=False)
        return re.search(r"^(\S.*?):(\d+):(\d+): error", done.stdout.decode("latin-1"), re.M)

    @staticmethod
    def read(path):
        try:
            with open(path, encoding="latin-1") as it:
                return it.read()
        except OSError as error:
            raise Fault("%s: %s" % (path, error.strerror))

    @staticmethod
    def of_gcc(said):
        """What gcc -E says, as a refusal with its place."""
        for line in said.splitlines():
            match = re.match(r"(\S.*:\d+:\d+): (?:fatal )?error: (.*)", line)
            if match:
                what = match.group(2)
                if what.endswith("No such file or directory"):
                    what = "no header " + what.split(":")[0] + ": put what is used into the file"
                return Refused(match.group(1), what)
        return Refused("gcc -E", said.strip().splitlines()[0] if said.strip() else "fails")

    # -- places

    def place(self, where):
        """`file:line:column` in the user's file, of coordinates of pycparser or a text."""
        if where is None or isinstance(where, str):
            return where or self.path
        return self.at(where.file or self.path, where.line, where.column or 1)

    def at(self, name, line, column):
        """The place of what stands at a line and column of the preprocessed text."""
        if self.map is None:
            self.map = self.mapped()
        best = None
        for at, place in self.map.get((name, line), ()):
            if at <= column or best is None:
                best = place
        if best is None:
            best = line, column
        return "%s:%d:%d" % ((os.path.basename(name),) + best)

    def mapped(self):
        """{(file, line): [(column of the preprocessed text, place)]} of all its tokens. What a
        macro makes has the place of the macro's name, or of the argument that it is."""
        lines, name, line = {}, self.path, 0
        for text in self.made.splitlines():
            mark = MARK.match(text)
            if mark:
                name, line = mark.group(2), int(mark.group(1))
                continue
            if text.strip():
                lines.setdefault(name, {}).setdefault(line, []).append(text)
            line += 1
        found = {}
        for name, some in lines.items():
            try:
                source = blanked(self.sources.get(name) or self.read(name)).splitlines()
            except Fault:
                continue
            numbers = sorted(some)
            for number, after in zip(numbers, numbers[1:] + [len(source) + 1]):
                theirs, deep, k = [], 0, number
                while k <= len(source) and (k < after or k == number or deep > 0):
                    here = [(m.group(), (k, m.start() + 1))
                            for m in TOKEN.finditer(source[k - 1])]
                    deep += sum((t == "(") - (t == ")") for t, _ in here)
                    theirs, k = theirs + here, k + 1
                for text in some[number]:
                    ours = [(m.group(), m.start() + 1) for m in TOKEN.finditer(text)]
                    found.setdefault((name, number), []).extend(self.aligned(ours, theirs))
        return found

    @staticmethod
    def aligned(ours, theirs):
        """[(column, place)] of tokens of one line: `theirs` are the user's."""
        if not theirs:
            return []
        match = difflib.SequenceMatcher(None, [t for t, _ in ours], [t for t, _ in theirs], False)
        places, found, last = {}, [], -1
        for a, b, size in match.get_matching_blocks():
            places.update((a + k, b + k) for k in range(size))
        macros = [k for k, (t, _) in enumerate(theirs)
                  if k not in set(places.values()) and (t[0].isalpha() or t[0] == "_")]
        for k, (_, column) in enumerate(ours):
            last = places.get(k, last)
            at = last
            if k not in places:     # of a macro, whose name is the last that wasn't matched
                at = max([m for m in macros if m <= last + 1], default=max(last, 0))
            found.append((column, theirs[at][1]))
        return found

    # -- what comments say

    def marks(self):
        """The lines of the file with a comment `wraps`, or `wraps: ..`: what wraps there is meant
        to."""
        some = re.finditer(r"//[ \t]*wraps[ \t]*(?=:|$)|/\*\s*wraps\s*(?=:|\*/)", self.text, re.M)
        return {self.text.count("\n", 0, match.start()) + 1 for match in some}

    def meant(self, where):
        """Whether what stands at a place of the file is meant to wrap."""
        where = getattr(where, "coord", where)
        return bool(self.marked) and where is not None and \
            (where.file or self.path) == self.path and \
            int(self.place(where).split(":")[-2]) in self.marked

    def comment(self, first, last, word, past=0):
        """What follows `word:` in the nearest comment with it before the line `first`, and in those
        from there to the line `last`, as far as they are past a line: [(key, text)]."""
        found = []
        for match in re.finditer(r"/\*.*?\*/|//[^\n]*", self.text, re.S):
            line = self.text.count("\n", 0, match.start()) + 1
            if past < line < last:
                body = re.sub(r"^/[*/]+|\*/$", "", match.group())
                body = re.sub(r"\n\s*\*(?!/)", "\n", body)
                found += [(line, key or "", text.strip()) for key, text in
                          re.findall(r"(?<!\w)%s(?: (\w+))?:\s*(.*)" % word, body, re.S)]
        near = max((line for line, _, _ in found if line <= first), default=0)
        return [(key, text) for line, key, text in found if line >= near]
