"""The routine with a main that reads words and prints outputs, built by gcc with its checks."""

import os
import re
import subprocess

from pycparser import c_ast as C

from c_source import VENDORS, says, written
from c_types import HELPERS, KNOWN, SPELLED, parameters
from script_text import Fault

CHECKS = "-fsanitize=signed-integer-overflow,integer-divide-by-zero,bounds,shift-exponent"


class Compiled:
    """A routine, built in `folder`. `fault` says why it isn't built, or is None."""

    def __init__(self, unit, name, found, folder):
        self.keys = list(dict.fromkeys(k for p in found for k, v in p.inputs.items()
                                       if v.node.rule is None))
        self.kinds = {k: v.kind for p in found for k, v in p.outs.items()}
        self.folder = os.path.abspath(folder)
        self.file = os.path.join(self.folder, name + "_main.c")
        lines, cells, args = self.places(unit, name, found)
        if any(k not in cells for k in list(self.keys) + [k for k in self.kinds if k != "result"]):
            self.fault = "a static variable of a function can't be set from outside"
            return
        lines += ["%s = word[%d];" % (cells[k], i) for i, k in enumerate(self.keys)]
        result = "told[0] = " if "result" in self.kinds else ""
        lines.append("%s%s(%s);" % (result, name, ", ".join(args)))
        lines += ["told[%d] = %s;" % (i, cells[k]) for i, k in enumerate(self.kinds)
                  if k != "result"]
        text = self.head(unit) + MAIN % (len(self.keys) + 1, len(self.kinds) + 1, len(self.keys),
                                         "\n    ".join(lines), len(self.kinds), len(self.keys))
        written(os.path.join(self.folder, "headers"), VENDORS)
        with open(self.file, "w", encoding="latin-1") as it:
            it.write(text)
        words = ["gcc", "-O1", "-w", CHECKS, "-idirafter", os.path.join(self.folder, "headers"),
                 "-o", self.file[:-2], self.file, "-lm"]
        try:
            done = subprocess.run(words, stderr=subprocess.PIPE, stdin=subprocess.DEVNULL,
                                  check=False)
        except OSError:
            raise Fault("gcc isn't there: apt-get install gcc")
        said = done.stderr.decode("latin-1").strip().splitlines()
        self.fault = ([x for x in said if "error" in x] or said or ["gcc fails"])[0] \
            if done.returncode else None

    @staticmethod
    def head(unit):
        """The helpers that the file uses without defining them, then the file."""
        used = set(re.findall(r"\w+", unit.text)) - set(unit.functions)
        alike = ["#define %s %s\n" % (a, b) for a, b in SPELLED.items() if a in used]
        helpers = HELPERS if alike or used & set(KNOWN) else ""
        return "".join(["#include <stdio.h>\n#include <string.h>\n", helpers] + alike
                       + ['#include "%s"\n' % os.path.abspath(unit.path)])

    @staticmethod
    def places(unit, name, found):
        """Declarations of what the routine is called with, the C of each input and output, and the
        call's arguments."""
        lines, cells, args = [], {}, []
        things = {}
        for path in found:
            for thing in path.outers:
                things.setdefault(thing.name, []).append(thing)
        for n, p in parameters(unit.functions[name]).items():
            pointer = isinstance(p.type, (C.PtrDecl, C.ArrayDecl))
            inner = p.type.type if pointer else p.type
            kind = re.sub(r"\b(const|restrict|register)\b ?", "", says(inner))
            if not pointer and not unit.fields(p.type):
                cells[n] = n + "_"
                args.append(n + "_")
                lines.append("%s %s_; memset(&%s_, 0, sizeof %s_);" % (kind, n, n, n))
                continue
            some = things.get(n, [])
            sels = {sel: name for thing in some for sel, name in thing.names.items()}
            array = pointer and not unit.fields(inner)
            most = max([s for s in sels if isinstance(s, int)], default=0)
            size = max([thing.size or 1 for thing in some] + [most + 1])
            lines.append("%s %s_%s; memset(&%s_, 0, sizeof %s_);"
                         % (kind, n, "[%d]" % size if array else "", n, n))
            args.append(n + "_" if array or not pointer else "&" + n + "_")
            for sel, cell in sels.items():
                cells[cell] = "%s_%s" % (n, spelled(sel))
        for n, some in things.items():
            for thing in some:
                if thing.static is not None and thing.name in unit.globals:
                    cells.update({cell: n + spelled(sel) for sel, cell in thing.names.items()})
        return lines, cells, args

    def run(self, points):
        """The outputs at each point, and the faults that gcc's checks tell."""
        def signed(x):
            return x - (1 << 64) if x >> 63 > 0 else x
        given = "".join(" ".join(str(signed(p.get(k, 0))) for k in self.keys) + "\n"
                        for p in points)
        done = subprocess.run([self.file[:-2]], input=given.encode(), stdout=subprocess.PIPE,
                              stderr=subprocess.PIPE, check=False)
        rows = [dict(zip(self.kinds, map(int, line.split())))
                for line in done.stdout.decode().splitlines()]
        rows = [{k: v % (1 << 64) if self.kinds[k] == (64, False) else v for k, v in row.items()}
                for row in rows]
        told = re.sub(r".*?([^/\n]*:\d+:\d+): runtime error: ", r"\1: ",
                      done.stderr.decode("latin-1"))
        return rows, [line for line in told.splitlines() if re.match(r"[^/]*:\d+:\d+: ", line)]


def spelled(sel):
    """A cell as C writes it after its thing's name."""
    if sel is None:
        return ""
    if isinstance(sel, tuple):
        return ".%s[%d]" % sel
    return "[%d]" % sel if isinstance(sel, int) else "." + sel


MAIN = """int main(void) {
  long long word[%d], told[%d];
  for (;;) {
    for (int i = 0; i < %d; i++) if (scanf("%%lld", word + i) != 1) return 0;
    %s
    for (int i = 0; i < %d; i++) printf("%%lld ", told[i]);
    printf("\\n");
    if (!%d) return 0;
  }
}
"""
