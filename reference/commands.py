"""The commands: words, statuses and printed lines.

docs/FORMATS.md, "The command line", "Answers" and "Lists".
"""

from __future__ import annotations

import re
from typing import Any, Dict, List, Optional, Sequence, Tuple, Union

from . import certificate, checker, parser, point, program, tokens, trimming
from .grid import show_interval
from .polynomial import classify
from .script import Script
from .tree import Answer, Box, Limit, Line, Unproved, answer

OK, UNPROVED, USAGE, SCRIPT, LIMIT, CERTIFICATE, READ, WRITE, MEMORY, \
    PROGRAM, POINT, WIDE, LIST = range(13)

PROVE = ["--cert", "--rounds", "--depth", "--boxes", "--workers"]
BATCH = ["--rounds", "--depth", "--boxes", "--workers"]
# command: (how many names, options, usage text)
COMMANDS = {
    "prove": (1, PROVE, "prove SCRIPT [--cert FILE] [--rounds N] [--depth N] [--boxes N] "
                        "[--workers N]"),
    "check": (2, [], "check SCRIPT CERT"),
    "gen": (1, [], "gen N"),
    "upgrade": (2, [], "upgrade CERT NEW"),
    "fix": (2, [], "fix PROGRAM SCRIPT"),
    "at": (2, [], "at SCRIPT POINT"),
    "trim": (3, [], "trim SCRIPT CERT NEW"),
    "batch": (1, BATCH, "batch LIST [--rounds N] [--depth N] [--boxes N] [--workers N]"),
}
RANGES = {"--rounds": (1, 64, 20), "--depth": (0, 32, 16),
          "--boxes": (1, 8192, 4096), "--workers": (1, 16, 4)}
PLAIN = re.compile(r"0|[1-9][0-9]*")


class Usage(Exception):
    """The words of the command line aren't right."""


class End(Exception):
    """A status with the text that goes before it."""

    def __init__(self, status: int, text: str = "") -> None:
        """Status and text."""
        Exception.__init__(self, status, text)
        self.status, self.text = status, text


class ReadFailed(Exception):
    """A file can't be read."""


class WriteFailed(Exception):
    """A file can't be written."""


class DiskFolder:
    """The files of the disk."""

    def read(self, name: str, most: int) -> bytes:
        """The file's first bytes, or all if `most` is below 0; raises ReadFailed."""
        try:
            with open(name, "rb") as f:
                return f.read(most)
        except OSError:
            raise ReadFailed

    def write(self, name: str, data: bytes) -> None:
        """Makes the file new; raises WriteFailed."""
        try:
            with open(name, "wb") as f:
                f.write(data)
        except OSError:
            raise WriteFailed


class MemFolder:
    """Files in memory; room is the number of bytes that a name can hold."""

    def __init__(self, files: Dict[str, bytes], room: Optional[int] = None) -> None:
        """Begins with these files."""
        self.files = dict(files)
        self.room = room

    def read(self, name: str, most: int) -> bytes:
        """As of `DiskFolder`."""
        if name not in self.files:
            raise ReadFailed
        data = bytes(self.files[name])
        return data if most < 0 else data[:most]

    def write(self, name: str, data: bytes) -> None:
        """As of `DiskFolder`; what is past the room isn't kept."""
        room = len(data) if self.room is None else self.room
        self.files[name] = data[:room]
        if len(data) > room:
            raise WriteFailed


def plain(text: str, least: int, most: int) -> int:
    """A plain decimal number in this range; raises Usage."""
    if not PLAIN.fullmatch(text) or len(text) > 9:
        raise Usage
    n = int(text)
    if not least <= n <= most:
        raise Usage
    return n


def reading(words: Sequence[str]) -> Tuple[str, List[Any], Dict[str, Any]]:
    """(command, names, options) of the words; raises Usage."""
    if not words or words[0] not in COMMANDS:
        raise Usage
    command = words[0]
    count, allowed, _ = COMMANDS[command]
    names, given = [], {}
    rest = words[1:]
    k = 0
    while k < len(rest):
        w = rest[k]
        k += 1
        if w == "--":
            names += rest[k:]
            break
        if w == "-" or not w.startswith("-"):
            names.append(w)
            continue
        if not w.startswith("--"):
            raise Usage
        option, eq, value = w.partition("=")
        if not eq:
            if k >= len(rest) or (rest[k] != "-" and rest[k].startswith("-")):
                raise Usage
            value = rest[k]
            k += 1
        if option not in allowed or option in given:
            raise Usage
        given[option] = value
    if len(names) != count:
        raise Usage
    options = {}
    for o, (least, most, default) in RANGES.items():
        if command == "batch" and o == "--boxes":
            most, default = 512, 256
        options[o[2:]] = plain(given[o], least, most) if o in given else default
    options["cert"] = given.get("--cert")
    if command == "gen":
        return command, [plain(names[0], 1, 12)], options
    files = names + ([given["--cert"]] if "--cert" in given else [])
    if "" in files or len(set(files)) != len(files):
        raise Usage
    return command, names, options


def made_script(n: int) -> str:
    """The script of `gen N`: "The command line"."""
    def c(i: int) -> int:
        """The factor of number i."""
        return (37 * i + 11) % 64
    p = "%db-6" % c(n)
    for i in range(n - 1, -1, -1):
        a = p if i + 1 == n else "(%s)" % p
        p = "%s * x + %db-6" % (a, c(i))
    return ("@q = fixed<-12,dn>;\ny q= %s;\nMy = %s;\n"
            "{ x in [0,1] -> y - My in ? }\n$ x in 64;\n" % (p, p))


def show_line(line: Line) -> str:
    """An interval, `empty` or `none`, as it is printed."""
    return line if isinstance(line, str) else show_interval(line)


def answer_text(script: Script, lines: Sequence[Line], marks: Sequence[bool]) -> str:
    """The lines of status 0."""
    out = ["%s in %s\n" % (g.text, show_line(v)) for g, v in zip(script.goals, lines)]
    out += ["hint %d assumed\n" % (k + 1) for k, m in enumerate(marks) if not m]
    return "".join(out)


def unproved_text(script: Script, case: int, box: Box, goal: int) -> str:
    """The line of status 1; case and goal count from 0."""
    names = {v: n for n, v in script.variables}
    at = "case %d, " % (case + 1) if script.cases() > 1 else ""
    if script.split_order:
        at += ", ".join("%s in %s" % (names[v], show_interval(box.ranges[v]))
                        for v in script.split_order)
    else:
        at += "the whole box"
    return "unproved: goal %d at %s\n" % (goal + 1, at)


Folder = Union[DiskFolder, MemFolder]


class Program:
    """A run of the program."""

    def __init__(self, folder: Folder) -> None:
        """Reads and writes in this folder."""
        self.folder = folder

    def run(self, words: Sequence[str]) -> Tuple[int, str]:
        """(status, printed text)."""
        try:
            command, names, options = reading(words)
        except Usage:
            return USAGE, self.usage()
        try:
            return OK, getattr(self, command)(options, *names)
        except End as e:
            return e.status, e.text

    def usage(self) -> str:
        """The usage line."""
        rows = [c[2] for c in COMMANDS.values()]
        return "usage: fixprove %s\n" % " | ".join(rows)

    # -- inputs and outputs

    def input(self, name: str, most: Optional[int] = None) -> bytes:
        """A file that is read: status 6 if it can't be."""
        try:
            return self.folder.read(name, most if most is not None else -1)
        except ReadFailed:
            raise End(READ, "read fault: %s\n" % name)

    def output(self, name: str, data: bytes) -> None:
        """A file that is written: status 7 if it can't be."""
        try:
            self.folder.write(name, data)
        except WriteFailed:
            raise End(WRITE)

    def spelled(self, data: bytes) -> Script:
        """The script of a text: status 3 if it spells none."""
        try:
            return parser.parse(data)
        except tokens.Refusal as r:
            raise End(SCRIPT, "script: %s at %d\n" % (r.kind, r.at))

    def script(self, name: str) -> Script:
        """The script of a file."""
        return self.spelled(self.input(name, parser.TEXT_LIMIT + 1))

    # -- commands

    def answer(self, script: Script, options: Dict[str, Any], trace: bool = False) -> Answer:
        """The answer: status 4 past a limit, 1 if a box stays open."""
        try:
            return answer(script, options["rounds"], options["depth"], options["boxes"], trace)
        except Limit as e:
            raise End(LIMIT, str(e) + "\n")
        except Unproved as e:
            case, plan, box, goal = e.args
            raise End(UNPROVED, unproved_text(script, case, box, goal))

    def prove(self, options: Dict[str, Any], name: str) -> str:
        """`prove SCRIPT`."""
        return self.prove_text(self.input(name, parser.TEXT_LIMIT + 1), options)

    def prove_text(self, data: bytes, options: Dict[str, Any]) -> str:
        """What `prove` prints of a text; it writes the certificate if one is asked for."""
        script = self.spelled(data)
        cert = options.get("cert")
        a = self.answer(script, options, cert is not None)
        marks = classify(script)
        text = answer_text(script, a.lines, marks)
        if cert is not None:
            items, _, _ = trimming.trim(trimming.items_of(script, marks, a))
            self.output(cert, certificate.write(items, 2))
        return text

    def gen(self, options: Dict[str, Any], n: int) -> str:
        """`gen N`."""
        script = self.spelled(made_script(n).encode())
        a = self.answer(script, {"rounds": 64, "depth": 0, "boxes": 4096})
        return "gen %d: %d boxes, %s\n" % (n, a.boxes, show_line(a.lines[0]))

    def fault(self, f: Exception) -> End:
        """Status 5 with the line of a certificate's fault."""
        if isinstance(f, certificate.CertFault):
            return End(CERTIFICATE, "certificate: %s at %d\n" % (f.kind, f.at))
        return End(CERTIFICATE, "certificate: %s %s\n"
                   % (f.kind, " ".join(str(n) for n in f.numbers)))

    def check(self, options: Dict[str, Any], name: str, cert: str) -> str:
        """`check SCRIPT CERT`."""
        script = self.script(name)
        data = self.input(cert)
        try:
            chain = checker.check(script, certificate.Reader(data))
        except (certificate.CertFault, checker.CheckFault) as f:
            raise self.fault(f)
        return answer_text(script, chain.lines, chain.marks)

    def upgrade(self, options: Dict[str, Any], cert: str, new: str) -> str:
        """`upgrade CERT NEW`."""
        data = self.input(cert)
        try:
            items = certificate.read(data)
        except certificate.CertFault as f:
            raise self.fault(f)
        w = certificate.Writer(2)
        for i in items:
            w.item(i)
        self.output(new, bytes(w.out))
        return "upgraded: %d sections, %d steps\n" % (w.sections, w.steps)

    def fix(self, options: Dict[str, Any], name: str, new: str) -> str:
        """`fix PROGRAM SCRIPT`."""
        data = self.input(name, program.TEXT_LIMIT + 1)
        try:
            p = program.parse(data)
        except tokens.Refusal as r:
            raise End(PROGRAM, "program: %s at %d\n" % (r.kind, r.at))
        self.output(new, program.turned(p).encode())
        return "fix: %d steps, %d outputs\n" % (len(p.steps), len(p.outputs))

    def at(self, options: Dict[str, Any], name: str, where: str) -> str:
        """`at SCRIPT POINT`."""
        script = self.script(name)
        data = self.input(where, point.TEXT_LIMIT + 1)
        try:
            p = point.read_point(script, data)
        except tokens.Refusal as r:
            raise End(POINT, "point: %s at %d\n" % (r.kind, r.at))
        try:
            return point.evaluate(script, classify(script), p)
        except point.TooWide as e:
            raise End(WIDE, "too wide: %s\n" % e)

    def trim(self, options: Dict[str, Any], name: str, cert: str, new: str) -> str:
        """`trim SCRIPT CERT NEW`."""
        script = self.script(name)
        data = self.input(cert)
        try:
            checker.check(script, certificate.Reader(data))
        except (certificate.CertFault, checker.CheckFault) as f:
            raise self.fault(f)
        items, kept, all_steps = trimming.trim(certificate.read(data))
        self.output(new, certificate.write(items, 2))
        return "trimmed: %d of %d steps\n" % (kept, all_steps)

    def batch(self, options: Dict[str, Any], name: str) -> str:
        """`batch LIST`."""
        names = self.list(self.input(name))
        texts = [self.input(n, parser.TEXT_LIMIT + 1) for n in names]
        status, out = OK, []
        for n, data in zip(names, texts):
            out.append("script %s\n" % n)
            try:
                out.append(self.prove_text(data, options))
            except End as e:
                out.append(e.text)
                status = status or e.status
        if status:
            raise End(status, "".join(out))
        return "".join(out)

    def list(self, data: bytes) -> List[str]:
        """The names of a list: status 12 if it is none ("Lists")."""
        faults = []
        if len(data) > 1 << 16:
            faults.append((1 << 16, 3, "Limit"))
        try:
            data.decode("utf-8")
        except UnicodeDecodeError as e:
            faults.append((e.start, 1, "NotText"))
        lines = data.split(b"\n")
        if lines[-1] == b"" and len(lines) > 1:
            lines.pop()
        at = 0
        for k, line in enumerate(lines):
            if not line:
                faults.append((at, 2, "EmptyName"))
            if k == 64:
                faults.append((at, 3, "Limit"))
            at += len(line) + 1
        if faults:
            at, _, kind = min(faults)
            raise End(LIST, "list: %s at %d\n" % (kind, at))
        return [line.decode("utf-8") for line in lines]
