"""What `costs.py` counts: runs of the program on small inputs, part by part."""

import functools
import hashlib
from collections import namedtuple

import cost_rules
import times

# A run that is counted. `files` makes its files; `before` are words of a run that isn't counted
# and comes first, as where a certificate is to be there; `inside` are functions of the program
# whose calls are counted, too; `status` is how the run has to end.
Run = namedtuple("Run", "part what files words inside status before")

# Functions that stand for a part, where the built program has them as functions of their own.
PARSE = "script_grammar::reading::parse"
WORDS = "script_words::words::read_words"
MARKS = "rewrite_hints::marks::marks_of"
BUILD = "universe::world::build"
SETTLE = "settler::boxes::BoxesSettler::settle"
CONCLUDE = "theorem_list::list::conclude"
TURN = "cert_checker::check::turn"
TAKE = "cert_checker::chain::Chain::take"
WRITE = "cert_bytes::writing::write_item2"
TRACE = "box_trace::rounds::rounds"

# Lengths of texts in bytes. What reads in time that grows as the text takes twice as much of one
# as of the other.
LENGTHS = (1 << 15, 1 << 16)

# How many steps by its rule a certificate has.
STEPS = 4096

SMALL = b"""@q = fixed<-15,dn>;
d q= b - a;
p q= d * t;
r q= a + p;
Mr = a + (b - a) * t;
{ @FIX(a,-15) /\\ @FIX(b,-15) /\\ @FIX(t,-15)
  /\\ a in [0,1] /\\ b in [0,1] /\\ t in [0,1]
  -> r in ? /\\ r - Mr in ? }
"""


def run(part, what, files, words, inside=(), status=0, before=None):
    """A `Run` by its words, as one text each."""
    made = files if callable(files) else lambda: files
    return Run(part, what, made, words.split(), inside, status, before.split() if before else None)


# -- long texts, each with as much of one thing as fits


def filled(first, item, last, length, most=1 << 20):
    """Copies of an item between two parts; a # in the item is the copy's number by six digits."""
    text = bytearray(first)
    for number in range(most):
        copy = item.replace(b"#", b"%06d" % number) if b"#" in item else item
        if len(text) + len(copy) + len(last) > length:
            break
        text += copy
    return bytes(text) + last


def copies(first, item, last=b""):
    """A text of a length that is made of copies."""
    return lambda length: filled(first, item, last, length)


def comments(length):
    """250 definitions, each with a long comment."""
    behind = b"=x;\x23" + b"c" * max(0, length // 250 - 21) + b"\n"
    text = b"".join(b"d%06d" % k + behind for k in range(250))
    return text + b"{ x in ? }"


def ranges(length):
    """Halved names that are looked up behind the ranges of others."""
    first = b"{" + b"".join(b"r%03d in [0,1]/\\" % k for k in range(126))
    return filled(first + b"x in [0,1] -> x in ? } x $ x", b",x", b";", length)


def names_again(length):
    """The same 500 names again and again."""
    names = b"".join(b",n%03d" % k for k in range(500))
    return filled(b"{ x in [0,1] -> x in ? } x", names, b"$x;", length)


def long_names(length):
    """Operators whose names begin alike."""
    return filled(b"", b"@" + b"r" * 1023 + b"#=int<ne>;", b"{ x in ? }", length)


# The name of a text, how the text is made, and the status of `prove` on it.
TEXTS = [
    ("open parentheses", copies(b"{", b"("), 3),
    ("one comment", copies(b"\x23", b"c"), 3),
    ("letters of two bytes", copies(b"\x23", "\u00e9".encode()), 3),
    ("one name", copies(b"{", b"n"), 3),
    ("formula cut short", copies(b"{ x", b" + x * y"), 3),
    ("wrong word after a sum", copies(b"{ x", b"+x", b" not"), 3),
    ("wrong word after parentheses", copies(b"{", b"(", b" not"), 3),
    ("wrong name after a sum", copies(b"{ x", b"+x", b" y ="), 3),
    ("literal of nines", copies(b"{ x <= ", b"9", b" }"), 3),
    ("literal of zeros", copies(b"{ x <= ", b"0", b" }"), 1),
    ("cuts", copies(b"{ x in [0,1] -> x in ? }", b"$x;"), 3),
    ("halved names", copies(b"{ x in [0,1] -> x in ? } x $ x", b",x", b";"), 0),
    ("questions", copies(b"{x in ?", b"/\\x in ?", b"}"), 3),
    ("arrows", copies(b"{x>=1", b"->x>=1", b"}"), 3),
    ("near sides", copies(b"{ x in [0,1] -> x in ? } x", b",x", b"$x;"), 0),
    ("needs", copies(b"{ x in ? } x -> x { x>1", b",x>1", b" };"), 1),
    ("needs of 1e-30", copies(b"{ x in ? } x -> x { x>1", b",x>1e-30", b" };"), 1),
    ("names before definitions", copies(b"d = y", b"+n#", b"; n000000 = 1; { d in ? }"), 3),
    ("definitions of names that were used", copies(b"d = y;", b"y=n#;", b"{ d in ? }"), 3),
    ("operators", copies(b"", b"@r#=int<ne>;", b"{ x in ? }"), 3),
    ("definitions with comments", comments, 1),
    ("halved names after ranges", ranges, 0),
    ("many names again", names_again, 0),
    ("operators of long names", long_names, 1),
]


def texts():
    """Reading of long texts."""
    for name, make, status in TEXTS:
        for length in LENGTHS:
            yield run("texts", "%s, %d bytes" % (name, length),
                      functools.partial(lambda make, length: {"a": make(length)}, make, length),
                      "prove a --rounds 1 --workers 1", (PARSE, WORDS), status)


# -- rules, numbers


def flat(number, bits=60, places=0, version=2):
    """The files of a certificate whose steps are by one rule."""
    rule = next(rule for rule in cost_rules.RULES if rule.number == number)
    text, cert = cost_rules.certificate(rule, STEPS, bits, places, version)
    return {"a": text, "c": cert}


def rules():
    """Each rule of the list, by a certificate with steps by it."""
    for rule in cost_rules.RULES:
        yield run("rules", "%d, %s" % (rule.number, rule.about),
                  functools.partial(flat, rule.number), "check a c", (CONCLUDE,))


def literals():
    """A script with 250 literals of 30 digits."""
    digits = [str(k * 7919 + 10 ** 29 + 3) for k in range(250)]
    claims = [b"x in [-0.%s,%s.5]" % (a.encode(), b[:28].encode())
              for a, b in zip(digits[::2], digits[1::2])]
    return {"a": b"{ " + b" /\\ ".join(claims) + b" -> x in ? }"}


def numbers():
    """Sums, products and quotients of short and of wide numbers, and wide literals."""
    for number, name in ((3, "sums"), (6, "products"), (8, "quotients")):
        for bits, places in ((8, 0), (60, 0), (60, 440)):
            yield run("numbers", "%s, %d binary digits, %s" % (
                          name, bits, "440 places apart" if places else "near"),
                      functools.partial(flat, number, bits, places), "check a c", (CONCLUDE,))
    yield run("numbers", "250 literals of 30 digits", literals,
              "prove a --rounds 1 --workers 1", (PARSE,))


# -- hints, universes, boxes


def product():
    """A hint between a product of 256 terms and its square."""
    factors = " * ".join("(a%d + b%d)" % (k, k) for k in range(8))
    return {"a": ("p = v * %s;\nq = p * p;\n{ v in [0,1] -> v in ? }\np -> q;\n" % factors)
            .encode()}


def shared(hints):
    """Eight variables, the product of the eight sums 1 + x, times 1 a hundred times, and hints."""
    lines = ["p0 = " + " * ".join("(1 + x%d)" % k for k in range(8))]
    lines += ["p%d = p%d * 1" % (k, k - 1) for k in range(1, 101)]
    lines += ["{ x0 in [0,1] -> x0 in ? }\n" + "\n".join(
        "p%d -> p0;" % (k + 1) for k in range(hints))]
    return {"a": ";\n".join(lines).encode()}


def hints():
    """Comparisons of hints' sides."""
    few = "prove a --rounds 1 --workers 1"
    yield run("hints", "256 terms and their square", product, few, (MARKS,))
    for many in (1, 64):
        yield run("hints", "%d of a product of 256 terms times 1" % many,
                  functools.partial(shared, many), few, (MARKS,))


def made(degree, pieces=64):
    """The script of `gen` of this degree with so many pieces, or with none."""
    text = times.made(degree)
    return {"a": text.replace("$ x in 64;\n", "$ x in %d;\n" % pieces if pieces else "").encode()}


def universes():
    """Universes that are built, and one round."""
    for degree, size in ((6, 106), (28, 502), (57, 1024)):
        yield run("universes", "degree %d: %d expressions" % (degree, size),
                  functools.partial(made, degree, 0), "prove a --rounds 1 --workers 1",
                  (BUILD, CONCLUDE), 1)


def boxes():
    """Boxes that are settled."""
    inside = (SETTLE, CONCLUDE)
    yield run("boxes", "degree 12: the root, by rounds", functools.partial(made, 12, 0),
              "prove a --rounds 64 --workers 1", inside)
    for what, text, options in [
        ("degree 12: 65 boxes", times.made(12), "--rounds 64"),
        ("its 16 cases: 80 boxes", times.CASES, "--rounds 64"),
        ("two boxes on each level: 59", times.TREE, "--rounds 64 --depth 32"),
        ("two variables halved: 4727", times.HALVES, "--boxes 8192 --depth 32"),
        ("three variables cut: 585", times.CUTS.replace("in 16;", "in 8;"), "--boxes 8192"),
    ]:
        yield run("boxes", what, {"a": text.encode()}, "prove a --workers 1 " + options, inside)


# -- certificates, commands


def certificates():
    """Certificates that are written, checked, rewritten and trimmed."""
    traced = (TRACE, CONCLUDE, WRITE)
    yield run("certificates", "written: degree 6, 17 boxes", functools.partial(made, 6, 16),
              "prove a --rounds 64 --workers 1 --cert c", traced)
    for version in (1, 2):
        files = functools.partial(flat, 6, 60, 0, version)
        yield run("certificates", "checked: %d products, version %d" % (STEPS, version), files,
                  "check a c", (TURN, TAKE))
        yield run("certificates", "rewritten: %d products, version %d" % (STEPS, version), files,
                  "upgrade c d", (WRITE,))
    large = "prove a --rounds 64 --workers 1 --cert c"
    for what, words in (("checked", "check a c"), ("trimmed", "trim a c d")):
        yield run("certificates", "%s: degree 12, 65 boxes" % what, made(12), words, (TAKE,),
                  before=large)


def program():
    """A fixed-point program of 123 lines."""
    lines = ["in x : s24.15 [0,1];", "in y : s24.15 [0,1];", "v0 : s24.15 dn = x * y;"]
    lines += ["v%d : s24.15 dn = v%d * x;" % (k, k - 1) for k in range(1, 119)]
    return {"a": "\n".join(lines + ["out v118;", ""]).encode()}


def batch():
    """A list of eight scripts."""
    files = {"%d.fx" % k: made(3 + k % 4, 8)["a"] for k in range(8)}
    files["l"] = "".join("%s\n" % name for name in files).encode()
    return files


def commands():
    """Whole runs of small inputs."""
    yield run("commands", "prove, a script of one line", {"a": b"{ 3 in ? }\n"},
              "prove a --workers 1")
    prove = "prove a --rounds 64 --workers 1"
    yield run("commands", "prove, an interpolation", {"a": SMALL}, prove)
    yield run("commands", "prove --cert of it", {"a": SMALL}, prove + " --cert c")
    yield run("commands", "check of it", {"a": SMALL}, "check a c", before=prove + " --cert c")
    yield run("commands", "fix, 122 lines", program, "fix a b")
    yield run("commands", "at, some 400 expressions",
              lambda: dict(made(28, 0), p=b"x = 1 / 2;\n"), "at a p")
    yield run("commands", "batch, 8 scripts", batch, "batch l --rounds 64 --workers 1")


def large():
    """Runs of a thousand million instructions and more."""
    yield run("large", "degree 12, 65 boxes, with --cert", made(12),
              "prove a --rounds 64 --workers 1 --cert c", (TRACE, CONCLUDE, WRITE))
    yield run("large", "three variables cut: 4369 boxes", {"a": times.CUTS.encode()},
              "prove a --workers 1 --boxes 8192", (SETTLE, CONCLUDE))


PARTS = {part.__name__: part for part in (
    commands, texts, numbers, rules, hints, universes, boxes, certificates, large)}

# What is counted where no part is named.
USUAL = [name for name in PARTS if name != "large"]


def input_of(counted, files):
    """A short sum of what a run is given, by which two programs' runs are told to be alike."""
    parts = [repr(counted.words), repr(counted.before)]
    parts += ["%s %s" % (name, hashlib.sha256(files[name]).hexdigest()) for name in sorted(files)]
    return hashlib.sha256("\n".join(parts).encode()).hexdigest()[:16]
