#!/usr/bin/env python3
"""Prints the program's statement: the clause of its top call, and each definition that this rests
on, in one document in reading order. docs/PROOFS.md, "How to read the statement", says how.

Use, in the repository:   python3 tools/statement.py > statement.md
                          python3 tools/statement.py --page docs/PROOFS.md

The clause is that of `fx_run` in crates/fx_top/src/run.rt. From what it cites the closure is taken
over specs/ of all crates: a definition's text, signature and clauses. A type of code that a
definition names stands there with its model. A lemma (its type ends in an equation, an order or a
predicate) that a definition cites in a proof part isn't followed further: its type says all, and
the prover has read its proof. What the toolchain's library defines isn't there.

With --page it writes a list into a page, between two marks: in which file each definition of the
statement stands that the page names in backticks above it.

Order: subjects as in SUBJECTS, each with its crates; in a crate the modules so that a word is said
before it is used, where they allow it, and else as in specs/Lib.antt; declarations as they stand.
Ends with 1, and a line, where a count is above its number in tools/statement.txt; with 2 where the
words are wrong.
"""
import argparse
import collections
import os
import re
import sys
import textwrap

sys.path.insert(0, os.path.dirname(os.path.abspath(__file__)))
from antt_text import CODE_USE, GHOST, leaves, read, without_comments  # noqa: E402
from graph import Graph, Scope  # noqa: E402

TOP_FILE, TOP_CALL = "crates/fx_top/src/run.rt", "fx_run"
TOP_CRATE = TOP_FILE.split("/")[1]
RELATION = re.compile(r"^(?:≡|≢|↔|[≤<≥>].*|∈|∣|≋|≈)$")
ALONE = ("⊥", "⊤", "Unit", "¬")
SUBJECTS = (
    ("Numbers", "fx_model grid_words literal dyadic interval literal_order rounding"),
    ("Expressions, and the outside", "expr_dag poly_normal pair_closure fx_edge"),
    ("Facts", "facts goals"),
    ("Rules", "theorem_arith theorem_fix theorem_rel rewrite_rules theorem_list"),
    ("Scripts", "script_words script_shape script_cases goal_spans script_bounds script_nodes "
     "script_claims script_hints script_judge script_grammar script_meets"),
    ("Boxes and answers", "rule_instances derivation rule_universe saturate rewrite_hints universe "
     "proof_options box_tree bisect case_trees accounts box_deques fact_board box_workers "
     "job_workers script_truths settler"),
    ("Certificates", "cert_bytes cert_checker script_checker cert_trim tree_certificates box_trace "
     "answer_certificates cert_upgrade cert_rewriting"),
    ("Programs", "fixprog program_truths"),
    ("Points", "exact_fractions point_values point_eval point_text"),
    ("Runs", "command_line name_list made_script whole_texts command_runs report script_texts "
     "script_answers cert_writer gen_command prove_command check_command upgrade_command "
     "trim_command fix_command at_command batch_command joined_runs fx_top fx_main"),
)
ABOUT = """It is the clause of the program's one call, and all that this clause rests on:
{definitions:,} definitions in {lines:,} lines, without comments, of {crates} crates. Each is the
text of its file, with the sentence above it. Of {lemmas} lemmas that definitions cite where a value
carries a proof, the types alone stand here. Of a type of code there are its fields and its model.
Words of the toolchain's library aren't here. `docs/PROOFS.md` says how to read it."""

MARKS = ("<!-- made by tools/statement.py --page -->\n", "<!-- end -->\n")


def depth_words(text):
    """The words of a text that stand in no bracket, with '()' for a bracketed part."""
    found, depth = [], 0
    for token in re.findall(r"[(){}\[\]]|[^\s(){}\[\]]+", text):
        if token in "({[":
            depth += 1
        elif token in ")}]":
            depth -= 1
            if depth == 0:
                found.append("()")
        elif depth == 0:
            found.append(token)
    return found


def signature_lines(one):
    """The lines of a term's signature, with comments that stand inside."""
    found = []
    for at, line in enumerate(one.text.split("\n")):
        if at and (not line.startswith(" ") or re.match(r"\s*unfolding\b", line)):
            break
        found.append(line)
    return found


def outside(text, mark):
    """Where `mark` ends in a text, each time that it stands in no bracket."""
    depth = 0
    for m in re.finditer(r"[(){}\[\]]|[^\s(){}\[\]]+", text):
        if m.group(0) in "({[":
            depth += 1
        elif m.group(0) in ")}]":
            depth -= 1
        elif depth == 0 and m.group(0) == mark:
            yield m.end()


def signature(one):
    """The text of a term's type."""
    text = without_comments("\n".join(signature_lines(one)))
    return text[next(outside(text, ":"), len(text)) :]


def result(text):
    """The part of a type after its last arrow."""
    return text[max(outside(text, "→"), default=0) :].strip()


def first_comment(text, mark):
    """The comment that a file begins with, as one line, without its marks; or nothing."""
    found = []
    for line in text.split("\n"):
        m = re.match(rf"\s*{mark}\s?(.*)$", line)
        if not m:
            break
        found.append(m.group(1).strip())
    return " ".join(found).strip()


class Statement:
    """The closure of the top call's clause: `kind` has each node's kind, `clause` the text."""

    def __init__(self, top):
        self.graph = Graph(top, exact=True)
        self.top = top
        self.kind = {}
        self.clause, roots = self.main_clause()
        self.roots = sorted(roots, key=str)
        todo = list(roots)
        while todo:
            key = todo.pop()
            if key in self.kind:
                continue
            self.kind[key] = self.kind_of(key)
            if self.kind[key] != "lemma":
                todo += [it for it in self.graph.cites(key) if it not in self.kind]

    def main_clause(self):
        """The text of the top call's contract, and the nodes that it cites."""
        whole = read(f"{self.top}/{TOP_FILE}")
        at = re.search(rf"(?m)^pub fn {TOP_CALL}\b", whole).start()
        head = whole[at : whole.index("\n{\n", at)]
        uses = [m.groups()[1:] for m in GHOST.finditer(whole)]
        scope = Scope(self.graph, ("Rattle", TOP_CRATE, "src"), whole, uses)
        roots = self.graph.cited(re.sub(r"//.*", "", head), scope, "", known_bound=False)
        words = set(re.findall(r"\b[A-Z]\w+", head))
        repo = self.graph.repo
        for m in CODE_USE.finditer(whole):
            for path, other in leaves(m.group(3)):
                if (other or path[-1]) in words:
                    way = (TOP_CRATE, *path[1:]) if path[0] == "crate" else tuple(path)
                    own = repo.code_home(way)
                    node = self.graph.rust_home(own) if own[0] in repo.listed else None
                    if node:
                        roots.add(node)
        return head, roots

    def kind_of(self, key):
        """'lemma', 'type of code', or what a definition is: a record, a block .."""
        if key[0] == "Code":
            return "type of code"
        if key[0][2] == "proofs":
            return "lemma"
        one = self.graph.units[key]
        if one.kind != "term":
            return one.kind
        return "lemma" if self.is_proof(key, one) else "definition"

    def is_proof(self, key, one):
        """Whether a term's type ends in a relation or a predicate: its value then says nothing."""
        end = result(signature(one))
        words = depth_words(end)
        if not words or words[0] == "Type":
            return False
        if words[0] in ALONE or any(RELATION.match(it) for it in words):
            return True
        if "×" in words or "⊎" in words:
            # a pair of propositions: by its last part
            words = re.split(r"\s[×⊎]\s", end)[-1].strip("() ").split()
            if words[0] in ALONE or any(RELATION.match(it) for it in words):
                return True
        return bool(words) and self.is_predicate(self.graph.scope(key[0]).of.get(words[0]))

    def is_predicate(self, home):
        """Whether a word is a type over values: it has a parameter that isn't a type."""
        node = self.graph.node(*home) if home else None
        it = self.graph.units.get(node) if node and node[0] != "Code" else None
        if it is None:
            return False
        if it.kind in ("record", "data"):
            whole = it.text.split("where")[0]
            head = re.split(r":\s*Type\b", whole)[0]
            parts = re.findall(r"[({][^(){}]*:([^(){}]*)[)}]", head)
            return any("Type" not in part for part in parts) or "→" in whole
        if it.kind == "term":
            text = signature(it)
            types_alone = re.match(r"^\s*(?:\(?\w* ?:? ?Type \d\)? → )+Type", text)
            return result(text).startswith("Type") and "→" in text and not types_alone
        return False

    def text_of(self, key, comments=True):
        """The text of a definition, from its comment on; of a lemma its type alone."""
        if key[0] == "Code":
            got = self.graph.code_file(key[1])
            if not got:
                return ""
            item = self.graph.code_item(got[0], got[1][0])
            return self.code_comment(got[0], got[1][0]) + item if comments and item else item
        one = self.graph.units[key]
        lines = one.module.text.split("\n")
        above = lines[one.comment : one.first] if comments else []
        if self.kind[key] == "lemma" and one.kind == "term":
            return "\n".join(above + signature_lines(one))
        return "\n".join(above + lines[one.first : one.last])

    def code_comment(self, file, name):
        """The lines of comment above a type of code, each with its end."""
        lines = read(file).split("\n")
        item = re.compile(rf"\s*(?:pub(?:\(\w+\))? )?(?:struct|enum|trait) {name}\b")
        at = next((at for at, line in enumerate(lines) if item.match(line)), 0)
        found = []
        while at and re.match(r"\s*(?://|#\[)", lines[at - 1]):
            at -= 1
            if lines[at].lstrip().startswith("//"):
                found.insert(0, lines[at] + "\n")
        return "".join(found)

    def lines(self, key):
        """How many lines a definition has, without comments and blank lines."""
        text = self.text_of(key, comments=False)
        if key[0] != "Code":
            text = without_comments(text)
        return sum(bool(it.strip()) for it in text.split("\n"))

    def where(self, key):
        """The crate of a node."""
        return key[1][1] if key[0] == "Code" else key[0][1]

    def place(self, key):
        """The file of a node, from the top of the repository."""
        if key[0] == "Code":
            return os.path.relpath(self.graph.code_file(key[1])[0], self.top)
        return os.path.relpath(self.graph.units[key].module.file, self.top)

    def name(self, key):
        """A node's name with its crate and module."""
        return ".".join(key[1][1:] if key[0] == "Code" else (*key[0][1:], key[1]))

    def has_text(self, key):
        """Whether a node has text of its own: not so a type of the toolchain's."""
        return bool(self.text_of(key).strip()) if key[0] == "Code" else True

    def standing(self, key):
        """Where a node stands among those of its crate: the module's place, the line."""
        if key[0] == "Code":
            file, rest = self.graph.code_file(key[1])
            return (0, file, read(file).find(f" {rest[0]}"))
        lib = self.graph.repo.modules.get(key[0][:3])
        names = list(lib.children) if lib else []
        at = names.index(key[0][3]) if len(key[0]) > 3 and key[0][3] in names else 999
        return (1 + at, ".".join(key[0]), self.graph.units[key].first)

    def document(self):
        """The nodes in reading order: (subject, crates in order), each crate's nodes in order."""
        of_crate = collections.defaultdict(list)
        for key in self.kind:
            if self.has_text(key):
                of_crate[self.where(key)].append(key)
        order = {name: at for at, name in enumerate(" ".join(it[1] for it in SUBJECTS).split())}
        lost = sorted(set(of_crate) - set(order))
        if lost:
            raise SystemExit(f"no subject in SUBJECTS of tools/statement.py has {', '.join(lost)}")
        seen, found = set(), []
        for crate in sorted(of_crate, key=order.get):
            for key in self.in_order(of_crate[crate]):
                mark = (self.text_of(key), self.place(key))
                if mark not in seen:
                    seen.add(mark)
                    found.append(key)
        return found

    def in_order(self, keys):
        """The nodes of one crate: files so that what one cites comes before it, if that can be."""
        of_file, mine = collections.defaultdict(list), set(keys)
        for key in sorted(keys, key=self.standing):
            of_file[self.place(key)].append(key)
        wants = {}
        for file, own in of_file.items():
            cited = {it for key in own if self.kind[key] != "lemma" for it in self.graph.cites(key)}
            wants[file] = {self.place(it) for it in cited & mine} - {file}
        left = list(of_file)
        while left:
            ready = [file for file in left if not wants[file] & set(left)]
            # in a circle the file that wants the fewest of the others goes first
            file = (ready or sorted(left, key=lambda it: len(wants[it] & set(left))))[0]
            left.remove(file)
            yield from of_file[file]

    def why(self, name):
        """A shortest way from the clause to each definition of that name."""
        parent, todo = {key: None for key in self.roots}, collections.deque(self.roots)
        while todo:
            key = todo.popleft()
            if self.kind.get(key) == "lemma":
                continue
            for it in sorted(self.graph.cites(key), key=str):
                if it not in parent:
                    parent[it] = key
                    todo.append(it)
        for key in parent:
            if f".{self.name(key)}".endswith("." + name):
                way = []
                while key:
                    way.append(key)
                    key = parent[key]
                yield way[::-1]

    def alone(self):
        """For each definition the lines that only it brings in, its own among them."""
        said = {key for key, kind in self.kind.items() if kind != "lemma"}
        size = {key: self.lines(key) for key in said}
        cites = {key: [it for it in self.graph.cites(key) if it in said] for key in said}
        for gone in said:
            seen, todo, left = {gone}, [it for it in self.roots if it != gone], 0
            while todo:
                key = todo.pop()
                if key in said and key not in seen:
                    seen.add(key)
                    left += size[key]
                    todo += cites[key]
            yield sum(size.values()) - left, gone

    def counts(self, keys):
        """How many definitions, lines, crates and lemmas the document has."""
        said = [it for it in keys if self.kind[it] != "lemma"]
        return {"definitions": len(said), "lines": sum(map(self.lines, said)),
                "crates": len({self.where(it) for it in said}), "lemmas": len(keys) - len(said)}

    def rows(self, keys):
        """Definitions, lines and types of code by crate."""
        rows = {}
        for key in keys:
            if self.kind[key] != "lemma":
                row = rows.setdefault(self.where(key), [0, 0, 0])
                row[0] += 1
                row[1] += self.lines(key)
                row[2] += key[0] == "Code"
        return rows

    def page(self, text):
        """A page whose list of files, between its two marks, is made anew."""
        before, _, rest = text.partition(MARKS[0])
        _, _, after = rest.partition(MARKS[1])
        named, of_file = set(re.findall(r"`(\w+)", before)), collections.defaultdict(set)
        for key in self.kind:
            name = self.name(key).rpartition(".")[2]
            if name in named and re.search("[A-Z_]", name) and self.has_text(key):
                of_file[self.place(key)].add(name)
        rows = [f"- `{file}`: " + ", ".join(f"`{name}`" for name in sorted(names))
                for file, names in sorted(of_file.items())]
        lines = [line for row in rows for line in textwrap.wrap(
            row, 100, subsequent_indent="  ", break_long_words=False, break_on_hyphens=False)]
        return before + MARKS[0] + "\n" + "\n".join(lines) + "\n\n" + MARKS[1] + after

    def print_document(self, keys):
        """The document, in Markdown."""
        rows, out = self.rows(keys), print
        out("# The statement\n\n" + ABOUT.format(**self.counts(keys)))
        out("\n| | Subject | Crates | Definitions | Lines |\n|---|---|---|---|---|")
        for at, (subject, crates) in enumerate(SUBJECTS, 1):
            own = [it for it in crates.split() if it in rows]
            sums = [sum(rows[it][column] for it in own) for column in (0, 1)]
            out(f"| {at} | {subject} | {', '.join(own)} | {sums[0]:,} | {sums[1]:,} |")
        out("\n## The clause\n\n```\n" + self.clause + "\n```")
        crate = place = None
        of_crate = {it: (at, subject) for at, (subject, crates) in enumerate(SUBJECTS, 1)
                    for it in crates.split()}
        last = None
        for key in keys:
            if self.where(key) != crate:
                crate = self.where(key)
                if of_crate[crate] != last:
                    last = of_crate[crate]
                    out(f"\n## {last[0]}. {last[1]}")
                out(f"\n### {crate}")
            if self.place(key) != place:
                place = self.place(key)
                mark = "//!?(?!/)" if place.endswith(".rt") else "--"
                out(f"\n#### {place}\n")
                about = first_comment(read(f"{self.top}/{place}"), mark)
                if about:
                    out(about + "\n")
            if self.kind[key] == "lemma":
                out("A lemma, of which the type is to be read:\n")
            out("```\n" + self.text_of(key).strip("\n") + "\n```\n")


class Words(argparse.ArgumentParser):
    """Words of the command line; wrong ones give one line, status 2."""

    def error(self, message):
        self.exit(2, f"{self.prog}: {message}\n")


def words_of(arguments):
    """What the command line asks for."""
    words = Words(prog="statement.py", allow_abbrev=False,
                  description="Prints the program's statement in reading order; with a word below "
                  "its counts, or where they come from.")
    one = words.add_mutually_exclusive_group()
    one.add_argument("--count", action="store_true", help="the counts alone")
    one.add_argument("--quiet", action="store_true", help="not even those")
    one.add_argument("--crates", action="store_true", help="the counts by crate")
    one.add_argument("--largest", metavar="N", type=int, help="the N longest definitions")
    one.add_argument("--alone", metavar="N", type=int, help="the N definitions that alone bring in "
                     "the most lines, with these, their own lines among them")
    one.add_argument("--why", metavar="NAME", help="a shortest way from the clause to each "
                     "definition of that name")
    one.add_argument("--list", action="store_true", help="a line for each: its lines, what it is, "
                     "where it stands")
    one.add_argument("--page", metavar="PAGE", help="writes into a page, between its two marks, in "
                     "which file each definition stands that it names above them")
    one.add_argument("--write", action="store_true", help="lowers the numbers of "
                     "tools/statement.txt to the counts; it raises none")
    return words.parse_args(arguments)


def judged(top, counts, write):
    """1 where a count is above its number in tools/statement.txt, else 0; lowers the numbers."""
    file = f"{top}/tools/statement.txt"
    if not os.path.isfile(file):
        return 0
    text, bad = read(file), 0
    for what, number in re.findall(r"(?m)^(\w+) (\d+)$", text):
        if counts[what] > int(number):
            print(f"the statement has {counts[what]} {what}, and tools/statement.txt allows "
                  f"{number}", file=sys.stderr)
            bad = 1
        elif write:
            text = re.sub(rf"(?m)^{what} \d+$", f"{what} {counts[what]}", text)
    if write:
        with open(file, "w", encoding="utf-8") as out:
            out.write(text)
    return bad


def main(arguments):
    """Prints what the words ask for; gives the status."""
    words = words_of(arguments)
    here = os.path.dirname(os.path.dirname(os.path.abspath(__file__)))
    top = os.getcwd() if os.path.isfile("crates.txt") else here
    it = Statement(top)
    keys = it.document()
    counts = it.counts(keys)
    said = [key for key in keys if it.kind[key] != "lemma"]
    if words.crates:
        for crate, row in sorted(it.rows(keys).items(), key=lambda one: -one[1][1]):
            print(f"{crate:20} {row[0]:5} definitions {row[1]:6} lines, {row[2]} of them types "
                  "of code")
    elif words.largest is not None:
        for key in sorted(said, key=it.lines, reverse=True)[: max(words.largest, 0)]:
            print(f"{it.lines(key):5} {it.kind[key]:12} {it.name(key)}")
    elif words.why is not None:
        ways = list(it.why(words.why))
        if not ways:
            print(f"statement.py: the clause rests on nothing named {words.why}", file=sys.stderr)
            return 2
        for way in ways:
            print(" -> ".join(it.name(key) for key in way))
    elif words.alone is not None:
        found = sorted(it.alone(), key=lambda row: (-row[0], it.name(row[1])))
        for lines, key in found[: max(words.alone, 0)]:
            print(f"{lines:5} {it.lines(key):4} {it.kind[key]:12} {it.name(key)}")
    elif words.list:
        for key in keys:
            print(f"{it.lines(key):5} {it.kind[key]:12} {it.name(key)}")
    elif words.page is not None:
        text = read(words.page)
        if not all(mark in text for mark in MARKS):
            print(f"statement.py: {words.page} hasn't both marks", file=sys.stderr)
            return 2
        with open(words.page, "w", encoding="utf-8") as out:
            out.write(it.page(text))
    elif not (words.count or words.quiet or words.write):
        it.print_document(keys)
    if arguments and not words.quiet:
        print(", ".join(f"{number} {what}" for what, number in counts.items()))
    return judged(top, counts, words.write)


if __name__ == "__main__":
    try:
        status = main(sys.argv[1:])
        sys.stdout.flush()
    except BrokenPipeError:
        # who reads has enough: what is left isn't written
        os.dup2(os.open(os.devnull, os.O_WRONLY), sys.stdout.fileno())
        status = 1
    sys.exit(status)
