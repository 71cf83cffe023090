"""Scripts written anew from their nodes, so that a node can be replaced wherever it stands."""

from script_text import children, literal_of

LEVEL = {"add": 1, "sub": 1, "mul": 2, "div": 2, "neg": 3}
SIGN = {"add": "+", "sub": "-", "mul": "*", "div": "/"}


class Writer:
    """A script's text with some nodes replaced. `replaced` is {node: node}: each stands for the
    other in definitions, formula and hints; {} writes the script as it is, with roundings written
    out."""

    def __init__(self, script, replaced):
        self.script, self.memo, self.names = script, {}, {}
        self.replaced = replaced
        lines = []
        for name, node in script.defined.items():
            node = self.new(node)
            lines.append("%s = %s;\n" % (name, self.text(node, 0, True)))
            if script.nodes[node][0] not in ("var", "lit"):
                self.names.setdefault(node, name)
        parts = [
            " \\/ ".join(" /\\ ".join(self.claim(claim) for claim in some) for some in part)
            for part in script.parts
        ]
        self.head, self.parts = "".join(lines), parts
        self.hints = [self.hint(hint) for hint in script.hints]

    def written(self, goals):
        """The script's text with these goals, as texts."""
        parts = self.parts + [" /\\ ".join(goals)]
        return "%s{ %s }\n%s" % (
            self.head,
            "\n  -> ".join(parts),
            "".join(h + "\n" for h in self.hints),
        )

    def new(self, node):
        """What stands for a node."""
        if node not in self.memo:
            kind = self.script.nodes[node]
            if node in self.replaced:
                self.memo[node] = self.new(self.replaced[node])
            elif not children(kind):
                self.memo[node] = node
            else:
                front = kind[:3] if kind[0] == "rnd" else kind[:1]
                inner = tuple(self.new(child) for child in children(kind))
                self.memo[node] = self.script.node(front + inner)
        return self.memo[node]

    def text(self, node, level=0, root=False):
        """A node's text, in parentheses where it binds less than `level`; names that are defined
        already stand for their nodes, but for the root's."""
        if not root and node in self.names:
            return self.names[node]
        kind = self.script.nodes[node]
        if kind[0] == "var":
            return kind[1]
        if kind[0] == "lit":
            return self.script.spelled.get(node) or literal_of(kind[1])
        if kind[0] == "rnd":
            return "fixed<%d,%s>(%s)" % (kind[2], kind[1], self.text(kind[3]))
        if kind[0] == "abs":
            return "|%s|" % self.text(kind[1])
        mine = LEVEL[kind[0]]
        if kind[0] == "neg":
            text = "-" + self.text(kind[1], 3)
        else:
            text = "%s %s %s" % (
                self.text(kind[1], mine),
                SIGN[kind[0]],
                self.text(kind[2], mine + 1),
            )
        return "(%s)" % text if mine < level else text

    def says(self, claim):
        """The expression of a claim, with both sides of a `-/`."""
        left = self.text(self.new(claim.left))
        return (
            left if claim.kind != "rel" else "%s -/ %s" % (left, self.text(self.new(claim.right)))
        )

    def claim(self, claim):
        if claim.kind == "fix":
            return "@FIX(%s,%d)" % (self.says(claim), claim.lower)
        at = claim.text.find(claim.says, 3 if claim.negated else 0)
        return "not " * claim.negated + self.says(claim) + claim.text[at + len(claim.says) :]

    def hint(self, hint):
        if hint.kind == "cut":
            return hint.text
        left = self.text(self.new(hint.left))
        if hint.kind == "halve":
            return "%s $ %s;" % (left, ", ".join(hint.names))
        right = self.text(self.new(hint.right))
        if hint.kind == "like":
            return "%s ~ %s;" % (left, right)
        needs = ", ".join(
            "%s %s %s" % (self.text(self.new(node)), sign, literal_of(bound))
            for node, sign, bound in hint.needs
        )
        return "%s -> %s%s;" % (left, right, needs and " { %s }" % needs)
