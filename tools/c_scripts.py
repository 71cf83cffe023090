"""The texts of scripts over a path: definitions, hypotheses, goals; and the fixed-point program."""

import re
from collections import namedtuple

from assistants import value_of
from c_nodes import Node, bounds

PROPOSITIONS = 128      # of a script, at most
WAYS = 64               # cases of a script, at most
SIGNS = {"add": "+", "sub": "-", "mul": "*", "div": "/"}
# a goal of a script: its text, the nodes of which it speaks, each by itself or by its twin, and a
# remark that follows it in the script
Claim = namedtuple("Claim", "text roots remark")


def atom(node, twin=False):
    """A node as an operand: a number, its name, or its text in parentheses."""
    if node.op == "lit":
        return "%d" % node.const if node.const >= 0 else "(%d)" % node.const
    if node.name is None:
        return "(%s)" % body(node, twin)
    return node.name + "_exact" * (twin and node.rounds)


def body(node, twin=False):
    """A node's text over its operands. Of the twin, without roundings."""
    a = [atom(x, twin) if isinstance(x, Node) else x for x in node.args]
    if node.op == "shift":
        inner = "%s * 1b%d" % (a[0], -a[1])
        return inner if twin or a[1] <= 0 else "int<%s>(%s)" % (a[2], inner)
    if node.op == "low":
        return "{0} - 1b{1} * int<dn>({0} * 1b-{1})".format(*a)
    inner = "%s %s %s" % (a[0], SIGNS[node.op], a[1])
    return "int<zr>(%s)" % inner if node.op == "div" and not twin else inner


def relation(cond):
    """A condition as a proposition. Whole numbers make strict bounds closed."""
    a, b = cond.left, cond.right
    left, (low, high) = (atom(a), bounds(cond.way, b.const)) if b.op == "lit" else \
        ("%s - %s" % (atom(a), atom(b)), bounds(cond.way, 0))
    if low is None:
        return "%s <= %d" % (left, high)
    return "%s >= %d" % (left, low) if high is None else "%s in [%d,%d]" % (left, low, high)


def claim_of(goal, place):
    """A goal as a claim; `place` tells line and column."""
    text = "%s in [%d,%d]" % (atom(goal.node), goal.ends[0], goal.ends[1])
    remark = "  # %s %s: %s" % (place(goal.where), goal.what, goal.node.text)
    return Claim(text, [(goal.node, False)], remark)


def conditions(path, branch=None):
    """The conditions of a path, and of a branch that is joined in it."""
    if branch is not None and branch.whole:
        return branch.conds
    return path.conds + (branch.all() if branch is not None else [])


def wanted(conds, claims):
    """What a script has to define: {(node's id, of the twin): node}."""
    found = {}
    todo = [(n, False) for c in conds for n in (c.left, c.right)]
    todo += [root for claim in claims for root in claim.roots]
    while todo:
        node, twin = todo.pop()
        twin = twin and node.rounds
        if (id(node), twin) not in found:
            found[id(node), twin] = node
            if node.op == "var":        # the twin of a joined word
                todo += [(node, False)] if twin else []
            else:
                todo += [(x, twin) for x in node.inner()]
    return found


def joins_of(node, branch):
    """The joined words on which a node rests, the nearest first, as far as their ways cover the
    points of a branch, and make at most WAYS cases together."""
    found, todo, seen, many = [], [node], set(), 1
    for n in todo:      # (more are added on the way)
        if id(n) in seen:
            continue
        seen.add(id(n))
        if n.rule is None:
            todo += n.inner()
        elif n.rule[0] == "join" and (n.branch is None or branch is not None and
                                      not branch.whole and branch.within(n.branch)):
            many *= len(n.rule[1])
            if many > WAYS:
                break
            found.append(n)
            todo += [v for _, v in n.rule[1]]
    return found


def cases_of(word):
    """What is known of a joined word, way by way, as cases of the hypotheses."""
    some = []
    for conds, v in word.rule[1]:
        is_ = "%s in [%d,%d]" % (word.name, v.const, v.const) if v.op == "lit" else \
            "%s - %s in [0,0]" % (word.name, atom(v))
        some.append(" /\\ ".join([relation(c) for c in conds] + [is_]))
    return "\n  \\/ ".join(some)


def script(path, claims, conds, place, assumed=(), hints=(), errors=None, joins=()):
    """A script with these goals: definitions and hypotheses as far as these and the conditions use
    them. `errors`: {joined word's id: (low, high) as texts}, which bound its error, so that its
    twin is a number of which these know; nothing if one that is needed isn't known. `joins` are
    joined words that are defined by cases."""
    nodes = wanted(conds, claims + [Claim("", [(n, False) for w in joins for n in w.feeds()], "")])
    lines, own, hyps = [], [], []
    for node in path.order:
        mine, twin = (id(node), False) in nodes, (id(node), True) in nodes
        if node.op == "var":
            if twin:
                if (errors or {}).get(id(node)) is None:
                    return None
                hyps += twin_of_join(node, path.inputs[node.text], errors[id(node)])
            continue
        if mine:
            lines.append("%s = %s;  # %s: %s" % (atom(node), body(node), place(node), node.text))
            own += low_hints(node)
        if twin:
            lines.append("%s = %s;" % (atom(node, True), body(node, True)))
    said = set(re.findall(r"\w+", " ".join([c.text for c in claims] + list(assumed)
                                           + list(hints))))
    inputs = ["{0} in [{1},{2}] /\\ @FIX({0},0)".format(n.name, low, high)
              for n, low, high, _ in path.inputs.values()
              if (id(n), False) in nodes or n.name in said]
    hyps = inputs + hyps + list(dict.fromkeys(map(relation, conds))) + list(assumed)
    text = "\n".join(lines) + "\n" if lines else ""
    text += "{ %s\n  -> %s\n}\n" % ("\n  -> ".join(["\n  /\\ ".join(hyps or ["0 in [0,0]"])]
                                                + [cases_of(w) for w in joins]),
                                    "\n  /\\ ".join(c.text + c.remark for c in claims))
    return text + "".join(h + "\n" for h in own + list(hints))


def twin_of_join(node, given, ends):
    """Hypotheses on the twin of a joined word, by its error and its range."""
    found = ["%s - %s in [%s,%s]" % ((node.name, atom(node, True)) + ends)]
    low, high = map(value_of, ends)
    around = [digits(x).strip("()") for x in (given.low - high, given.high - low)]
    if all(len(text) < 30 for text in around):
        found.append("%s in [%s,%s]" % (atom(node, True), *around))
    return found


def digits(x):
    """A fraction over a power of 2 as an operand; None of another."""
    e = x.denominator.bit_length() - 1
    if x.denominator != 1 << e:
        return None
    text = "%db-%d" % (abs(x.numerator), e) if e else "%d" % abs(x)
    return "(-%s)" % text if text and x < 0 else text


def low_hints(node):
    """What intervals need to know of low bits, and of a number less its own low bits."""
    if node.op == "low":
        form = "{0} -> -1b{2} * (int<dn>({1} * 1b-{2}) - {1} * 1b-{2});"
        return [form.format(node.name, atom(node.args[0]), node.args[1])]
    if node.op == "sub" and node.args[1].op == "low" and node.args[1].args[0] is node.args[0]:
        form = "{0} -> 1b{2} * int<dn>({1} * 1b-{2});"
        return [form.format(node.name, atom(node.args[0]), node.args[1].args[1])]
    return []


def room(path, conds, assumed):
    """How many goals a script of this path may have."""
    return max(1, PROPOSITIONS - 2 * len(path.inputs) - len(conds) - len(assumed))


def form(kind):
    """A type as a format of a fixed-point program."""
    return "%s%d.0" % ("s" if kind[1] else "u", kind[0])


def program(path):
    """The same as a fixed-point program, or nothing if that has no form for it: branches, words of
    a rule, quotients, low bits, and types past 60 bits."""
    if path.conds or any(n.op in ("div", "low", "var") or path.kinds[id(n)][0] > 60
                         for n in path.order) or any(g.branch is not None for g in path.goals):
        return None
    lines, minus = [], set()
    for n, low, high, kind in path.inputs.values():
        if kind[0] > 60:
            return None
        lines.append("in %s : %s [%d,%d];" % (n.name, form(kind), low, high))
    for n in path.order:
        kind = path.kinds[id(n)]
        for x in n.inner():     # no operand of a program has a sign
            if x.op == "lit" and x.const < 0 and x.const not in minus:
                minus.add(x.const)
                lines.append("minus%d : %s dn = -%d;" % (-x.const, form(kind), -x.const))
        a = ["minus%d" % -x.const if x.op == "lit" and x.const < 0 else atom(x)
             for x in n.inner()]
        text = "%s %s %s" % (a[0], SIGNS[n.op], a[1]) if n.op in SIGNS else \
            "%s %s %d" % (a[0], ">>" if n.args[1] > 0 else "<<", abs(n.args[1]))
        way = n.args[2] if n.op == "shift" else "dn"
        lines.append("%s : %s %s = %s;" % (n.name, form(kind), way, re.sub(r"^0 - ", "-", text)))
    casts = [g for g in path.goals if g.what.startswith("conversion")]
    for k, goal in enumerate(casts, 1):
        kind = int(re.search(r"\d+", goal.what).group()), "uint" not in goal.what
        if kind[0] > 60:
            return None
        lines.append("cast%d : %s dn = %s;" % (k, form(kind), atom(goal.node)))
    outs = dict.fromkeys(atom(v.node) for v in path.outs.values() if v.node.op != "lit")
    taken = {n.name for n in path.order} | {i.node.name for i in path.inputs.values()}
    if any("cast%d" % k in taken for k in range(1, len(casts) + 1)) or "out" in taken or \
            any("minus%d" % -x in taken for x in minus) or not outs:
        return None
    return "\n".join(lines + ["out %s;" % o for o in outs]) + "\n"
