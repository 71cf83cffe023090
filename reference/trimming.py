"""Certificates of answers, and certificates without unused steps.

docs/FORMATS.md, "Certificates", the paragraphs on `prove --cert` and on `trim`.
"""

from __future__ import annotations

from typing import List, Sequence, Set, Tuple

from .certificate import Item
from .script import Script
from .tree import Answer


def used_steps(items: Sequence[Item]) -> Tuple[Set[int], int]:
    """The numbers of the steps that a leaf or dead end rests on, and the number of steps."""
    used = set()
    number = sum(1 for i in items if i[0] == "Step")
    k = number
    for i in reversed(items):
        if i[0] == "Leaf":
            used.update(i[1])
        elif i[0] == "Dead":
            used.add(i[1])
        elif i[0] == "Step":
            k -= 1
            if k in used:
                used.update(i[5])
                if i[4] is not None:
                    used.add(i[4])
    return used, number


def trim(items: Sequence[Item]) -> Tuple[List[Item], int, int]:
    """(items without the unused steps, steps kept, steps before)."""
    used, all_steps = used_steps(items)
    moved = {p: n for n, p in enumerate(sorted(used))}
    out = []
    k = 0
    for i in items:
        if i[0] == "Step":
            if k in used:
                _, rule, arg, fact, with_, premises = i
                out.append(("Step", rule, arg, fact,
                            None if with_ is None else moved[with_],
                            tuple(moved[p] for p in premises)))
            k += 1
        elif i[0] == "Leaf":
            out.append(("Leaf", [moved[p] for p in i[1]]))
        elif i[0] == "Dead":
            out.append(("Dead", moved[i[1]]))
        else:
            out.append(i)
    return out, len(used), all_steps


def items_of(script: Script, marks: Sequence[bool], answer: Answer) -> List[Item]:
    """The items of a traced answer."""
    items = [("Nodes", len(answer.uni.dag))]
    items += [("Node", n) for n in answer.uni.dag.nodes]
    items.append(("Marks", len(marks)))
    items += [("Mark", m) for m in marks]
    if len(answer.trees) > 1:
        items.append(("Cases", len(answer.trees)))
    for _, root in answer.trees:
        todo = [root]
        while todo:
            box = todo.pop()
            items += [("Step",) + s for s in box.steps]
            if box.void:
                items.append(("Dead", box.void_step))
            elif box.children:
                items.append(("Cut",) + box.cut)
                todo.extend(reversed(box.children))
            else:
                items.append(("Leaf", box.goal_steps))
    items.append(("End",))
    return items
