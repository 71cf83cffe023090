"""Shared expression nodes: docs/FORMATS.md, "Certificates", the table of nodes.

A node is a tuple: ("var", number), ("lit", number, two, ten), ("neg", a), ("add", a, b),
("sub", a, b), ("mul", a, b), ("div", a, b), ("abs", a) or ("rnd", direction, lsb, a). Its parts
are numbers of earlier nodes.
"""

from __future__ import annotations

from typing import Any, List, Optional, Sequence, Tuple

Node = Tuple[Any, ...]


class Dag:
    """A list of nodes, each once."""

    def __init__(self, nodes: Sequence[Node] = ()) -> None:
        """Has these nodes."""
        self.nodes = []
        self.index = {}
        for n in nodes:
            self.add(n)

    def add(self, node: Node) -> int:
        """The number of the node; a new one goes last."""
        at = self.index.get(node)
        if at is None:
            at = len(self.nodes)
            self.nodes.append(node)
            self.index[node] = at
        return at

    def find(self, node: Node) -> Optional[int]:
        """The number of the node, or None."""
        return self.index.get(node)

    def copy(self) -> Dag:
        """Another list with the same nodes."""
        return Dag(self.nodes)

    def __getitem__(self, i: int) -> Node:
        """Node number i."""
        return self.nodes[i]

    def __len__(self) -> int:
        """How many nodes there are."""
        return len(self.nodes)


def children(node: Node) -> Tuple[int, ...]:
    """The numbers of a node's parts."""
    tag = node[0]
    if tag in ("var", "lit"):
        return ()
    if tag == "rnd":
        return (node[3],)
    return node[1:]


def divisors(dag: Dag, root: int) -> List[int]:
    """The divisors anywhere below the root, by rising number."""
    seen, found, todo = set(), set(), [root]
    while todo:
        i = todo.pop()
        if i in seen:
            continue
        seen.add(i)
        node = dag[i]
        if node[0] == "div":
            found.add(node[2])
        todo.extend(children(node))
    return sorted(found)
