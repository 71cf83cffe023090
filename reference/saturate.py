"""The strongest known facts of a box: docs/FORMATS.md, "What is answered", "Facts".

The facts that are known by derivations of one more round follow from those of the rounds before.
Every rule is isotone, so the strongest facts give the strongest conclusions; if a stronger
interval leaves rule 28 without a multiple, rule 90 gives VOID of the same premises. A round looks
only at rules with a premise that changed in the round before: another would give what it gave.
"""

from __future__ import annotations

from typing import Any, List, Optional, Sequence, Tuple

from .facts import NONE, VOID, Slot, Value, meet_values, stronger_value
from .grid import WHOLE, finite, inside
from .rule_values import VOIDED
from .script import Goal, Script
from .universe import Universe

# The end of a derivation: rule, arg, slot and value.
Leaf = Tuple[int, int, Slot, Value]


class Table:
    """values[n] is the strongest known value of slot number n, or None."""

    def __init__(self, values: List[Optional[Value]],
                 places: Optional[List[Optional[int]]]) -> None:
        """Values and steps of the slots."""
        self.values = values
        self.places = places        # the step of each slot, where steps are kept
        self.void = False
        self.pending = set()        # slots whose users weren't applied again yet
        self.steps = []             # (rule, arg, fact, with, premises)
        self.void_step = None


def base_facts(uni: Universe, script: Script) -> List[Leaf]:
    """The leaves of derivations at the root: (rule, arg, slot, value)."""
    out = [(100, k, f[0], f[1]) for k, f in enumerate(script.facts())]
    for _, v in script.variables:
        out.append((101, 0, ("B", v), WHOLE))
    return out


def settle(uni: Universe, leaves: Sequence[Leaf], parent: Optional[Table], rounds: int,
           first: Optional[int] = None) -> Table:
    """The table of a box from its own leaves and the parent's table.

    With `first`, the number of the first step, the steps are kept.
    """
    tracing = first is not None
    slots = uni.slots
    if parent is None:
        t = Table([None] * len(slots), [None] * len(slots) if tracing else None)
    else:
        t = Table(list(parent.values), list(parent.places) if tracing else None)
        t.pending = set(parent.pending)
    values, places, steps = t.values, t.places, t.steps
    next_step = first

    def improve(n: int, v: Value, rule: int, arg: int, premises: Tuple[Optional[int], ...]) -> Any:
        """Meets slot n with v; True where it changed, VOID where it is void."""
        nonlocal next_step
        old = values[n]
        kind = slots[n][0]
        if old is None:
            new = v
        elif old == v:
            return False
        else:
            new = meet_values(kind, old, v)
            if new == old and new is not VOID:
                return False
        if tracing:
            alone = new is not VOID and (old is None or stronger_value(kind, v, new))
            fact = VOID if new is VOID else (slots[n], new)
            steps.append((rule, arg, fact, None if alone else places[n], premises))
            if new is VOID:
                t.void_step = next_step
            else:
                places[n] = next_step
            next_step += 1
        if new is VOID:
            t.void = True
            return VOID
        values[n] = new
        return True

    changed = set(t.pending)
    for rule, arg, slot, v in leaves:
        n = uni.slot_number[slot]
        r = improve(n, v, rule, arg, ())
        if r is VOID:
            return t
        if r:
            changed.add(n)
    fast, users, instances = uni.fast, uni.users, uni.instances
    start = uni.free if parent is None else ()
    for _ in range(rounds):
        work = set(start)
        start = ()
        for n in changed:
            work.update(users[n])
        if not work:
            changed = set()
            break
        found = []
        for i in sorted(work):
            value, c, target, premises = fast[i]
            args = [values[p] for p in premises]
            if None in args:
                continue
            v = value(c, *args)
            if v is None:
                continue
            if v == VOIDED:
                if tracing:
                    rule, arg = instances[i][:2]
                    steps.append((rule, arg, VOID, None, tuple(places[p] for p in premises)))
                    t.void_step = next_step
                t.void = True
                return t
            old = values[target]
            if old == v:
                continue
            if old is not None and stronger_value(slots[target][0], old, v):
                continue
            if tracing:
                found.append((i, target, v, tuple(places[p] for p in premises)))
            else:
                found.append((i, target, v, ()))
        changed = set()
        for i, target, v, premises in found:
            rule, arg = instances[i][:2]
            r = improve(target, v, rule, arg, premises)
            if r is VOID:
                return t
            if r:
                changed.add(target)
        if not changed:
            break
    t.pending = changed
    return t


def goal_settled(goal: Goal, value: Optional[Value]) -> bool:
    """Whether the strongest known value settles the goal."""
    if value is None:
        return False
    if value == NONE:
        return True
    if goal.ask:
        return finite(value)
    return goal.want is not None and inside(value, goal.want)


def open_goal(uni: Universe, goals: Sequence[Goal], table: Table) -> Optional[int]:
    """The least goal that isn't settled, from 0, or None."""
    for k, g in enumerate(goals):
        if not goal_settled(g, table.values[uni.slot_number[g.slot]]):
            return k
    return None
