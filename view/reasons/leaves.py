"""The leaves of a certificate's tree, and the reasons that exclude them, those of most leaves first."""
from __future__ import annotations

from dataclasses import dataclass
from typing import Any, Dict, Iterable, Iterator, List, Optional, Tuple

from schedule_view.amounts import short_text
from schedule_view.refusal import shown

from .hours import joined
from .rays import ray_reason, told
from .reason import Reason
from .rules import below_minimum, decided_words, rule_words, rules_in_the_way
from .system import Decided, System

# of so many leaves reasons are sought
MOST_LEAVES = 300


@dataclass(frozen=True)
class Leaf:
    """A leaf: the number of its node, its word and number, and what is decided on its path."""

    node: int
    word: str
    number: int
    decided: Decided

    @property
    def is_exact(self) -> bool:
        """Whether it speaks of exact values."""
        return self.word.startswith("exact")


@dataclass(frozen=True)
class Shared:
    """A reason, and the leaves that it excludes; it may hold whatever is decided."""

    reason: Reason
    leaves: List[Leaf]
    is_general: bool


class Unfounded(Exception):
    """A leaf that isn't as it says, by its node."""

    def __init__(self, leaf: Leaf) -> None:
        super().__init__(f"node {leaf.node}: the instance doesn't bear out \"{leaf.word} {leaf.number}\"; `uc check` refuses such a certificate")


def leaves_of(nodes: List[List[Any]]) -> Iterator[Leaf]:
    """The leaves in the order of their lines."""
    path: List[Tuple[int, int, int]] = []
    for node, (word, number, *period) in enumerate(nodes, 1):
        if word == "split":
            path.append((number, period[0], 0))
            continue
        decided: Decided = {}
        for g, t, on in path:
            decided.setdefault(g, {})[t] = on
        yield Leaf(node, word, number, decided)
        while path and path[-1][2]:
            path.pop()
        if path:
            g, t, _ = path.pop()
            path.append((g, t, 1))


def reasons_of(system: System, certificate: Any) -> Tuple[List[Shared], int]:
    """The reasons, those of most leaves first, and how many leaves weren't looked at."""
    leaves = list(leaves_of(certificate.nodes))
    found: Dict[Tuple[object, ...], Tuple[Reason, List[Leaf]]] = {}
    for leaf in leaves[:MOST_LEAVES]:
        reason = _known(system, leaf, [reason for reason, _ in found.values()]) or _reason(system, certificate, leaf)
        found.setdefault(reason.key, (reason, []))[1].append(leaf)
    shared = [_shared(system, reason, its, len(leaves) > 1) for reason, its in found.values()]
    shared.sort(key=lambda it: (-it.is_general, -len(it.leaves)))
    if shared[0].is_general:
        return [Shared(shared[0].reason, leaves, True)], 0
    return shared, max(len(leaves) - MOST_LEAVES, 0)


def _known(system: System, leaf: Leaf, reasons: List[Reason]) -> Optional[Reason]:
    """A reason that was found at another leaf, where it holds at this one too."""
    for reason in reasons:
        if reason.weights and told(system, reason.weights, leaf.decided, reason.is_exact):
            return reason
    return None


def _shared(system: System, reason: Reason, leaves: List[Leaf], has_splits: bool) -> Shared:
    """A reason with its leaves, told by the root where it holds there, and else by the first of them."""
    general = _at_root(system, reason, leaves[0]) if has_splits else None
    return Shared(general or reason, leaves, general is not None)


def _at_root(system: System, reason: Reason, leaf: Leaf) -> Optional[Reason]:
    """The reason as it holds whatever is decided; None where it doesn't."""
    if reason.unit:
        return _empty(system, reason.unit, Leaf(1, leaf.word, reason.unit, {}), reason.is_exact)
    if not reason.weights:
        return None
    return told(system, reason.weights, {}, reason.is_exact) or told(system, reason.weights, {}, True)


def _reason(system: System, certificate: Any, leaf: Leaf) -> Reason:
    """Why a leaf has no schedule. Unfounded where it may have one."""
    if leaf.word in ("empty", "exact-empty"):
        reason = _empty(system, leaf.number, leaf, leaf.is_exact)
        if reason:
            return reason
        raise Unfounded(leaf)
    table = certificate.tables[leaf.number - 1]
    priced = sorted({g for g, _ in table.ramps})
    if table.scale or leaf.word not in ("ray", "exact-ray"):
        raise Unfounded(leaf)
    value = system.value(table, leaf.decided, leaf.is_exact)
    if value is not None and value <= 0:
        raise Unfounded(leaf)
    every = range(1, len(system.names) + 1)
    if value is None:
        reason = _first_empty(system, every, leaf, leaf.is_exact)
    else:
        reason = _below(system, table) or _first_empty(system, priced, leaf, True)
        reason = reason or ray_reason(system, table, leaf.decided, leaf.is_exact) or _first_empty(system, every, leaf, True)
    if reason is None:
        raise Unfounded(leaf)
    return reason


def _first_empty(system: System, units: Iterable[int], leaf: Leaf, exact: bool) -> Optional[Reason]:
    """The rules of the first of some units that has nothing left at a leaf; None where each has something."""
    return next(filter(None, (_empty(system, g, leaf, exact) for g in units)), None)


def _empty(system: System, g: int, leaf: Leaf, exact: bool) -> Optional[Reason]:
    """The rules that leave a unit nothing at a leaf, its ramps among them with exact values; None where something is left."""
    decided = leaf.decided.get(g, {})
    rules = rules_in_the_way(system, g, decided, exact)
    if not rules:
        return None
    words = [rule_words(system, g, rule, decided) for rule in rules]
    what = "no outputs of its own" if any(rule in ("M11", "M12") for rule in rules) else "no commitment"
    sentence = f"unit {shown(system.names[g - 1])} has {what}: {joined(words)}."
    return Reason(("unit", g, tuple(rules)), sentence, unit=g, is_exact=exact)


def _below(system: System, table: Any) -> Optional[Reason]:
    """The units that begin so far below their minimum that no rise reaches it, where a ray names nothing else."""
    if any(table.pi + table.mu) or any(t > 1 or down for (_, t), (_, down) in table.ramps.items()):
        return None
    lacking = [(g, lack) for g, lack in below_minimum(system) if (g, 1) in table.ramps]
    if not lacking:
        return None
    texts = []
    for g, lack in lacking:
        unit, name = system.unit(g), shown(system.names[g - 1])
        output = f"{short_text(unit.p0 + unit.pmin)} MW before hour 1, {short_text(-unit.p0)} MW below its minimum"
        texts.append(f"{name} starts {short_text(lack)} MW below what its ramp of {short_text(unit.ramp_up)} MW an hour can reach ({output})")
    return Reason(("below", *lacking), f"hour 1: {joined(texts)}.", ["The ramp holds in an hour in which the unit is off, too."])


def decisions(system: System, decided: Decided) -> str:
    """What a leaf has decided, in words; nothing at the root."""
    texts = [f"{shown(system.names[g - 1])} {decided_words(its)}" for g, its in sorted(decided.items())]
    return "; ".join(texts)
