"""A ray as a reason: weights of demand and reserve that are as few and as plain as the instance allows, in words."""
from __future__ import annotations

from fractions import Fraction
from typing import Any, Callable, Iterator, List, Optional, Tuple

from schedule_view.amounts import nearest_text, short_text
from schedule_view.refusal import shown

from .hours import hour_list, joined
from .reason import Reason
from .system import Decided, Most, System, Weights

# how many units are told one by one
UNITS_TOLD = 12
# weights are rounded to so many parts of the greatest one, if they can be
PARTS, FINE_PARTS = (1, 2, 4), (1, 2, 3, 4, 5, 6, 8, 10, 20, 50, 100)
# of so many hours each pair is tried by itself
MOST_HOURS = 6
# after walks of units over so many hours in all nothing plainer is sought
MOST_WALKED = 200_000
# how many hours of a sum are told one by one
HOURS_TOLD = 12
# demand that is so many times that of the hours beside it looks like a slip
SLIP = 3


def ray_reason(system: System, table: Any, decided: Decided, is_exact: bool) -> Optional[Reason]:
    """Why no schedule keeps a ray where this is decided; None where weights of demand and reserve alone don't tell."""
    weights = Weights(tuple(table.pi), tuple(table.mu))
    if not weights.size:
        return None
    for ramps in (False, True):
        found = _plainest(system, weights, decided, ramps)
        if found:
            return told(system, found, decided, ramps)
        if not ramps and is_exact and not _holds(system, weights, decided, True):
            return None
    return None


def told(system: System, weights: Weights, decided: Decided, is_exact: bool) -> Optional[Reason]:
    """The weights as a reason; None where they exclude nothing there."""
    most = system.most(weights, decided, is_exact)
    if most is None or most.excess <= 0:
        return None
    sentence, details = _words(system, weights, most, is_exact)
    return Reason(("weights", weights, is_exact), sentence, details, weights, is_exact)


def _holds(system: System, weights: Weights, decided: Decided, is_exact: bool) -> bool:
    most = system.most(weights, decided, is_exact)
    return most is not None and most.excess > 0


def _plainest(system: System, weights: Weights, decided: Decided, is_exact: bool) -> Optional[Weights]:
    """Fewer and rounder weights that still exclude every schedule; None where these exclude none."""

    def holds(tried: Weights) -> bool:
        return tried.size > 0 and _holds(system, tried, decided, is_exact)

    start = next((tried for tried in (*map(weights.rounded, PARTS), weights) if holds(tried)), None)
    if start is None:
        return None
    limit = system.walks + MOST_WALKED // system.periods
    found = _fewer(start, holds, lambda: system.walks > limit)
    if not _is_plain(found):
        tried = (*_simple(found), *map(found.rounded, FINE_PARTS))
        found = next((it for it in tried if system.walks <= limit and holds(it)), found)
    return found


def _is_plain(weights: Weights) -> bool:
    """Whether the weights are of one hour, or of the demand of two."""
    hours = {t for _, t in weights.places()}
    return weights.size == 1 and (len(hours) == 1 or len(hours) == 2 and sorted(filter(None, weights.demand)) == [-1, 1])


def _simple(weights: Weights) -> Iterator[Weights]:
    """Plain weights of the same hours: of one of them, and of a rise or a fall between two, without reserve and with that of the later."""
    hours = sorted({t for _, t in weights.places()})
    if len(hours) > MOST_HOURS:
        return
    count = len(weights.demand)
    ends = [(None, b) for b in hours] + [(a, b) for a in hours for b in hours if a < b]
    for first, last in ends:
        for pi, mu in ((1, 0), (1, 1), (-1, 0)):
            demand, reserve = [0] * count, [0] * count
            demand[last - 1], reserve[last - 1] = pi, mu
            if first:
                demand[first - 1] = -pi
            yield Weights(tuple(demand), tuple(reserve))


def _fewer(weights: Weights, holds: Callable[[Weights], bool], is_enough: Callable[[], bool]) -> Weights:
    """Drops weights, the smallest first and many at once, as long as the others hold."""
    size = len(weights.places()) // 2
    while size:
        places = weights.places()
        for first in range(0, len(places), size):
            fewer = weights.without(places[first : first + size])
            if is_enough():
                return weights
            if holds(fewer):
                weights = fewer
        size //= 2
    return weights


def _words(system: System, weights: Weights, most: Most, is_exact: bool) -> Tuple[str, List[str]]:
    """What the weights say, and what the parts of the system give."""
    hours = sorted({t for _, t in weights.places()})
    if _is_plain(weights):
        return (_one_hour if len(hours) == 1 else _two_hours)(system, weights, most, is_exact)
    return _many_hours(system, weights, most, is_exact)


def _mw(watts: int) -> str:
    return f"{short_text(watts)} MW"


def _one_hour(system: System, weights: Weights, most: Most, is_exact: bool) -> Tuple[str, List[str]]:
    """Too much or too little is asked for in one hour."""
    t = weights.places()[0][1]
    pi, mu = weights.demand[t - 1], weights.reserve[t - 1]
    demand, reserve = f"demand is {_mw(system.demand[t - 1])}", f"{_mw(system.reserves[t - 1])}"
    ramps = ", with the ramps and times that lead there," if is_exact else ""
    details = [*_beside(system, t, bool(pi), bool(mu), is_exact), *_parts(system, weights, most)]
    if pi < 0 and mu:
        lead = f"hour {t}: {demand} and reserve {reserve}"
        return f"{lead}; with so much reserve the units{ramps} give at least {_mw(-most.given + mu * system.reserves[t - 1])}.", details
    if pi < 0:
        return f"hour {t}: {demand}; all units at their least{ramps} give {_mw(-most.given)}.", details
    if not pi:
        return f"hour {t}: reserve is {reserve}; all units{ramps} have room for {_mw(most.given)} at most.", details
    asked = f"{demand} and reserve {reserve}" if mu else demand
    return f"hour {t}: {asked}; all units at their most{ramps} give {_mw(most.given)}.", details


def _beside(system: System, t: int, has_demand: bool, has_reserve: bool, is_exact: bool) -> List[str]:
    """The demand and the reserve of the hours beside one; where ramps lead there only what looks like a slip."""
    hours = [it for it in (t - 1, t + 1) if 1 <= it <= system.periods]
    rows = [("demand", "demand", system.demand)] * has_demand + [("reserve", "reserves", system.reserves)] * has_reserve
    lines = []
    for word, field, row in rows if hours else ():
        texts = [f"{_mw(row[it - 1])} in hour {it}" for it in hours]
        slip = _slip(row[t - 1], [row[it - 1] for it in hours])
        asked = f" Hour {t} has {slip}: is entry {t} of `{field}` as it should be?" if slip else ""
        if slip or not is_exact:
            lines.append(f"Beside it {word} is {joined(texts)}.{asked}")
    return lines


def _slip(here: int, beside: List[int]) -> str:
    """How many times as much, or which part, a number is that is far from those beside it, like one with a digit too many."""
    greatest, least = max(beside), min(beside)
    if 0 < SLIP * greatest <= here:
        return f"{nearest_text(Fraction(10 * here // greatest, 10))} times as much"
    if 0 < SLIP * here <= least:
        return f"1/{least // here} of that"
    return ""


def _two_hours(system: System, weights: Weights, most: Most, is_exact: bool) -> Tuple[str, List[str]]:
    """Demand rises or falls by more than the units can follow."""
    first, last = (t for t, pi in enumerate(weights.demand, 1) if pi)
    is_rise = weights.demand[last - 1] > 0
    before, after = system.demand[first - 1], system.demand[last - 1]
    how = "each by its ramps and times" if is_exact else "each by its own rules"
    wanted = [t for t, mu in enumerate(weights.reserve, 1) if mu]
    details = _parts(system, weights, most)
    if not wanted:
        change, verb, can = (after - before, "rises", "rise") if is_rise else (before - after, "falls", "fall")
        asked = f"demand {verb} by {_mw(change)} from hour {first} to hour {last}, from {_mw(before)} to {_mw(after)}"
        return f"{asked}; all units, {how}, can {can} by {_mw(most.given)} at most.", details
    reserve = sum(system.reserves[t - 1] for t in wanted)
    asked = f"demand goes from {_mw(before)} in hour {first} to {_mw(after)} in hour {last}, with {_mw(reserve)} of reserve in {hour_list(wanted)}"
    change = f"{'a rise' if is_rise else 'a fall'} with room for reserve of {_mw(most.wanted)} together"
    return f"{asked}, {change}; all units, {how}, can {_mw(most.given)} at most.", details


def _many_hours(system: System, weights: Weights, most: Most, is_exact: bool) -> Tuple[str, List[str]]:
    """A weighed sum over several hours."""
    parts = []
    for sign, link in ((1, ", plus "), (-1, ", less ")):
        for row, word in ((weights.demand, "demand"), (weights.reserve, "reserve")):
            hours = [t for t, n in enumerate(row, 1) if n * sign > 0]
            if hours:
                parts.append((link, f"{word} of {_weighed_hours(row, hours, weights.size)}"))
    first, *others = parts
    asked = ("" if first[0] == ", plus " else "less ") + first[1] + "".join(link + words for link, words in others)
    how = ", each by its ramps and times," if is_exact else ""
    wanted, given = _apart(Fraction(most.wanted, weights.size), Fraction(most.given, weights.size))
    return f"{asked}: that is {wanted} MW; all units{how} give at most {given} MW of it.", _parts(system, weights, most)


def _apart(first: Fraction, second: Fraction) -> Tuple[str, str]:
    """Two numbers of watts as megawatts, with as few decimals as tell them apart."""
    for decimals in (2, 4):
        texts = tuple(nearest_text(Fraction(round(it / 10 ** (6 - decimals)), 10**decimals)) for it in (first, second))
        if texts[0] != texts[1]:
            break
    return texts[0], texts[1]


def _weighed_hours(row: Tuple[int, ...], hours: List[int], size: int) -> str:
    """Hours, each with its weight where not all weights are 1."""
    if all(abs(row[t - 1]) == size for t in hours):
        return hour_list(hours)
    texts = []
    for t in hours[:HOURS_TOLD]:
        part = Fraction(abs(row[t - 1]), size)
        weight = str(part) if part.denominator <= max(FINE_PARTS) else f"{float(part):.3g}"
        texts.append(f"{t}" if part == 1 else f"{t} (weight {weight})")
    if len(hours) > HOURS_TOLD:
        texts.append(f"{len(hours) - HOURS_TOLD} more")
    return ("hour " if len(hours) == 1 else "hours ") + joined(texts)


def _parts(system: System, weights: Weights, most: Most) -> List[str]:
    """What the parts give to the sum, the largest first."""
    sign = -1 if max(weights.demand + weights.reserve) <= 0 else 1
    pairs = list(zip(system.names, most.thermal)) + list(zip(system.renewable_names, most.renewable))
    told = [(sign * watts, name) for name, watts in pairs if watts]
    told.sort(key=lambda it: -abs(it[0]))
    lines = []
    if told:
        texts = [f"{shown(name)} {_plain(weights, watts)}" for watts, name in told[:UNITS_TOLD]]
        rest = sum(watts for watts, _ in told[UNITS_TOLD:])
        if len(told) > UNITS_TOLD:
            texts.append(f"{len(told) - UNITS_TOLD} others {_plain(weights, rest)}")
        lines.append(f"By unit, in MW: {', '.join(texts)}.")
    idle = len(pairs) - len(told)
    if idle and told:
        lines.append(f"{idle} of {len(pairs)} units {'gives' if idle == 1 else 'give'} nothing to it.")
    if most.short:
        lines.append(f"What may be short at its price is counted in: {_plain(weights, most.short)} MW.")
    return lines


def _plain(weights: Weights, watts: int) -> str:
    part = Fraction(watts, weights.size)
    return short_text(int(part)) if part.denominator == 1 else nearest_text(Fraction(round(part / 10**4), 100))
