"""Demand and reserve of each hour beside what the units can give by then from their initial states, and what they can't help giving."""
from __future__ import annotations

from dataclasses import dataclass
from typing import List, Optional, Tuple

from .findings import Finding, Findings, megawatts
from .states import NO_SCHEDULE
from .units import System, Unit


@dataclass(frozen=True)
class Reach:
    """By hour, in watts: the most that a unit can give, with reserve and without, and the least that it can't help giving."""

    output: List[int]
    with_reserve: List[int]
    least: List[int]


def reach_of(unit: Unit, periods: int) -> Reach:
    """What the unit's own rules leave it; no schedule gives more, or less."""
    output, with_reserve = [0] * periods, [0] * periods
    for run in (_from_before(unit, periods), _from_start(unit, periods)):
        for t, (p, room) in enumerate(run):
            if p is not None:
                output[t] = max(output[t], unit.least + max(p, 0))
                with_reserve[t] = max(with_reserve[t], unit.least + max(room, 0))
    return Reach(output, with_reserve, _least(unit, periods))


_Run = List[Tuple[Optional[int], int]]


def _from_before(unit: Unit, periods: int) -> _Run:
    """Output above the minimum, and output with reserve, where the unit stays on from before the first hour."""
    return _risen(unit, unit.first, periods) if unit.is_on_before else []


def _from_start(unit: Unit, periods: int) -> _Run:
    """The same where it starts as soon as its minimum times allow, which leaves it the most in each later hour."""
    earliest = unit.held_on + 1 + unit.down if unit.is_on_before else unit.held_off + 1
    room = min(unit.start_cap, unit.ramp_up)
    if room < 0 or earliest > periods:
        return []
    p = min(room, unit.width)
    return [(None, 0)] * (earliest - 1) + [(p, room)] + _risen(unit, p, periods - earliest)


def _risen(unit: Unit, p: int, periods: int) -> _Run:
    """Outputs that rise by the ramp in each hour."""
    run: _Run = []
    for _ in range(periods):
        room = min(unit.span, p + unit.ramp_up)
        p = min(room, unit.width)
        run.append((p, room))
    return run


def _least(unit: Unit, periods: int) -> List[int]:
    """The least output of each hour: 0 from where the unit may be off."""
    least = []
    is_held = unit.must_run or unit.is_on_before
    for t in range(1, periods + 1):
        is_held = is_held and (unit.must_run or not _may_stop(unit, t))
        least.append(unit.least + max(unit.first - t * unit.ramp_down, 0) if is_held else 0)
    return least


def _may_stop(unit: Unit, t: int) -> bool:
    """Whether an hour may be the first one off: the output of the hour before is then within the cap and a ramp of nought."""
    before = unit.first - (t - 1) * unit.ramp_down
    if t > 1:
        before = max(before, 0)
    return t > unit.held_on and before <= unit.stop_cap and before <= unit.ramp_down


def look_at_hours(system: System) -> Findings:
    """Hours that ask for more or for less than the units can give."""
    instance = system.instance
    reaches = [reach_of(unit, instance.periods) for unit in system.units]
    found = []
    for t, (demand, reserve) in enumerate(zip(instance.demand, instance.reserves)):
        wind = sum(unit.greatest[t] for unit in instance.renewable)
        least = sum(reach.least[t] for reach in reaches) + sum(unit.least[t] for unit in instance.renewable)
        most = sum(reach.output[t] for reach in reaches)
        room = sum(reach.with_reserve[t] for reach in reaches)
        found += _hour(t + 1, demand, reserve, (least, most, room, wind))
    return found


def _hour(number: int, demand: int, reserve: int, given: Tuple[int, int, int, int]) -> Findings:
    """What is wrong with an hour, if anything is: one finding is enough."""
    least, most, room, wind = given
    place = f"demand {number}"
    if demand < least:
        what = f"{megawatts(demand)}, where the units can't give less than {megawatts(least)} in this hour"
        return [Finding(place, what, f"{NO_SCHEDULE}, with --shed neither")]
    if demand > most + wind:
        what = f"{megawatts(demand)}, where the units can't give more than {megawatts(most + wind)} in this hour"
        return [Finding(place, what, f"{NO_SCHEDULE}; with --shed at least {megawatts(demand - most - wind)} stay unserved")]
    asked = max(demand - wind, 0) + max(reserve, 0)
    if asked > room:
        both = max(demand, 0) + max(reserve, 0)
        what = f"{megawatts(both)} with reserve, where the units have room for {megawatts(both - asked + room)} in this hour"
        effect = f"{NO_SCHEDULE}; with --shed or --spill-reserve at least {megawatts(asked - room)} are short"
        return [Finding(f"reserves {number}", what, effect)]
    return []
