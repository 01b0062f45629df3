"""The value V of an instance at the table of prices that are all 0 (`docs/BOUND.md`, "Units" and "Nodes").

With prices of 0 demand, reserve, shortages and renewable units add nothing. So V is K times what each unit costs at least, as far as its
own rules but for the ramps keep it on. It is the same in each hour, and so an on cell costs by whether it starts and stops alone.
"""
from __future__ import annotations

from dataclasses import dataclass
from fractions import Fraction
from math import floor, inf
from typing import Dict, Optional, Tuple

from instance_check.units import Unit
from schedule_view.costs import lower_hull

SCALE = 1_000_000

# whether the unit is on, and the hour of its last switch: 0 before the first one, None where that is so long ago that it counts no more
_State = Tuple[bool, Optional[int]]


def zero_bound(units: Tuple[Unit, ...], periods: int) -> int:
    """The greatest whole micro-dollars that the table of zeros bounds each schedule by. Each unit has a pattern."""
    return sum(_Walk(unit).least(periods) for unit in units) // SCALE


def is_barred(unit: Unit, later_lag: int, t: int) -> bool:
    """Whether the hours off before the first one bar the category before the one with this lag."""
    return max(1, later_lag - unit.down_before + 1) <= t <= later_lag - 1


def least_start_cost(unit: Unit, last_stop: Optional[int], t: int) -> int:
    """What a start in an hour costs at least by the last stop alone, which is 0 or None where none counts."""
    costs = [unit.startup[-1][1]]
    for (lag, cost), (later_lag, _) in zip(unit.startup, unit.startup[1:]):
        if t < later_lag:
            is_allowed = not is_barred(unit, later_lag, t)
        else:
            is_allowed = lag < later_lag and bool(last_stop) and t - last_stop < later_lag
        if is_allowed:
            costs.append(cost)
    return min(costs)


@dataclass(frozen=True)
class _Walk:
    """The patterns of a unit, walked along from hour to hour."""

    unit: Unit

    def least(self, periods: int) -> int:
        """The least value of a pattern."""
        values: Dict[_State, float] = {(self.unit.is_on_before, 0): 0}
        cells = {(starts, stops): self._term(starts, stops) for starts in (False, True) for stops in (False, True)}
        for t in range(1, periods + 1):
            after: Dict[_State, float] = {}
            for (on, since), value in values.items():
                for now in (False, True):
                    if self._may_be(t, on, since, now):
                        # the cell of the hour before is known now that it is known whether the unit stops behind it
                        before = cells[since == t - 1, not now] if on and t > 1 else 0
                        start = SCALE * least_start_cost(self.unit, since, t) if now and not on else 0
                        state = now, self._since(t, on, since, now)
                        if before is not None:
                            after[state] = min(value + before + start, after.get(state, inf))
            values = after
        ends = ((value, cells[since == periods, False] if on else 0) for (on, since), value in values.items())
        return min(value + last for value, last in ends if last is not None)

    def _term(self, starts: bool, stops: bool) -> Optional[int]:
        """The greatest whole number that is at most what an on cell costs, whatever its output; None where its cap is below 0."""
        unit = self.unit
        cap = min(unit.span, unit.start_cap if starts else unit.span, unit.stop_cap if stops else unit.span)
        if cap < 0:
            return None
        first = unit.points[0][0]
        corners = [(mw - first, cost) for mw, cost in lower_hull(unit.points)]
        costs = [Fraction(cost) for p, cost in corners if p <= cap]
        for (p0, c0), (p1, c1) in zip(corners, corners[1:]):
            if p0 < cap < p1:
                costs.append(c0 + Fraction((c1 - c0) * (cap - p0), p1 - p0))
        return floor(SCALE * min(costs))

    def _hours(self, on: bool, since: Optional[int], t: int) -> float:
        """For how many hours the state has lasted before an hour."""
        if since is None:
            return inf
        return t - since if since else (self.unit.up_before if on else self.unit.down_before) + t - 1

    def _may_be(self, t: int, on: bool, since: Optional[int], now: bool) -> bool:
        unit = self.unit
        if now != on and self._hours(on, since, t) < (unit.up if on else unit.down) or unit.must_run and not now:
            return False
        return t > 1 or not on or unit.first <= (unit.span if now else unit.stop_cap)

    def _since(self, t: int, on: bool, since: Optional[int], now: bool) -> Optional[int]:
        if now != on:
            return t
        longest = self.unit.up if on else max(self.unit.down, *(lag for lag, _ in self.unit.startup))
        return None if self._hours(on, since, t + 1) >= longest else since
