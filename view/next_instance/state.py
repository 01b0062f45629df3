"""The state in which a schedule leaves a unit (`docs/ROLLING.md`, "What is kept, and what comes behind it")."""
from __future__ import annotations

from dataclasses import dataclass
from itertools import takewhile
from typing import List, Optional

from instance_check.units import Unit
from schedule_view.instance import TIME_LIMIT
from schedule_view.report import Cell


@dataclass(frozen=True)
class State:
    """Whether a unit is on, its total output in watts, which is 0 where it is off, and the hours that it has been on, or off."""

    is_on: bool
    output: int
    hours_on: int
    hours_off: int


def state_after(unit: Unit, cells: List[Optional[Cell]]) -> State:
    """The state behind the last of these cells, of which there is one at least.

    A unit whose output and reserve are above what the hour before a stop allows counts as on for an hour less than its minimum up time
    at most, and so stays on in the next hour.
    """
    last = cells[-1]
    if last is None:
        return State(False, 0, 0, _lasted(cells, False, 0 if unit.is_on_before else unit.down_before))
    lasted = _lasted(cells, True, unit.up_before if unit.is_on_before else 0)
    is_above = last.output - unit.least + last.reserve > unit.stop_cap
    return State(True, last.output, min(lasted, unit.up - 1) if is_above else lasted, 0)


def _lasted(cells: List[Optional[Cell]], is_on: bool, before: int) -> int:
    """The hours of the last state, with those before the first cell where it has lasted since then."""
    hours = sum(1 for _ in takewhile(lambda cell: (cell is not None) == is_on, reversed(cells)))
    return min(hours + (before if hours == len(cells) else 0), TIME_LIMIT)
