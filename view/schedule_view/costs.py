"""What a schedule costs by unit and hour, as a report's cost counts it (`docs/MODEL.md`, "Printed schedules")."""
from __future__ import annotations

from bisect import bisect_left
from dataclasses import dataclass
from typing import List, Tuple

from .amounts import Watts
from .instance import Instance, Thermal
from .report import Schedule, ThermalRow
from .shortages import Penalty, Shortage, shortages

Corner = Tuple[int, int]


@dataclass(frozen=True)
class HourlyCosts:
    """What production and starts cost in each hour, in micro-dollars, and what is short."""

    production: List[int]
    starts: List[int]
    shortages: List[Shortage]

    @property
    def parts(self) -> List[Tuple[str, str, List[int]]]:
        """Each part with its name and the class that gives its colour; of shortages those with a price."""
        priced = [(short.name, short.look, short.costs) for short in self.shortages if short.price]
        return [("production", "between", self.production), ("starts", "starts", self.starts), *priced]

    @property
    def total(self) -> int:
        """The cost of the schedule."""
        return sum(sum(amounts) for _, _, amounts in self.parts)


def hourly_costs(instance: Instance, schedule: Schedule, penalty: Penalty) -> HourlyCosts:
    """The costs of a schedule whose outputs and categories are those of the instance's units."""
    production, starts = [0] * instance.periods, [0] * instance.periods
    for unit, row in zip(instance.thermal, schedule.thermal):
        costs = unit_costs(unit, row)
        production = [before + amount for before, amount in zip(production, costs.energy)]
        starts = [before + amount for before, amount in zip(starts, costs.starts)]
    return HourlyCosts(production, starts, list(shortages(schedule, instance.periods, penalty)))


@dataclass(frozen=True)
class UnitCosts:
    """What the output of a unit and its starts cost in each hour, in micro-dollars."""

    energy: List[int]
    starts: List[int]


def unit_costs(unit: Thermal, row: ThermalRow) -> UnitCosts:
    """The costs of a unit whose outputs and categories are its own."""
    corners = lower_hull(unit.points)
    energy = [hull_cost(corners, _above_minimum(unit, cell.output)) if cell else 0 for cell in row.cells]
    return UnitCosts(energy, [unit.start_costs[cell.category - 1] if cell and cell.category else 0 for cell in row.cells])


def _above_minimum(unit: Thermal, output: Watts) -> Watts:
    """The output counted as the points are: the first one is the unit's least output."""
    return output - unit.least + unit.points[0][0]


def lower_hull(points: List[Corner]) -> List[Corner]:
    """The corners of the lower convex hull of points whose outputs don't fall; of several at one output the cheapest counts."""
    corners: List[Corner] = []
    for point in sorted(points):
        if corners and corners[-1][0] == point[0]:
            continue
        while len(corners) > 1 and not _is_below(corners[-2], corners[-1], point):
            corners.pop()
        corners.append(point)
    return corners


def _is_below(left: Corner, middle: Corner, right: Corner) -> bool:
    """Whether the middle corner is below the line between the others."""
    rise, run = right[1] - left[1], right[0] - left[0]
    return (middle[1] - left[1]) * run < rise * (middle[0] - left[0])


def hull_cost(corners: List[Corner], output: Watts) -> int:
    """The hull's cost at an output in its range, rounded up to a micro-dollar."""
    place = bisect_left(corners, (output,))
    right = corners[min(place, len(corners) - 1)]
    if right[0] == output:
        return right[1]
    left = corners[place - 1]
    rise, run = right[1] - left[1], right[0] - left[0]
    return left[1] - (-rise * (output - left[0])) // run
