"""The layers of the stacked output: units in the order of their average cost, the steadiest merged where there are many."""
from __future__ import annotations

from dataclasses import dataclass
from fractions import Fraction
from typing import List, Set

from .amounts import Watts, short_text
from .instance import Instance
from .report import Schedule
from .shortages import Shortage

SINGLE_UNITS = 20
# the steadier units are merged into layers of at least as many units, and into at most so many layers
LEAST_MERGED, MOST_BANDS = 20, 5


@dataclass(frozen=True)
class Layer:
    """One layer: its name, what the legend adds to it, the class that gives its colour, and by hour its output in watts and title."""

    name: str
    note: str
    look: str
    outputs: List[Watts]
    titles: List[str]
    is_merged: bool = False


def merit_order(instance: Instance) -> List[int]:
    """The thermal units' indexes, the cheapest first by the average cost at the last point, then in the order of the file."""
    costs = [unit.average_cost for unit in instance.thermal]
    return sorted(range(len(costs)), key=lambda g: (costs[g] is None, costs[g] or 0, g))


def cost_text(cost: Fraction) -> str:
    """An average cost for a reader's eye, with two decimals: micro-dollars a watt are dollars a megawatt."""
    return f"{float(cost):,.2f}"


def layers(instance: Instance, schedule: Schedule) -> List[Layer]:
    """The layers from the bottom, of units that give something: merged ones, single ones, and renewables; each kind cheapest first."""
    used = [g for g in merit_order(instance) if any(cell and cell.output for cell in schedule.thermal[g].cells)]
    single = _liveliest(schedule, used)
    steadier = [g for g in used if g not in single]
    bands = _bands(steadier)
    # the greys get lighter upwards, and the lightest is below the colours
    found = [_band(instance, schedule, units, place) for place, units in enumerate(bands, MOST_BANDS - len(bands))]
    found += [_unit(instance, schedule, g, f"c{place}") for place, g in enumerate(g for g in used if g in single)]
    if any(output for row in schedule.renewable for output in row.outputs):
        found.append(_renewables(schedule))
    return found


def _liveliest(schedule: Schedule, used: List[int]) -> Set[int]:
    """The units to be drawn one by one: those whose output moves most from hour to hour, and of equal ones the dearest."""

    def moved(g: int) -> Watts:
        outputs = [cell.output if cell else 0 for cell in schedule.thermal[g].cells]
        return sum(abs(after - before) for before, after in zip(outputs, outputs[1:]))

    places = sorted(range(len(used)), key=lambda place: (moved(used[place]), place))
    return {used[place] for place in places[-SINGLE_UNITS:]}


def never_on(instance: Instance, schedule: Schedule) -> List[str]:
    """The names of the units that give nothing, the cheapest first."""
    rows = (schedule.thermal[g] for g in merit_order(instance))
    return [row.name for row in rows if not any(cell and cell.output for cell in row.cells)]


def _unit(instance: Instance, schedule: Schedule, g: int, look: str) -> Layer:
    name, cells, cost = schedule.thermal[g].name, schedule.thermal[g].cells, instance.thermal[g].average_cost
    titles = [
        f"{name}, hour {t + 1}: {short_text(cell.output)} MW, reserve {short_text(cell.reserve)} MW" if cell else ""
        for t, cell in enumerate(cells)
    ]
    note = f"{cost_text(cost)} $/MWh" if cost is not None else ""
    return Layer(name, note, look, [cell.output if cell else 0 for cell in cells], titles)


def _bands(units: List[int]) -> List[List[int]]:
    """The units parted, in their order, into bands of nearly as many each."""
    count = min(MOST_BANDS, -(-len(units) // LEAST_MERGED))
    cuts = [len(units) * k // count for k in range(count + 1)] if count else []
    return [units[low:high] for low, high in zip(cuts, cuts[1:])]


def _band(instance: Instance, schedule: Schedule, units: List[int], place: int) -> Layer:
    columns = list(zip(*(schedule.thermal[g].cells for g in units)))
    outputs = [sum(cell.output for cell in column if cell) for column in columns]
    reserves = [sum(cell.reserve for cell in column if cell) for column in columns]
    counts = [sum(cell is not None for cell in column) for column in columns]
    name = f"{len(units)} steadier units" if len(units) > 1 else "1 steadier unit"
    titles = [
        f"{name}{_range_text(instance, units)}, {count} on, hour {t + 1}: {short_text(output)} MW, reserve {short_text(reserve)} MW"
        for t, (count, output, reserve) in enumerate(zip(counts, outputs, reserves))
    ]
    return Layer(name + _range_text(instance, units), "", f"m{place}", outputs, titles, is_merged=True)


def _range_text(instance: Instance, units: List[int]) -> str:
    costs = [cost for cost in (instance.thermal[g].average_cost for g in units) if cost is not None]
    if not costs:
        return ""
    low, high = cost_text(costs[0]), cost_text(costs[-1])
    return f" at {low} $/MWh" if low == high else f" at {low} to {high} $/MWh"


def unserved_layer(unserved: Shortage) -> Layer:
    """The layer above all others, of demand that stays unserved."""
    titles = [f"{unserved.name}, hour {t + 1}: {short_text(watts)} MW" for t, watts in enumerate(unserved.watts)]
    return Layer(unserved.name, f"at {unserved.price:,} $/MWh", unserved.look, unserved.watts, titles)


def _renewables(schedule: Schedule) -> Layer:
    count = len(schedule.renewable)
    outputs = [sum(column) for column in zip(*(row.outputs for row in schedule.renewable))]
    name, note = (f"{count} renewable units", "") if count > 1 else (schedule.renewable[0].name, "renewable")
    titles = [f"{name}, hour {t + 1}: {short_text(output)} MW" for t, output in enumerate(outputs)]
    return Layer(name, note, "renewable", outputs, titles)
