"""The page's numbers as tables behind lines that open when they are pressed, for those who can't rest a pointer on a mark."""
from __future__ import annotations

from fractions import Fraction
from typing import List, Optional, Sequence, Tuple

from .amounts import Watts, dollars_text, nearest_text, short_text
from .certificate import Prices
from .costs import HourlyCosts, unit_costs
from .grid import Row, hours_text, renewable_row, runs, thermal_row
from .instance import Instance
from .layers import merit_order
from .report import Schedule
from .svg import element, text

# a column: its head, and its words by hour
Column = Tuple[str, List[str]]


def figures(instance: Instance, schedule: Optional[Schedule], costs: Optional[HourlyCosts], prices: Optional[Prices]) -> List[str]:
    """The numbers of the hours, and of the units where there is a schedule."""
    columns = [("demand, MW", _powers(instance.demand)), ("reserve needed, MW", _powers(instance.reserves))]
    if schedule and costs:
        columns += _given(instance, schedule, costs)
    if prices:
        both = (("price of demand, $/MWh", prices.demand), ("price of reserve, $/MWh", prices.reserve))
        columns += [(head, [nearest_text(Fraction(n, prices.scale)) for n in numbers]) for head, numbers in both]
    parts = [element("h2", "Numbers"), element("p", "Press a line to open it."), _opened("By hour", _hours(instance.periods, columns))]
    if schedule:
        units = [_thermal(instance, schedule, g) for g in merit_order(instance)]
        units += [_renewable(instance, schedule, w) for w in range(len(instance.renewable))]
        parts.append(_opened("By unit", "".join(units)))
    return parts


def _powers(watts: Sequence[Watts]) -> List[str]:
    return [short_text(power) for power in watts]


def _dollars(micros: Sequence[int]) -> List[str]:
    return [dollars_text(amount) for amount in micros]


def _given(instance: Instance, schedule: Schedule, costs: HourlyCosts) -> List[Column]:
    """What the schedule gives, lacks and costs in each hour."""
    hours = range(instance.periods)
    reserves = [sum(row.cells[t].reserve for row in schedule.thermal if row.cells[t]) for t in hours]
    columns = [("reserve given, MW", _powers(reserves))]
    if instance.renewable:
        pairs = list(zip(instance.renewable, schedule.renewable))
        columns.append(("curtailed, MW", _powers([sum(unit.greatest[t] - row.outputs[t] for unit, row in pairs) for t in hours])))
    columns += [(f"{it.name}, MW", _powers(it.watts)) for it in costs.shortages if it.price]
    return columns + [(f"cost of {name}", _dollars(amounts)) for name, _, amounts in costs.parts]


def _hours(periods: int, columns: List[Column]) -> str:
    """A table with a line for each hour."""
    head = "".join(element("th", text(word)) for word in ("hour", *(word for word, _ in columns)))
    rows = (element("th", str(t + 1)) + "".join(element("td", text(words[t])) for _, words in columns) for t in range(periods))
    return element("div", element("table", element("tr", head) + "".join(element("tr", row) for row in rows)), class_="wide")


def _opened(words: str, content: str) -> str:
    """What a line opens."""
    return element("details", element("summary", text(words)) + content)


def _thermal(instance: Instance, schedule: Schedule, g: int) -> str:
    unit, row = instance.thermal[g], schedule.thermal[g]
    cells, costs = [cell for cell in row.cells if cell], unit_costs(unit, row)
    energy, spent = sum(cell.output for cell in cells), sum(costs.energy) + sum(costs.starts)
    words = f"{unit.name}: on in {len(cells)} of {instance.periods} hours, {short_text(energy)} MWh, {dollars_text(spent)}"
    return _unit(words, thermal_row(unit, row))


def _renewable(instance: Instance, schedule: Schedule, w: int) -> str:
    unit, row = instance.renewable[w], schedule.renewable[w]
    words = f"{unit.name}: {short_text(sum(row.outputs))} of {short_text(sum(unit.greatest))} MWh"
    return _unit(words, renewable_row(unit, row))


def _unit(words: str, row: Row) -> str:
    """A unit, which opens to its hours; nothing opens where it gives nothing."""
    items = "".join(element("li", text(f"{hours_text(first, end)}: {mark.words}")) for first, end, mark in runs(row))
    return _opened(words, element("ul", items)) if items else element("p", text(words))
