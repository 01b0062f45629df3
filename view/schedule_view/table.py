"""The schedule as a table of comma-separated values, a line for each unit and hour."""
from __future__ import annotations

import csv
from fractions import Fraction
from typing import List, Optional, TextIO, Tuple

from .amounts import Watts, amount_text, nearest
from .certificate import Prices
from .costs import unit_costs
from .instance import Instance
from .report import Schedule
from .shortages import NO_PENALTY, Penalty, shortages

HEAD = ("unit", "kind", "hour", "on", "output", "reserve", "category")
HOUR_HEAD = ("demand", "need", "demand_price", "reserve_price", "shed", "reserve_short")
# of the unit the first two, and of the hour the third, which stands in each of its lines
COST_HEAD = ("energy_cost", "start_cost", "shortage_cost")


def write_table(instance: Instance, schedule: Optional[Schedule], prices: Optional[Prices], penalty: Penalty, out: TextIO) -> None:
    """Power in megawatts, prices in dollars a megawatt-hour, costs in dollars, with six decimals; without a schedule the head alone.

    Powers over a denominator have up to nine decimals. A unit that is off has noughts, and so has the category where nothing starts.
    A renewable unit is on where it gives something, and costs nothing. The hour's demand, reserve needed, prices of the bound,
    unserved demand, missing reserve and the cost of both stand in each line; without a certificate the prices are empty.
    """
    table = csv.writer(out, lineterminator="\n")
    table.writerow(HEAD + HOUR_HEAD + COST_HEAD)
    if schedule is None:
        return
    hours = _hours(instance, schedule, prices)
    short = [amount_text(sum(costs)) for costs in zip(*(it.costs for it in shortages(schedule, instance.periods, penalty)))]
    for unit, row in zip(instance.thermal, schedule.thermal):
        costs = unit_costs(unit, row)
        for period, cell in enumerate(row.cells):
            numbers = (cell.output, cell.reserve, cell.category) if cell else (0, 0, 0)
            spent = amount_text(costs.energy[period]), amount_text(costs.starts[period]), short[period]
            table.writerow((row.name, "thermal", *_line(period, cell is not None, numbers), *hours[period], *spent))
    for other in schedule.renewable:
        for period, output in enumerate(other.outputs):
            line = _line(period, output > 0, (output, 0, 0))
            table.writerow((other.name, "renewable", *line, *hours[period], amount_text(0), amount_text(0), short[period]))


def _line(period: int, is_on: bool, numbers: Tuple[Watts, Watts, int]) -> Tuple[int, int, str, str, int]:
    output, reserve, category = numbers
    return period + 1, int(is_on), amount_text(output), amount_text(reserve), category


def _hours(instance: Instance, schedule: Schedule, prices: Optional[Prices]) -> List[Tuple[str, ...]]:
    """What stands in each line of an hour: demand and reserve needed, their prices, and what is short of them."""
    priced = [("", "")] * instance.periods
    if prices:
        texts = ([amount_text(nearest(Fraction(n, prices.scale))) for n in numbers] for numbers in (prices.demand, prices.reserve))
        priced = list(zip(*texts))
    powers = zip(map(amount_text, instance.demand), map(amount_text, instance.reserves))
    short = zip(*(map(amount_text, it.watts) for it in shortages(schedule, instance.periods, NO_PENALTY)))
    return [(*power, *price, *lacks) for power, price, lacks in zip(powers, priced, short)]
