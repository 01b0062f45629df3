"""What the page shows as one JSON object: measures, cost, bound, gap and totals, hours, units and uplifts.

Every number is exact, but powers over a denominator, which are rounded to a thousandth of a watt.
"""
from __future__ import annotations

import json
from dataclasses import dataclass
from fractions import Fraction
from typing import Dict, List, Optional, Sequence, TextIO, Union

from .amounts import Watts, amount_text, gap_parts, nearest
from .certificate import Certificate, Prices
from .costs import HourlyCosts, unit_costs
from .instance import Instance
from .report import Outcome, Report, Schedule
from .uplift import Part, Uplift, prices_of, table_of

MEASURES = {
    "power": "MW",
    "energy": "MWh",
    "money": "$",
    "prices": "$/MWh",
    "gap_ppm": "parts per million of the cost, rounded up",
    "hour": "counted from 1",
}


@dataclass(frozen=True)
class Amount:
    """Millionths, which are written with six decimals, or with nine where there are parts of one."""

    millionths: Watts


Value = Union[None, bool, int, str, Amount, List["Value"], Dict[str, "Value"]]


def write_json(
    name: str,
    instance: Instance,
    report: Report,
    costs: Optional[HourlyCosts],
    certificate: Optional[Certificate],
    uplift: Optional[Uplift],
    out: TextIO,
) -> None:
    """The object of an instance with this name and a report of it; what there isn't is null."""
    schedule, prices = report.schedule, prices_of(certificate, uplift)
    value: Dict[str, Value] = {
        "instance": name,
        "measures": dict(MEASURES),
        **_outcome(report),
        "totals": _totals(instance, schedule, costs) if schedule and costs else None,
        "prices": {"table": _table(certificate, uplift), "scale": prices.scale} if prices else None,
        "hours": _hours(instance, schedule, costs, prices),
        "units": _units(instance, schedule) if schedule else None,
        "uplifts": _uplifts(uplift, schedule) if uplift and schedule else None,
    }
    out.write(_text(value, 0) + "\n")


def _table(certificate: Optional[Certificate], uplift: Optional[Uplift]) -> Optional[int]:
    """The number of the certificate's table that has the prices; None where it has none with them."""
    if certificate is None:
        return None
    return table_of(uplift, certificate.tables) if uplift else certificate.prices.table if certificate.prices else None


def _outcome(report: Report) -> Dict[str, Value]:
    """What the report says besides its rows."""
    cost, bound = report.schedule.cost if report.schedule else None, report.bound
    has_gap = cost is not None and bound is not None
    told: Dict[str, Value] = {
        "outcome": report.outcome.name.lower(),
        "cost": _amount(cost),
        "bound": _amount(bound),
        "gap": _amount(cost - bound) if has_gap else None,
        "gap_ppm": gap_parts(cost, bound) if has_gap else None,
        "evaluations": report.evaluations,
        "rounded_numbers": report.rounded,
        "stuck": report.stuck.text if report.stuck else None,
    }
    if report.schedule and report.schedule.denominator > 1:
        told["denominator"] = report.schedule.denominator
    if report.outcome is Outcome.ROLLED:
        told["windows"] = report.windows
    if report.stopped:
        it = report.stopped
        told["stopped"] = {"window": it.window, "first_hour": it.first, "last_hour": it.last, "infeasible": it.is_infeasible}
    return told


def _amount(millionths: Optional[int]) -> Optional[Amount]:
    return None if millionths is None else Amount(millionths)


def _reserves(schedule: Schedule, periods: int) -> List[Watts]:
    """The reserve given in each hour."""
    return [sum(row.cells[t].reserve for row in schedule.thermal if row.cells[t]) for t in range(periods)]


def _curtailed(instance: Instance, schedule: Schedule) -> List[Watts]:
    """What renewable units could give and don't, in each hour."""
    pairs = list(zip(instance.renewable, schedule.renewable))
    return [sum(unit.greatest[t] - row.outputs[t] for unit, row in pairs) for t in range(instance.periods)]


def _totals(instance: Instance, schedule: Schedule, costs: HourlyCosts) -> Dict[str, Value]:
    """Sums over all hours."""
    unserved, missing = costs.shortages
    sums = {
        "demand": instance.demand,
        "thermal_energy": [cell.output for row in schedule.thermal for cell in row.cells if cell],
        "renewable_energy": [output for row in schedule.renewable for output in row.outputs],
        "curtailed": _curtailed(instance, schedule),
        "shed": unserved.watts,
        "reserve_short": missing.watts,
        "energy_cost": costs.production,
        "start_cost": costs.starts,
        "shortage_cost": unserved.costs + missing.costs,
    }
    return {name: Amount(sum(numbers)) for name, numbers in sums.items()}


def _hours(instance: Instance, schedule: Optional[Schedule], costs: Optional[HourlyCosts], prices: Optional[Prices]) -> List[Value]:
    """An object for each hour."""
    columns: Dict[str, Sequence[Watts]] = {"demand": instance.demand, "need": instance.reserves}
    if schedule and costs:
        unserved, missing = costs.shortages
        columns["reserve_given"] = _reserves(schedule, instance.periods)
        columns["curtailed"] = _curtailed(instance, schedule)
        columns["shed"], columns["reserve_short"] = unserved.watts, missing.watts
        columns["energy_cost"], columns["start_cost"] = costs.production, costs.starts
        columns["shortage_cost"] = [sum(both) for both in zip(unserved.costs, missing.costs)]
    if prices:
        columns["demand_price"] = [nearest(Fraction(n, prices.scale)) for n in prices.demand]
        columns["reserve_price"] = [nearest(Fraction(n, prices.scale)) for n in prices.reserve]
    return [{"hour": t + 1, **{name: Amount(numbers[t]) for name, numbers in columns.items()}} for t in range(instance.periods)]


def _units(instance: Instance, schedule: Schedule) -> List[Value]:
    """An object for each unit, which has one for each hour; hours of a thermal unit that is off say no more than that."""
    found: List[Value] = []
    for unit, row in zip(instance.thermal, schedule.thermal):
        costs, hours = unit_costs(unit, row), []
        for t, cell in enumerate(row.cells):
            hour: Dict[str, Value] = {"hour": t + 1, "on": cell is not None}
            if cell:
                hour.update(output=Amount(cell.output), reserve=Amount(cell.reserve), category=cell.category)
                hour.update(energy_cost=Amount(costs.energy[t]), start_cost=Amount(costs.starts[t]))
            hours.append(hour)
        energy = sum(cell.output for cell in row.cells if cell)
        told = {"energy": Amount(energy), "energy_cost": Amount(sum(costs.energy)), "start_cost": Amount(sum(costs.starts))}
        found.append({"name": unit.name, "kind": "thermal", **told, "hours": hours})
    for other, given in zip(instance.renewable, schedule.renewable):
        pairs = enumerate(zip(given.outputs, other.greatest))
        hours = [{"hour": t + 1, "output": Amount(output), "greatest": Amount(most)} for t, (output, most) in pairs]
        found.append({"name": other.name, "kind": "renewable", "energy": Amount(sum(given.outputs)), "hours": hours})
    return found


def _uplifts(uplift: Uplift, schedule: Schedule) -> Dict[str, Value]:
    """The uplifts in dollars, with the bound that their prices give by themselves."""

    def parts(kind: str, some: List[Part]) -> List[Value]:
        return [{"name": part.name, "kind": kind, "uplift": Amount(uplift.micros(part.number))} for part in some]

    kinds = (("thermal", uplift.thermal), ("renewable", uplift.renewable), ("shortages", uplift.shed), ("slack", uplift.slacks))
    total, bound = Amount(uplift.micros(uplift.total)), Amount(uplift.bound(schedule.cost))
    return {"total": total, "bound": bound, "parts": [it for kind, some in kinds for it in parts(kind, some)]}


def _text(value: Value, level: int) -> str:
    """The text of a value; what stands at the two outer levels has a line for each entry."""
    if isinstance(value, Amount):
        return amount_text(value.millionths)
    if isinstance(value, dict):
        return _enclosed("{}", [f"{json.dumps(key)}: {_text(it, level + 1)}" for key, it in value.items()], level)
    if isinstance(value, list):
        return _enclosed("[]", [_text(it, level + 1) for it in value], level)
    return json.dumps(value)


def _enclosed(brackets: str, entries: List[str], level: int) -> str:
    parts = (",\n" if level < 2 else ", ").join(entries)
    return f"{brackets[0]}\n{parts}\n{brackets[1]}" if level < 2 and entries else brackets[0] + parts + brackets[1]
