"""The page: what the report says in words and numbers, the charts and grids, in one file without outside references."""
from __future__ import annotations

import pathlib
from typing import List, Optional, Tuple

from .amounts import MILLION, dollars_text, gap_parts, short_text
from .certificate import BOUNDS, MOST_PRICE, Certificate, Leaves, Prices
from .charts import cost_chart, curtailed_chart, demand_chart, legend, output_chart, price_chart, reserve_chart, share_bar
from .costs import HourlyCosts, hourly_costs
from .figures import figures
from .grid import renewable_grid, thermal_grid
from .instance import Instance
from .layers import SINGLE_UNITS, layers, never_on, unserved_layer
from .report import Outcome, Report, Schedule, Stopped
from .shortages import NO_PENALTY, Penalty, Shortage, shortages
from .svg import element, narrow_rules, text
from .uplift import Part, Uplift, prices_of, table_of

STYLE = pathlib.Path(__file__).with_name("style.css")
NAMES_SHOWN, PARTS_SHOWN = 12, 30
FOOT = (
    "Units, hours and categories count from 1. Rest the pointer on a mark to see its numbers, or open them under Numbers. "
    "This page shows what the report and the certificate say; whether they are right is for <code>uc check</code> to tell."
)
MEASURES = "Money is in dollars ($), power in megawatts (MW), energy in megawatt-hours (MWh), prices in $/MWh."
OUTCOMES = {
    Outcome.CLOSED: "Closed: the gap is within what was asked for.",
    Outcome.SPENT: "Budget spent: a schedule was found, and its gap is larger than was asked for.",
    Outcome.NO_SCHEDULE: "Budget spent, no schedule found. The bound stands.",
    Outcome.INFEASIBLE: "Infeasible: no schedule exists.",
    Outcome.ROLLED: "Rolled: the schedule is stitched of windows, which were solved one after another. It has no bound.",
    Outcome.STOPPED: "Stopped: a window has no schedule that goes on from what is kept of those before it.",
}


def page(
    instance: Instance,
    report: Report,
    certificate: Optional[Certificate],
    name: str,
    gap: Optional[int] = None,
    penalty: Penalty = NO_PENALTY,
    uplift: Optional[Uplift] = None,
    why: Optional[List[str]] = None,
) -> str:
    """The whole page; the name is the instance's, the gap that which was asked for, in parts per million.

    The lines of why are the reason that no schedule exists or was found; those that begin with a blank tell more of the one before.
    """
    schedule = report.schedule
    short = shortages(schedule, instance.periods, penalty) if schedule else None
    costs = hourly_costs(instance, schedule, penalty) if schedule else None
    parts = [element("h1", text(f"Schedule of {name}" if schedule else name)), *_outcome(report, certificate, why or [])]
    parts.append(_head(instance, report, gap, [it for it in short or () if it.price]))
    parts += _charts(instance, schedule, short, costs) if schedule and short and costs else _demand(instance, report)
    prices = _drawn_prices(schedule, certificate, uplift)
    if uplift and schedule:
        parts += _uplifts(instance, report, schedule, certificate, uplift)
    elif certificate:
        parts += _prices(certificate, prices)
    if schedule:
        parts += _grids(instance, schedule)
    parts += figures(instance, schedule, costs, prices)
    head = (
        '<meta charset="utf-8"><meta name="viewport" content="width=device-width, initial-scale=1">'
        + element("title", text(name))
        + element("style", STYLE.read_text(encoding="utf-8") + narrow_rules(instance.periods))
    )
    foot = element("footer", FOOT)
    return f'<!DOCTYPE html>\n<html lang="en">{element("head", head)}{element("body", element("main", "".join(parts) + foot))}</html>\n'


def _outcome(report: Report, certificate: Optional[Certificate], why: List[str]) -> List[str]:
    """What came out, and why where there is no schedule."""
    found = [element("p", OUTCOMES[report.outcome], class_="outcome")]
    if report.stuck:
        found.append(element("p", "Why none was found: " + element("code", text(report.stuck.text))))
    found += [_why(line) for line in why]
    if report.stopped:
        found.append(element("p", text(_window(report.stopped))))
    if report.outcome is Outcome.INFEASIBLE:
        found += _certificate_reason(certificate, bool(why))
    return found


def _why(line: str) -> str:
    """A line of the reason, with the parts between backquotes as code."""
    parts = text(line.strip()).split("`")
    words = "".join(element("code", part) if n % 2 else part for n, part in enumerate(parts))
    return element("p", words, class_="more" if line.startswith(" ") else "why")


def _certificate_reason(certificate: Optional[Certificate], is_told: bool) -> List[str]:
    """What the certificate names as the reason, and whether it was put into words; without it there is none to tell."""
    if not certificate:
        return [element("p", "The certificate has the reason. Draw it with its certificate to see why.")]
    words = "The certificate's reason: " + text(_reason(certificate.leaves))
    if not is_told:
        words += " The instance doesn't bear this out: <code>uc check</code> refuses such a certificate."
    return [element("p", words)]


def _window(stopped: Stopped) -> str:
    """Which window has no schedule, and whether there is none."""
    why = "infeasible, no schedule of it exists" if stopped.is_infeasible else "no schedule of it was found"
    return f"Window {stopped.window}, hours {stopped.first} to {stopped.last}: {why}."


def _reason(leaves: Leaves) -> str:
    """What excludes every schedule, by the leaves of the certificate's tree."""
    if not leaves.only:
        counts = ", ".join(f"{count} {word}" for word, count in sorted(leaves.counts.items()))
        return f"each leaf of the tree is excluded ({counts})."
    word, number = leaves.only
    if word == "empty":
        return f"thermal unit {number} has no commitment that its own rules allow (empty {number})."
    if word == "exact-empty":
        return f"thermal unit {number} has no commitment that its own rules and ramps allow (exact-empty {number})."
    return f"the value of all schedules at the ray of table {number} is above 0 ({word} {number})."


def _head(instance: Instance, report: Report, gap: Optional[int], priced: List[Shortage]) -> str:
    facts: List[Tuple[str, str]] = []
    if report.schedule:
        facts.append(("Cost", _money(report.schedule.cost)))
    if report.bound is not None:
        facts.append(("Bound", _money(report.bound)))
    if report.schedule and report.bound is not None:
        left, parts = report.schedule.cost - report.bound, gap_parts(report.schedule.cost, report.bound)
        facts.append(("Gap", f"{_money(left)}, {_percent(parts)}"))
    if gap is not None:
        facts.append(("Gap asked for", _percent(gap)))
    facts += [(shortage.name.capitalize(), text(shortage.size_text)) for shortage in priced]
    if report.schedule and report.schedule.denominator > 1:
        facts.append(("Denominator of powers", str(report.schedule.denominator)))
    if report.windows is not None:
        facts.append(("Windows", str(report.windows)))
    if report.evaluations is not None:
        facts.append(("Evaluations", f"{report.evaluations:,}"))
    facts += [
        ("Greatest demand", f"{short_text(max(instance.demand))} MW"),
        ("Demand in all", f"{short_text(sum(instance.demand))} MWh"),
        ("Hours", str(instance.periods)),
        ("Thermal units", f"{len(instance.thermal):,}"),
        ("Renewable units", f"{len(instance.renewable):,}"),
        ("Rounded numbers", f"{instance.rounded:,}"),
    ]
    return element("dl", "".join(element("div", element("dt", word) + element("dd", value)) for word, value in facts)) + element("p", MEASURES)


def _money(micros: int) -> str:
    """All six decimals, those past the cents small."""
    size = abs(micros)
    cents, rest = size % MILLION // 10_000, size % 10_000
    return f"{'-' if micros < 0 else ''}${size // MILLION:,}.{cents:02}" + element("small", f"{rest:04}")


def _percent(parts: Optional[int]) -> str:
    """Parts per million of the cost, None where the cost is 0 and there is no such part."""
    return "none, the cost is 0" if parts is None else f"{short_text(parts * 100)} %"


def _charts(instance: Instance, schedule: Schedule, short: Tuple[Shortage, Shortage], costs: HourlyCosts) -> List[str]:
    unserved, missing = short
    return [
        *_outputs(instance, schedule, unserved),
        *_shortages([it for it in short if it.price]),
        *_curtailed(instance, schedule),
        *_reserve(instance, schedule, missing),
        *_costs(costs),
    ]


def _outputs(instance: Instance, schedule: Schedule, unserved: Shortage) -> List[str]:
    stack = layers(instance, schedule)
    order = "The cheapest unit is at the bottom, by average cost at its last point."
    if any(layer.is_merged for layer in stack):
        order = (
            f"One by one, the cheapest lowest, by average cost at its last point: the {SINGLE_UNITS} units whose output moves most "
            "from hour to hour. Below them, in grey, are the steadier ones."
        )
    summed = "the outputs add up"
    if any(unserved.watts):
        stack, summed = [*stack, unserved_layer(unserved)], "the outputs and the unserved demand on top of them add up"
    parts = [
        element("h2", "Output by unit"),
        element("p", f"{order} The line is demand, to which {summed}."),
        output_chart(instance, stack),
        legend(stack),
    ]
    idle = never_on(instance, schedule)
    if idle:
        more = f" and {len(idle) - NAMES_SHOWN} more" if len(idle) > NAMES_SHOWN else ""
        parts.append(element("p", text("Units without any output: " + ", ".join(idle[:NAMES_SHOWN]) + more + ".")))
    return parts


def _shortages(priced: List[Shortage]) -> List[str]:
    """What is short, as a table of the hours in which something is; nothing where nothing has a price."""
    if not priced:
        return []
    words = (
        f"{it.name.capitalize()}: {it.size_text} a MWh, {dollars_text(sum(it.costs))} in all."
        if any(it.watts)
        else f"{it.name.capitalize()}: none, at ${it.price:,} a MWh."
        for it in priced
    )
    parts = [element("h2", "Shortages"), *(element("p", text(line)) for line in words)]
    hours = [t for t in range(len(priced[0].watts)) if any(it.watts[t] for it in priced)]
    if hours:
        head = _cells("th", ["hour", *(f"{it.name}, MW" for it in priced), "cost"])
        rows = (
            _cells("td", [str(t + 1), *(short_text(it.watts[t]) for it in priced), dollars_text(sum(it.costs[t] for it in priced))])
            for t in hours
        )
        parts.append(element("table", head + "".join(rows)))
    return parts


def _cells(name: str, words: List[str]) -> str:
    """A line of a table, of cells of one kind."""
    return element("tr", "".join(element(name, text(word)) for word in words))


def _curtailed(instance: Instance, schedule: Schedule) -> List[str]:
    """What renewable units could give and don't, in words alone where that is nothing."""
    if not instance.renewable:
        return []
    available = [sum(powers) for powers in zip(*(unit.greatest for unit in instance.renewable))]
    given = [sum(powers) for powers in zip(*(row.outputs for row in schedule.renewable))]
    curtailed = [most - power for most, power in zip(available, given)]
    total, most = short_text(sum(curtailed)), short_text(sum(available))
    heading = element("h2", "Curtailed renewable power")
    if not any(curtailed):
        return [heading, element("p", f"None: all that renewable units can give, {most} MWh, is used.")]
    words = f"What renewable units could give and don't: {total} of {most} MWh."
    return [heading, element("p", words), curtailed_chart(curtailed)]


def _reserve(instance: Instance, schedule: Schedule, missing: Shortage) -> List[str]:
    keys = [_keys([("given", "reserve given"), (missing.look, missing.name)])] if any(missing.watts) else []
    return [
        element("h2", "Reserve"),
        element("p", "Bars are the reserve given, the dashed line is the reserve needed."),
        *keys,
        reserve_chart(instance, schedule, missing),
    ]


def _costs(costs: HourlyCosts) -> List[str]:
    words = ", ".join(f"{name} {dollars_text(sum(amounts))}" for name, _, amounts in costs.parts)
    return [
        element("h2", "Cost by hour"),
        element("p", words.replace("production", "Production costs", 1) + "."),
        _keys([(look, name) for name, look, _ in costs.parts]),
        cost_chart(costs),
    ]


def _demand(instance: Instance, report: Report) -> List[str]:
    stuck = report.stuck.period if report.stuck else None
    mark = f" Hour {stuck}, where the commitment got stuck, is marked." if stuck else ""
    if report.stopped:
        stuck = report.stopped.first
        mark = f" Hour {stuck}, with which the window begins, is marked."
    return [
        element("h2", "Demand and reserve needed"),
        element("p", "The line is demand, the dashed line the reserve needed." + mark),
        demand_chart(instance, stuck),
    ]


def _drawn_prices(schedule: Optional[Schedule], certificate: Optional[Certificate], uplift: Optional[Uplift]) -> Optional[Prices]:
    """The prices that are shown, if there are any; without a schedule those at their limit tell nothing."""
    prices = prices_of(certificate, uplift)
    is_at_limit = prices is not None and any(abs(price) == MOST_PRICE for price in prices.demand + prices.reserve)
    return prices if schedule or not is_at_limit else None


def _prices(certificate: Certificate, drawn: Optional[Prices]) -> List[str]:
    """The prices of the certificate's first leaf with a bound; where they aren't drawn, why."""
    prices, count = certificate.prices, sum(certificate.leaves.counts.get(word, 0) for word in BOUNDS)
    if not prices:
        return []
    heading = element("h2", "Prices of the bound")
    if not drawn:
        words = "Not drawn: no schedule stands, and these prices are at the limit of what a certificate may have."
        return [heading, element("p", words)]
    leaf = f"the first of its {count} leaves with a bound" if count > 1 else "its leaf with a bound"
    words = (
        f"These are no market prices: they are the multipliers from which table {prices.table} of the certificate, that of {leaf}, "
        "makes the bound. The line is that of demand, pi, the dashed one that of reserve, mu."
    )
    if count > 1:
        words += " They are made for the schedules of this leaf alone; uc-prices finds a table for those of all leaves."
    return [heading, element("p", words), price_chart(prices)]


def _table_text(certificate: Optional[Certificate], uplift: Uplift) -> str:
    """Which table has the prices that are drawn."""
    scale = f"of scale {uplift.prices.scale:,}"
    if certificate is None:
        return f"a table {scale}"
    number = table_of(uplift, certificate.tables)
    return f"table {number} of the certificate, {scale}," if number else f"a table {scale}, which this certificate doesn't have,"


def _uplifts(instance: Instance, report: Report, schedule: Schedule, certificate: Optional[Certificate], uplift: Uplift) -> List[str]:
    """The prices beside demand, and the parts of what the schedule costs above their bound, the largest first."""
    which = _table_text(certificate, uplift)
    parts = [
        element("h2", "Prices and uplifts"),
        element("p", f"What {which} would pay, and below it demand. The lines are demand, the dashed ones reserve."),
        price_chart(uplift.prices),
        demand_chart(instance, None),
        element("p", _total_text(report, schedule, uplift)),
    ]
    some = sorted((part for part in uplift.parts if part.number), key=lambda part: -part.number)
    if some:
        shown = some if len(some) <= PARTS_SHOWN else some[: PARTS_SHOWN - 1]
        rest = some[len(shown) :]
        if rest:
            shown = [*shown, Part(0, f"{len(rest)} others", "m2", sum(part.number for part in rest))]
        most = max(part.number for part in shown)
        parts.append(element("table", "".join(_uplift_row(uplift, part, most) for part in shown), class_="shares"))
    none = len(uplift.thermal + uplift.renewable) - sum(part.number > 0 for part in uplift.thermal + uplift.renewable)
    if none:
        parts.append(element("p", f"{none} of {len(uplift.thermal + uplift.renewable)} units do as well as they could."))
    return parts


def _total_text(report: Report, schedule: Schedule, uplift: Uplift) -> str:
    """What the parts come to: the gap where the report's bound is that of these prices."""
    bound, total = uplift.bound(schedule.cost), dollars_text(uplift.micros(uplift.total))
    words = f"By how much each part would do better by its own choice at these prices: {total} in all, which is "
    if report.bound is None or bound == report.bound:
        return words + "the gap between the schedule's cost and the bound."
    gap = dollars_text(schedule.cost - report.bound)
    return (
        f"{words}what the schedule costs above the bound that these prices give by themselves, {dollars_text(bound)}. It isn't the gap: "
        f"that is {gap}, down to the bound of all leaves of the tree, {dollars_text(report.bound)}."
    )


def _uplift_row(uplift: Uplift, part: Part, most: int) -> str:
    """The name of a part, its bar beside the largest one, and its dollars."""
    dollars = dollars_text(uplift.micros(part.number))
    cells = (text(part.name), share_bar(part.number, most, part.look, f"{part.name}: {dollars}"), dollars)
    return element("tr", "".join(element("td", cell) for cell in cells))


def _grids(instance: Instance, schedule: Schedule) -> List[str]:
    keys = [("least", "at least output"), ("between", "between"), ("greatest", "at greatest output")]
    parts: List[str] = []
    if instance.thermal:
        parts += [
            element("h2", "Thermal units by hour"),
            element(
                "p", "The cheapest unit is on top. An hour in which a unit starts is marked and has the category of the start."
            ),
            _keys(keys + [("start", "start")]),
            thermal_grid(instance, schedule),
        ]
    if instance.renewable:
        parts += [
            element("h2", "Renewable units by hour"),
            element("p", "In the order of the file. An hour in which a unit can't give anything is left out."),
            _keys(keys),
            renewable_grid(instance, schedule),
        ]
    return parts


def _keys(keys: List[Tuple[str, str]]) -> str:
    """A legend of classes and words."""
    entries = (
        element("svg", element("rect", width=14, height=14, class_=look), width=14, height=14, aria_hidden="true") + words
        for look, words in keys
    )
    return element("ul", "".join(element("li", entry) for entry in entries), class_="legend")
