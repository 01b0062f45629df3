"""The points of production cost beside a unit's minimum and maximum, and which of them count."""
from __future__ import annotations

from schedule_view.costs import hull_cost, lower_hull

from .findings import Finding, Findings, dollars, megawatts, thermal
from .units import Unit

# a point this many micro-dollars above the hull isn't one of a line whose costs were rounded
LEAST_DROP = 10_000


def look_at_points(unit: Unit) -> Findings:
    """Points that don't begin or end where the unit does, that the hull drops, or whose costs fall or are negative."""
    return _first(unit) + _last(unit) + _dropped(unit) + _falling(unit)


def _place(unit: Unit, number: int) -> str:
    return thermal(unit.name, f"piecewise_production {number}")


def _first(unit: Unit) -> Findings:
    """Outputs count from the first point, wherever that is."""
    away = unit.points[0][0] - unit.least
    if not away:
        return []
    what = f"the first point is at {megawatts(unit.points[0][0])}, the minimum at {megawatts(unit.least)}"
    side = "above" if away > 0 else "below"
    effect = f"points count from the first one, so each output costs what the file has {megawatts(abs(away))} {side} it"
    return [Finding(_place(unit, 1), what, effect)]


def _last(unit: Unit) -> Findings:
    place, last = _place(unit, len(unit.points)), unit.points[-1][0]
    if unit.width < unit.span:
        what = f"the points span {megawatts(unit.width)}, the minimum and the maximum are {megawatts(unit.span)} apart"
        greatest = megawatts(unit.least + unit.width)
        return [Finding(place, what, f"the unit gives at most {greatest}, and above that only reserve")]
    if unit.width > unit.span and last > unit.maximum:
        what = f"the last point is at {megawatts(last)}, the maximum at {megawatts(unit.maximum)}"
        return [Finding(place, what, "output ends at the maximum, and costs below it may lie on the line to this point")]
    return []


def _dropped(unit: Unit) -> Findings:
    corners = lower_hull(unit.points)
    found = []
    for number, (output, cost) in enumerate(unit.points, 1):
        less = hull_cost(corners, output)
        if cost - less >= LEAST_DROP:
            what = f"{dollars(cost)} at {megawatts(output)} is above the lower convex hull of the points"
            effect = f"the hull drops the point: this output costs {dollars(less)}, which is {dollars(cost - less)} less"
            found.append(Finding(_place(unit, number), what, effect))
    return found


def _falling(unit: Unit) -> Findings:
    found = []
    corners = lower_hull(unit.points)
    for (low, before), (high, after) in zip(corners, corners[1:]):
        if after < before:
            number = unit.points.index((high, after)) + 1
            what = f"costs fall from {dollars(before)} at {megawatts(low)} to {dollars(after)} at {megawatts(high)}"
            found.append(Finding(_place(unit, number), what, "more output lowers the cost there"))
    negative = next((number for number, (_, cost) in enumerate(unit.points, 1) if cost < 0), None)
    if negative:
        what = f"a cost of {dollars(unit.points[negative - 1][1])}"
        found.append(Finding(_place(unit, negative), what, "an hour at that output lowers the cost of the schedule"))
    return found
