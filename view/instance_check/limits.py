"""Ramps, start-up and shut-down limits, minimum times, and start categories."""
from __future__ import annotations

from .findings import Finding, Findings, dollars, megawatts, thermal, time
from .states import NO_SCHEDULE
from .units import Unit

# hours that no ramp from the minimum to the maximum and no minimum time takes
LONGEST_RAMP, LONGEST_TIME = 24, 168


def look_at_limits(unit: Unit, periods: int) -> Findings:
    """Limits that keep a unit from starting, stopping or moving, and times longer than a week."""
    return _starts(unit) + _stops(unit) + _ramps(unit) + _times(unit, periods)


def look_at_startup(unit: Unit) -> Findings:
    """Start categories that no time off has, or that cost more than a longer time off."""
    found = []
    last, (last_lag, last_cost) = len(unit.startup), unit.startup[-1]
    if last > 1 and unit.startup[0][0] > unit.down:
        lag = unit.startup[0][0]
        between = time(unit.down) if lag - 1 == unit.down else f"{unit.down} to {time(lag - 1)}"
        what = f"the first lag is {time(lag)}, the minimum down time {time(unit.down)}"
        effect = f"a stop {between} before a start allows the last category alone, which costs {dollars(last_cost)}"
        found.append(Finding(_row(unit, 1, "lag"), what, effect))
    for category, ((lag, cost), (later_lag, later_cost)) in enumerate(zip(unit.startup, unit.startup[1:]), 1):
        if later_lag <= lag:
            what = f"{time(later_lag)}, where category {category} before it has {time(lag)}"
            found.append(Finding(_row(unit, category + 1, "lag"), what, _without_stop(category, later_lag)))
        elif later_lag <= unit.down:
            what = f"category {category} ends at {time(later_lag)}, and the minimum down time is {time(unit.down)}"
            found.append(Finding(_row(unit, category + 1, "lag"), what, f"no start has category {category}"))
        if cost > last_cost:
            what = f"{dollars(cost)}, where the last category costs {dollars(last_cost)}"
            effect = f"the last one is always allowed, so a cheapest schedule never pays category {category}"
            found.append(Finding(_row(unit, category, "cost"), what, effect))
        elif cost > later_cost:
            what = f"{dollars(cost)}, where category {category + 1} costs {dollars(later_cost)}"
            found.append(Finding(_row(unit, category, "cost"), what, "a start is cheaper after more hours off"))
    for category, (_, cost) in enumerate(unit.startup, 1):
        if cost < 0:
            found.append(Finding(_row(unit, category, "cost"), f"a cost of {dollars(cost)}", "such a start lowers the cost of the schedule"))
    return found


def _row(unit: Unit, category: int, field: str) -> str:
    return thermal(unit.name, f"startup {category} {field}")


def _without_stop(category: int, later_lag: int) -> str:
    """What a category without a time off is still for: starts so early that only the hours before the first one count."""
    if later_lag < 2:
        return f"no start has category {category}"
    return f"no stop allows category {category}, and a start in hour {later_lag} or later doesn't have it"


def _starts(unit: Unit) -> Findings:
    if unit.start_cap >= 0:
        return []
    what = f"{megawatts(unit.start_limit)}, below the minimum, {megawatts(unit.least)}"
    effect = "the unit never starts"
    if unit.must_run and not unit.is_on_before:
        effect += f", and must run: {NO_SCHEDULE}"
    return [Finding(thermal(unit.name, "ramp_startup_limit"), what, effect)]


def _stops(unit: Unit) -> Findings:
    """A stop in hour 1 hangs on the output at t0 alone."""
    if unit.stop_cap >= 0:
        return []
    what = f"{megawatts(unit.stop_limit)}, below the minimum, {megawatts(unit.least)}"
    may_stop = unit.is_on_before and unit.first <= unit.stop_cap
    return [Finding(thermal(unit.name, "ramp_shutdown_limit"), what, f"the unit never stops{' after hour 1' if may_stop else ''}")]


def _ramps(unit: Unit) -> Findings:
    found = []
    still = (
        "0 is no rise, and not no limit: output and reserve never pass the output of the hour before, and start at the minimum",
        "0 is no fall, and not no limit: output never falls, and above its minimum the unit never stops",
    )
    for word, ramp, effect in (("up", unit.ramp_up, still[0]), ("down", unit.ramp_down, still[1])):
        place = thermal(unit.name, f"ramp_{word}_limit")
        if unit.span and not ramp:
            found.append(Finding(place, "0 MW an hour", effect))
        elif unit.span > LONGEST_RAMP * ramp:
            takes = -(-unit.span // ramp)
            what = f"{megawatts(ramp)} an hour, where the minimum and the maximum are {megawatts(unit.span)} apart"
            found.append(Finding(place, what, f"from one to the other takes {time(takes)}; a limit by the minute would be 60 times as much"))
    return found


def _times(unit: Unit, periods: int) -> Findings:
    found = []
    for word, hours, change, state in (("up", unit.up, "start", "on"), ("down", unit.down, "stop", "off")):
        if hours > LONGEST_TIME:
            effect = f"after a {change} the unit stays {state} to the end of all {periods} hours; times aren't in minutes"
            found.append(Finding(thermal(unit.name, f"time_{word}_minimum"), time(hours), effect))
    return found
