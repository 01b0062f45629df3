"""The initial state of a unit beside its limits, and beside itself."""
from __future__ import annotations

from .findings import Finding, Findings, hours, megawatts, thermal, time
from .units import Unit

NO_SCHEDULE = "no schedule exists"


def look_at_state(unit: Unit, periods: int) -> Findings:
    """Outputs at t0 that the limits or ramps don't allow, and times that contradict the state."""
    return (_on(unit) if unit.is_on_before else _off(unit, periods)) + _times(unit, periods)


def _output(unit: Unit) -> str:
    return thermal(unit.name, "power_output_t0")


def _on(unit: Unit) -> Findings:
    found = f"on at t0 with {megawatts(unit.output_before)}"
    if unit.first < 0:
        return [Finding(_output(unit), f"{found}, below the minimum, {megawatts(unit.least)}", _below(unit))]
    if unit.first > unit.span:
        what = f"{found}, above the maximum, {megawatts(unit.maximum)}"
        return [Finding(_output(unit), what, f"{NO_SCHEDULE}, on or off: M7 limits the output at t0")]
    if unit.first > unit.width:
        return [Finding(_output(unit), f"{found}, above the last point's output, {megawatts(unit.least + unit.width)}", _past(unit))]
    return []


def _below(unit: Unit) -> str:
    """What an output below the minimum does: it counts as one below nought above the minimum."""
    if unit.first + unit.ramp_up < 0:
        return f"{NO_SCHEDULE}, on or off: the ramp up of {megawatts(unit.ramp_up)} (M11) doesn't reach the minimum in hour 1"
    reach = unit.output_before + unit.ramp_up
    if reach < unit.maximum:
        return f"the ramp up counts from there, so output and reserve are at most {megawatts(reach)} in hour 1"
    return "it counts as it stands, and no limit of hour 1 hangs on it"


def _past(unit: Unit) -> str:
    if unit.first - unit.ramp_down > unit.width:
        return f"{NO_SCHEDULE}, on or off: the ramp down of {megawatts(unit.ramp_down)} (M12) doesn't reach the points in hour 1"
    return "no hour can keep it, as output ends at the last point"


def _off(unit: Unit, periods: int) -> Findings:
    found = []
    if unit.output_before:
        what = f"off at t0 with {megawatts(unit.output_before)}"
        found.append(Finding(_output(unit), what, "the output isn't looked at, and ramps begin at 0"))
    if unit.must_run and unit.held_off:
        what = f"must run, and its minimum down time keeps it off in {hours(1, min(unit.held_off, periods))}"
        found.append(Finding(thermal(unit.name, "must_run"), what, f"{NO_SCHEDULE}: M1 and M3 contradict each other"))
    return found


def _times(unit: Unit, periods: int) -> Findings:
    """Hours of the state that aren't there, and hours of the other one that are."""
    ours, theirs = ("up", "down") if unit.is_on_before else ("down", "up")
    lasted, other = (unit.up_before, unit.down_before) if unit.is_on_before else (unit.down_before, unit.up_before)
    state = "on" if unit.is_on_before else "off"
    found = []
    if not lasted:
        last = min(unit.held_on or unit.held_off, periods)
        effect = f"its whole minimum {ours} time is left, and it stays {state} in {hours(1, last)}"
        found.append(Finding(thermal(unit.name, f"time_{ours}_t0"), f"{state} at t0 for 0 hours", effect))
    if other:
        effect = _barred(unit, periods) if unit.is_on_before else "they aren't looked at"
        found.append(Finding(thermal(unit.name, f"time_{theirs}_t0"), f"{state} at t0, and {time(other)} of the other state", effect))
    return found


def _barred(unit: Unit, periods: int) -> str:
    """What hours off do to a unit that is on at t0: start categories count them as if they led up to t0."""
    for category, (lag, _) in enumerate(unit.startup[1:], 1):
        first, last = max(1, lag - unit.down_before + 1), min(lag - 1, periods)
        if first <= last:
            return f"start categories count them as hours up to t0: a start in {hours(first, last)} may not have category {category}"
    return "no start hangs on them"
