"""Which rules leave a unit nothing: a smallest set of them, and each in words."""
from __future__ import annotations

from typing import Any, Dict, FrozenSet, List, Tuple

from schedule_view.amounts import short_text

from .hours import hour_list, times
from .system import System, check

# in the order in which they are told; D is what a leaf decides, and M8 is how far the points reach
RULES = ("D", "M1", "M2", "M3", "M4", "M5", "M7", "M8", "M9", "M10", "M11", "M12")
OF_PATTERNS = RULES[:7] + ("M9", "M10")
LONG, FAR = 10**7, 10**18


class Loose(check.ExactUnit):  # type: ignore[misc]
    """A unit that keeps some of its rules alone."""

    def __init__(self, unit: Any, periods: int, rules: FrozenSet[str]) -> None:
        self._first, self._rules = unit, rules
        nothing = [0] * periods
        super().__init__(self._loosened(unit), 1, check.Record(scale=0, pi=nothing, mu=nothing, ramps={}))

    def _loosened(self, unit: Any) -> Any:
        """The unit with limits that hold nothing in place of those of other rules."""
        made = check.Record(**vars(unit))
        made.must_run = unit.must_run if "M1" in self._rules else 0
        free = {"M8": {"width": FAR, "hull": [(0, 0), (FAR, 0)]}, "M11": {"ramp_up": FAR}, "M12": {"ramp_down": FAR}}
        free.update({"M9": {"start_cap": FAR}, "M10": {"stop_cap": FAR}})
        for rule, limits in free.items():
            if rule not in self._rules:
                vars(made).update(limits)
        return made

    def may_be(self, t: int, on: int, since: Any, now: int) -> bool:
        """As for a whole unit, by the rules that are kept."""
        unit, rules = self._first, self._rules
        if now != on and self.hours(on, since, t) < (unit.up if on else unit.down):
            rule = ("M2" if on else "M3") if since == 0 else ("M4" if on else "M5")
            if rule in rules:
                return False
        if unit.must_run and not now and "M1" in rules:
            return False
        most = unit.stop_cap if on > now else unit.span * on
        return t > 1 or "M7" not in rules or unit.p0 <= most

    def is_left(self, decided: Dict[int, int], is_exact: bool) -> bool:
        """Whether a pattern is left, or with exact values a schedule of its own."""
        kept = decided if "D" in self._rules else {}
        return (self.exact(kept) if is_exact else self.least(kept)) is not None


def rules_in_the_way(system: System, g: int, decided: Dict[int, int], is_exact: bool) -> List[str]:
    """Rules that leave a unit no pattern, or no schedule of its own, of which none can be spared; none where something is left."""

    def is_left(rules: List[str]) -> bool:
        return Loose(system.unit(g), system.periods, frozenset(rules)).is_left(decided, is_exact)

    kept = list(RULES if is_exact else OF_PATTERNS)
    if is_left(kept):
        return []
    for rule in reversed(kept[:]):
        fewer = [it for it in kept if it != rule]
        if not is_left(fewer):
            kept = fewer
    return kept


def rule_words(system: System, g: int, rule: str, decided: Dict[int, int]) -> str:
    """What a rule asks of a unit, with its numbers."""
    unit = system.unit(g)
    words = {
        "D": lambda: f"it {decided_words(decided)} at this leaf",
        "M1": lambda: "it must run in every hour",
        "M2": lambda: _first_hours(system, unit.up0, unit.up, "on"),
        "M3": lambda: _first_hours(system, unit.down0, unit.down, "off"),
        "M4": lambda: f"once started it stays on for at least {times(unit.up)}",
        "M5": lambda: f"once stopped it stays off for at least {times(unit.down)}",
        "M7": lambda: _before(unit),
        "M8": lambda: f"its points reach {_mw(unit.width)} above its minimum",
        "M9": lambda: _limit(unit, unit.start_cap, "starts", "start"),
        "M10": lambda: _limit(unit, unit.stop_cap, "stops", "stop"),
        "M11": lambda: _ramp(unit, unit.ramp_up, "rises"),
        "M12": lambda: _ramp(unit, unit.ramp_down, "falls"),
    }
    return words[rule]() + ("" if rule == "D" else f" ({rule})")


def _mw(watts: int) -> str:
    return f"{short_text(watts)} MW"


def _first_hours(system: System, had: int, least: int, word: str) -> str:
    """What is left of a minimum time that had begun before the first hour."""
    last = min(least - had, system.periods)
    hours = hour_list(list(range(1, last + 1)))
    return f"it was {word} for {times(had)} of at least {least} before hour 1, and so is {word} in {hours}"


def _before(unit: Any) -> str:
    """The rule on the output before the first hour."""
    output = unit.p0 + unit.pmin
    if unit.p0 > unit.span:
        return f"its output before hour 1 is {_mw(output)}, above its maximum of {_mw(unit.pmin + unit.span)}"
    limit = f"it may stop from {_mw(unit.pmin + unit.stop_cap)} at most"
    return f"its output before hour 1 is {_mw(output)}, and {limit}, so it is on in hour 1"


def _limit(unit: Any, cap: int, verb: str, word: str) -> str:
    """A limit on the output in the hour of a start, or in the hour before a stop."""
    most = _mw(unit.pmin + cap)
    if cap < 0:
        return f"it never {verb}: its limit there is {most}, below its minimum of {_mw(unit.pmin)}"
    where = "in the hour of a start" if word == "start" else "in the hour before a stop"
    return f"it gives at most {most} {where}"


def _ramp(unit: Any, ramp: int, verb: str) -> str:
    """A ramp, from the output before the first hour."""
    text = f"it {verb} by at most {_mw(ramp)} an hour"
    if not unit.on0:
        return text
    below = f", {_mw(-unit.p0)} below its minimum" if unit.p0 < 0 else ""
    return f"{text} from the {_mw(unit.p0 + unit.pmin)} before hour 1{below}"


def decided_words(decided: Dict[int, int]) -> str:
    """The hours in which a leaf has a unit on or off."""
    parts = []
    for on, word in ((1, "on"), (0, "off")):
        hours = [t for t, it in sorted(decided.items()) if it == on]
        if hours:
            parts.append(f"{word} in {hour_list(hours)}")
    return "is " + " and ".join(parts)


def below_minimum(system: System) -> List[Tuple[int, int]]:
    """The units that no rise in the first hour brings to their minimum, each with the watts that it lacks."""
    units = enumerate(system.instance.thermal, 1)
    return [(g, -unit.ramp_up - unit.p0) for g, unit in units if unit.on0 and unit.ramp_up + unit.p0 < 0]
