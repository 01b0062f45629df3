"""The report of `uc solve` or `uc roll`, read strictly by its format (`docs/FORMATS.md`, "The report")."""
from __future__ import annotations

import enum
import re
from dataclasses import dataclass
from typing import List, Match, Optional, Tuple

from .amounts import Watts, amount, over, whole
from .lines import Lines
from .refusal import shown

_CELL = re.compile(r"([0-9.]+)\+([0-9.]+)(?:\*([1-9][0-9]{0,2}))?")
NAME = r'"((?:[^"\\\x00-\x1f]|\\["\\]|\\u00[01][0-9a-f])*)"'
_MW = r"(-?[0-9]+\.[0-9]{6})"
_UNIT_LINE = re.compile(f"(thermal|renewable) {NAME}((?: [^ ]+)*)")
_ESCAPE = re.compile(r'\\(?:(["\\])|u00([0-9a-f]{2}))')
_STUCK = re.compile(r"most-on commitment stuck in period ([0-9]+): (.*)", re.DOTALL)
_ROLLED = re.compile(r"rolled ([0-9]+) windows")
_STOPPED = re.compile(r"window ([0-9]+) periods ([0-9]+) to ([0-9]+): (infeasible|no schedule found)")
_WHY = (
    re.compile(f"thermal {NAME} breaks M([1-9][0-9]?)"),
    re.compile(f"thermal {NAME} needs at least {_MW} and at most {_MW} above its minimum"),
    re.compile(f"least output {_MW} above demand {_MW}"),
    re.compile(f"most output {_MW} below demand {_MW}"),
    re.compile(f"reserve {_MW} below need {_MW}"),
)


class Outcome(enum.Enum):
    """What the second line says; the value is that line, of `uc roll` its first word."""

    CLOSED = "closed"
    SPENT = "budget spent"
    NO_SCHEDULE = "budget spent, no schedule found"
    INFEASIBLE = "infeasible"
    ROLLED = "rolled"
    STOPPED = "window"


@dataclass(frozen=True)
class Cell:
    """A unit that is on in a period: total output and reserve in watts, and the category of a start, else 0."""

    output: Watts
    reserve: Watts
    category: int


@dataclass(frozen=True)
class ThermalRow:
    """The line of a thermal unit; None is a period in which it is off."""

    line: int
    name: str
    cells: List[Optional[Cell]]


@dataclass(frozen=True)
class RenewableRow:
    """The line of a renewable unit with its outputs in watts."""

    line: int
    name: str
    outputs: List[Watts]


@dataclass(frozen=True)
class ShortageRow:
    """The line of unserved demand or of missing reserve with its watts."""

    line: int
    watts: List[Watts]


@dataclass(frozen=True)
class Stuck:
    """The line on the most-on commitment: its number and text, the period from 1, and the demand or need that it names."""

    line: int
    text: str
    period: int
    unit: Optional[str] = None
    demand: Optional[int] = None
    need: Optional[int] = None


@dataclass(frozen=True)
class Stopped:
    """The line on a window without a schedule: its number, its first and last period, each from 1, and whether there is none."""

    line: int
    window: int
    first: int
    last: int
    is_infeasible: bool


@dataclass(frozen=True)
class Schedule:
    """A schedule with its cost in micro-dollars; a row for each unit in the order of the lines, and of each shortage with a price.

    Powers are whole watts where the denominator is 1, and else fractions.
    """

    cost: int
    thermal: List[ThermalRow]
    renewable: List[RenewableRow]
    shed: Optional[ShortageRow] = None
    short: Optional[ShortageRow] = None
    denominator: int = 1


@dataclass(frozen=True)
class Report:
    """A report; the bound in micro-dollars, and how many windows a roll has. Only what its outcome has is there."""

    path: str
    periods: int
    thermal_units: int
    renewable_units: int
    rounded: int
    outcome: Outcome
    evaluations: Optional[int] = None
    bound: Optional[int] = None
    schedule: Optional[Schedule] = None
    stuck: Optional[Stuck] = None
    windows: Optional[int] = None
    stopped: Optional[Stopped] = None


def read_report(path: str, data: bytes, takes_parts: bool = False) -> Report:
    """The report of the bytes of a file. Refused with the file and the line; and unless it takes parts of watts, where they are told."""
    lines = Lines(path, data)
    sizes = _sizes(lines)
    if lines.is_at(Outcome.ROLLED.value):
        windows, cost = _windows(lines), _money(lines, "cost")
        report = Report(path, *sizes, Outcome.ROLLED, schedule=_schedule(lines, cost, *sizes[:3]), windows=windows)
    elif lines.is_at(Outcome.STOPPED.value):
        report = Report(path, *sizes, Outcome.STOPPED, stopped=_stopped(lines))
    else:
        report = _searched(lines, path, sizes, takes_parts)
    lines.finish()
    return report


def _searched(lines: Lines, path: str, sizes: Tuple[int, int, int, int], takes_parts: bool) -> Report:
    """The report of `uc solve` behind its first line."""
    outcome = _outcome(lines)
    if outcome is Outcome.INFEASIBLE:
        return Report(path, *sizes, outcome, _evaluations(lines))
    if outcome is Outcome.NO_SCHEDULE:
        bound, evaluations = _money(lines, "bound"), _evaluations(lines)
        return Report(path, *sizes, outcome, evaluations, bound, stuck=None if lines.is_done() else _stuck(lines))
    cost, bound, evaluations = _money(lines, "cost"), _money(lines, "bound"), _evaluations(lines)
    denominator = _denominator(lines, takes_parts)
    return Report(path, *sizes, outcome, evaluations, bound, _schedule(lines, cost, *sizes[:3], denominator))


def _denominator(lines: Lines, takes_parts: bool) -> int:
    """What the powers are over: 1 where no line tells it."""
    if not lines.is_at("denominator"):
        return 1
    line = lines.take()
    if not takes_parts:
        lines.refuse("powers over a denominator aren't taken")
    number = denominator_of(line.partition(" ")[2])
    if number is None:
        lines.refuse(f"{shown(line)} is no denominator from 2 to 99")
    return number


def denominator_of(text: str) -> Optional[int]:
    """A denominator from 2 to 99; None for any other text."""
    number = whole(text)
    return number if number is not None and 2 <= number <= 99 else None


def _schedule(lines: Lines, cost: int, periods: int, thermal: int, renewable: int, denominator: int = 1) -> Schedule:
    """The rows of a schedule."""
    thermal_rows = [_thermal_row(lines, periods, denominator) for _ in range(thermal)]
    renewable_rows = [_renewable_row(lines, periods, denominator) for _ in range(renewable)]
    shed, short = (_shortage_row(lines, word, periods, denominator) for word in ("shed", "reserve-short"))
    return Schedule(cost, thermal_rows, renewable_rows, shed, short, denominator)


def _sizes(lines: Lines) -> Tuple[int, int, int, int]:
    words = lines.take().split(" ")
    numbers = [number for number in map(whole, words[1::2]) if number is not None]
    if words[::2] != ["periods", "thermal", "renewable", "rounded"] or len(numbers) != 4:
        lines.refuse("not the line of sizes that a report begins with")
    periods, thermal, renewable, rounded = numbers
    return periods, thermal, renewable, rounded


def _outcome(lines: Lines) -> Outcome:
    line = lines.take()
    for outcome in (Outcome.CLOSED, Outcome.SPENT, Outcome.NO_SCHEDULE, Outcome.INFEASIBLE):
        if outcome.value == line:
            return outcome
    lines.refuse(f"{shown(line)} is no outcome")


def _windows(lines: Lines) -> int:
    line = lines.take()
    parts = _ROLLED.fullmatch(line)
    windows = whole(parts[1]) if parts else None
    if windows is None:
        lines.refuse(f"{shown(line)} where the number of windows is due")
    return windows


def _stopped(lines: Lines) -> Stopped:
    line = lines.take()
    parts = _STOPPED.fullmatch(line)
    numbers = [number for number in map(whole, parts.groups()[:3]) if number is not None] if parts else []
    if not parts or len(numbers) != 3:
        lines.refuse(f"{shown(line)} where a window without a schedule is due")
    window, first, last = numbers
    return Stopped(lines.number, window, first, last, parts[4] == "infeasible")


def _word_of(lines: Lines, name: str) -> str:
    """The one word behind a line's name."""
    line = lines.take()
    if not line.startswith(name + " "):
        lines.refuse(f"{shown(line)} where the {name} is due")
    return line[len(name) + 1 :]


def _money(lines: Lines, name: str) -> int:
    word = _word_of(lines, name)
    money = amount(word)
    if money is None:
        lines.refuse(f"{shown(word)} is no amount of money")
    return money


def _evaluations(lines: Lines) -> int:
    word = _word_of(lines, "evaluations")
    number = whole(word)
    if number is None:
        lines.refuse(f"{shown(word)} is no number of evaluations")
    return number


def _unit_line(lines: Lines, kind: str, periods: int) -> Tuple[str, List[str]]:
    """The name of a unit and the words of its cells, as many as there are periods."""
    line = lines.take()
    parts = _UNIT_LINE.fullmatch(line)
    if parts is None or parts[1] != kind:
        lines.refuse(f"{shown(line)} where a {kind} unit is due")
    words = parts[3].split(" ")[1:]
    if len(words) != periods:
        lines.refuse(f"{len(words)} cells for {periods} periods")
    return unescaped(parts[2]), words


def _thermal_row(lines: Lines, periods: int, denominator: int) -> ThermalRow:
    name, words = _unit_line(lines, "thermal", periods)
    return ThermalRow(lines.number, name, [_cell(lines, t + 1, word, denominator) for t, word in enumerate(words)])


def _cell(lines: Lines, period: int, word: str, denominator: int) -> Optional[Cell]:
    if word == "-":
        return None
    parts = _CELL.fullmatch(word)
    if parts:
        output, reserve = amount(parts[1]), amount(parts[2])
        if output is not None and reserve is not None:
            return Cell(over(output, denominator), over(reserve, denominator), int(parts[3] or 0))
    lines.refuse(f"period {period}: {shown(word)} is no cell")


def _renewable_row(lines: Lines, periods: int, denominator: int) -> RenewableRow:
    name, words = _unit_line(lines, "renewable", periods)
    return RenewableRow(lines.number, name, [_output(lines, t + 1, word, denominator) for t, word in enumerate(words)])


def _shortage_row(lines: Lines, word: str, periods: int, denominator: int) -> Optional[ShortageRow]:
    """The line that begins with a word; None where another one is due, or the end."""
    if not lines.is_at(word):
        return None
    words = lines.take().split(" ")[1:]
    if len(words) != periods:
        lines.refuse(f"{len(words)} amounts for {periods} periods")
    return ShortageRow(lines.number, [_output(lines, t + 1, word, denominator) for t, word in enumerate(words)])


def _output(lines: Lines, period: int, word: str, denominator: int) -> Watts:
    output = amount(word)
    if output is None:
        lines.refuse(f"period {period}: {shown(word)} is no amount of power")
    return over(output, denominator)


def _stuck(lines: Lines) -> Stuck:
    text = lines.take()
    parts = _STUCK.fullmatch(text)
    period = whole(parts[1]) if parts else None
    if not parts or period is None:
        lines.refuse(f"{shown(text)} where the stuck commitment or the end is due")
    for kind, pattern in enumerate(_WHY):
        why = pattern.fullmatch(parts[2])
        if why:
            return _reason(lines, text, period, kind, why)
    lines.refuse(f"{shown(parts[2])} is no reason")


def _reason(lines: Lines, text: str, period: int, kind: int, why: Match[str]) -> Stuck:
    """A reason by the place of its pattern in `_WHY`. Refused where its numbers are none."""
    if kind == 0:
        return Stuck(lines.number, text, period, unit=unescaped(why[1]))
    first, second = (amount(word) for word in why.groups()[-2:])
    if first is None or second is None:
        lines.refuse(f"{shown(text)} has a number that is no amount of power")
    if first <= second if kind in (1, 2) else first >= second:
        lines.refuse(f"{shown(text)} compares its numbers the wrong way")
    if kind == 1:
        return Stuck(lines.number, text, period, unit=unescaped(why[1]))
    if kind in (2, 3):
        return Stuck(lines.number, text, period, demand=second)
    return Stuck(lines.number, text, period, need=second)


def unescaped(name: str) -> str:
    return _ESCAPE.sub(lambda parts: parts[1] or chr(int(parts[2], 16)), name)
