"""The certificate, read strictly by its grammar (`docs/FORMATS.md`, "The certificate"). What it claims isn't checked: `uc check` does."""
from __future__ import annotations

import re
from collections import Counter
from dataclasses import dataclass
from typing import Dict, List, Optional, Tuple

from .amounts import Watts, amount, over, signed, whole
from .lines import Lines
from .refusal import shown
from .report import denominator_of
from .shortages import MOST_PENALTY, NO_PENALTY, Penalty

_CELL = re.compile(r"([^:]+):([^:]+):([^:]+)")
MOST_TABLES, MOST_CATEGORY, WATT_DIGITS = 2**32, 255, 15
# the greatest size of a price, whatever its scale
MOST_PRICE = 10**14
# the words of leaves with a bound
BOUNDS = ("bound", "exact")

# a cell that is on: output above the minimum and reserve in watts, and the category of a start, else 0
CertificateCell = Tuple[Watts, Watts, int]


@dataclass(frozen=True)
class CertificateSchedule:
    """A schedule as a certificate holds it: its cost in micro-dollars and its rows; the first row stands at `line`."""

    cost: int
    line: int
    thermal: List[List[Optional[CertificateCell]]]
    renewable: List[List[Watts]]
    # unserved demand and missing reserve; no rows where neither has a price
    shortages: List[List[Watts]]
    # powers are whole watts where it is 1, and else fractions
    denominator: int = 1


@dataclass(frozen=True)
class Prices:
    """The prices of a table by period: a number n means n/scale micro-dollars a watt, which are dollars a megawatt."""

    table: int
    scale: int
    demand: List[int]
    reserve: List[int]


RampPlace, RampRow = Tuple[int, int], Tuple[int, int]


@dataclass(frozen=True)
class Table:
    """A table: its scale, the prices of demand and of reserve by period, and the rows of ramps by unit and period."""

    scale: int
    demand: List[int]
    reserve: List[int]
    ramps: Dict[RampPlace, RampRow]


@dataclass(frozen=True)
class Leaves:
    """How many leaves of each word a tree has, and, where it has but one, its word and the number of its table or unit."""

    counts: Dict[str, int]
    only: Optional[Tuple[str, int]]


@dataclass(frozen=True)
class Certificate:
    """A certificate; the bound in micro-dollars, None where infeasibility is claimed; prices where some leaf has a bound."""

    path: str
    sizes: Tuple[int, int, int]
    bound: Optional[int]
    penalty: Penalty
    schedule: Optional[CertificateSchedule]
    prices: Optional[Prices]
    leaves: Leaves
    tables: List[Table]


def read_certificate(path: str, data: bytes, takes_parts: bool = False) -> Certificate:
    """The certificate of the bytes of a file. Refused with the file and the line; and unless it takes parts of watts, where they stand."""
    lines = Lines(path, data)
    version = _version(lines)
    periods, thermal, renewable, tables = _size(lines)
    bound = _claim(lines)
    penalty = _penalty(lines) if lines.is_at("penalty") else NO_PENALTY
    head = _schedule_head(lines, version, takes_parts)
    rows = (thermal, renewable, "de" if any(penalty) else "")
    schedule = _schedule(lines, periods, rows, *head) if head else None
    read: List[Table] = []
    for _ in range(tables):
        is_whole = version == 1 or not read
        read.append(_table(lines, periods, thermal) if is_whole else _next_table(lines, periods, thermal, read[-1]))
    leaves, first_bound, line = _tree(lines, version, periods, thermal, tables)
    _exactly(lines, "end")
    lines.finish()
    prices = _prices(first_bound, read[first_bound - 1]) if first_bound else None
    if prices and not prices.scale:
        lines.refuse("a bound at a table of scale 0", line)
    return Certificate(path, (periods, thermal, renewable), bound, penalty, schedule, prices, leaves, read)


def _version(lines: Lines) -> int:
    """The version of the format: from 2 on each table but the first is told by its difference to the one before it."""
    line = lines.take()
    if line not in ("uc-certificate 1", "uc-certificate 2", "uc-certificate 3"):
        lines.refuse(f'{shown(line)} where "uc-certificate" and a version from 1 to 3 are due')
    return int(line[-1])


def _exactly(lines: Lines, text: str) -> None:
    line = lines.take()
    if line != text:
        lines.refuse(f'{shown(line)} where "{text}" is due')


def _numbers(lines: Lines, word: str, count: int) -> List[int]:
    """The numbers of a line that begins with a word; each of at most 18 digits and any sign."""
    line = lines.take()
    words = line.split(" ")
    numbers = [number for number in map(signed, words[1:]) if number is not None]
    if words[0] != word or len(words) != count + 1 or len(numbers) != count:
        lines.refuse(f"{shown(line)} where {word} and {count} numbers are due")
    return numbers


def _size(lines: Lines) -> Tuple[int, int, int, int]:
    periods, thermal, renewable, tables = _numbers(lines, "size", 4)
    if not (1 <= periods <= 168 and 0 <= thermal <= 4096 and 0 <= renewable <= 4096 and 0 <= tables < MOST_TABLES):
        lines.refuse("a size past its limit")
    return periods, thermal, renewable, tables


def _claim(lines: Lines) -> Optional[int]:
    line = lines.take()
    if line == "claim infeasible":
        return None
    bound = amount(line[len("claim bound ") :]) if line.startswith("claim bound ") else None
    if bound is None:
        lines.refuse(f"{shown(line)} is no claim")
    return bound


def _penalty(lines: Lines) -> Penalty:
    shed, spill_reserve = _numbers(lines, "penalty", 2)
    if not (0 <= shed <= MOST_PENALTY and 0 <= spill_reserve <= MOST_PENALTY and (shed or spill_reserve)):
        lines.refuse("a price past its limit, or none")
    return shed, spill_reserve


def _schedule_head(lines: Lines, version: int, takes_parts: bool) -> Optional[Tuple[int, int]]:
    """The cost of the schedule, if there is one, and its denominator, which stands in version 3 alone."""
    line = lines.take()
    if line == "schedule none":
        return None
    word, _, rest = line.partition(" ")
    told, is_over, parts = rest.partition(" over ")
    cost, denominator = amount(told), denominator_of(parts) if is_over else 1
    if word != "schedule" or cost is None or denominator is None or is_over and version < 3:
        lines.refuse(f"{shown(line)} where the schedule is due")
    if is_over and not takes_parts:
        lines.refuse("powers over a denominator aren't taken")
    return cost, denominator


def _schedule(lines: Lines, periods: int, rows: Tuple[int, int, str], cost: int, denominator: int) -> CertificateSchedule:
    """The schedule with so many rows of thermal and of renewable units; those of shortages have these letters."""
    thermal, renewable, short = rows
    first = lines.number + 1
    cells = [[_cell(lines, word, denominator) for word in _row(lines, "t", periods)] for _ in range(thermal)]
    outputs = [[_watts(lines, word, denominator) for word in _row(lines, "w", periods)] for _ in range(renewable)]
    shortages = [[_watts(lines, word, denominator) for word in _row(lines, letter, periods)] for letter in short]
    return CertificateSchedule(cost, first, cells, outputs, shortages, denominator)


def _row(lines: Lines, word: str, periods: int) -> List[str]:
    line = lines.take()
    words = line.split(" ")
    if words[0] != word or len(words) != periods + 1:
        lines.refuse(f"{shown(line)} where {word} and {periods} cells are due")
    return words[1:]


def _cell(lines: Lines, word: str, denominator: int) -> Optional[CertificateCell]:
    if word == "-":
        return None
    parts = _CELL.fullmatch(word)
    category = whole(parts[3]) if parts else None
    if not parts or category is None or category > MOST_CATEGORY:
        lines.refuse(f"{shown(word)} is no cell")
    return _watts(lines, parts[1], denominator), _watts(lines, parts[2], denominator), category


def _watts(lines: Lines, word: str, denominator: int) -> Watts:
    watts = signed(word)
    if watts is None or len(word.lstrip("-")) > WATT_DIGITS:
        lines.refuse(f"{shown(word)} is no number of watts")
    return over(watts, denominator)


def _table(lines: Lines, periods: int, thermal: int) -> Table:
    (scale,) = _numbers(lines, "table", 1)
    if scale < 0:
        lines.refuse("a scale below 0")
    demand, reserve = _numbers(lines, "pi", periods), _numbers(lines, "mu", periods)
    (rows,) = _numbers(lines, "ramps", 1)
    if rows < 0:
        lines.refuse("a number of rows below 0")
    ramps: Dict[RampPlace, RampRow] = {}
    before = (0, 0)
    for _ in range(rows):
        unit, period, up, down = _numbers(lines, "ramp", 4)
        if not (1 <= unit <= thermal and 1 <= period <= periods and (up or down) and before < (unit, period)):
            lines.refuse("a ramp row that may not stand here")
        before = (unit, period)
        ramps[before] = (up, down)
    return Table(scale, demand, reserve, ramps)


def _next_table(lines: Lines, periods: int, thermal: int, before: Table) -> Table:
    """The table that is told by its difference to the one before it."""
    scale, count = _numbers(lines, "next", 2)
    if scale < 0 or count < 0:
        lines.refuse("a number below 0")
    table = Table(scale, before.demand[:], before.reserve[:], dict(before.ramps))
    last: Tuple[int, ...] = ()
    for _ in range(count):
        last = _change(lines, periods, thermal, table, last)
    return table


def _change(lines: Lines, periods: int, thermal: int, table: Table, last: Tuple[int, ...]) -> Tuple[int, ...]:
    """Changes a number of the table as the next line says; the place of the change, which comes behind the last one's."""
    if lines.is_at("r"):
        unit, period, up, down = _numbers(lines, "r", 4)
        place: Tuple[int, ...] = (2, unit, period)
        is_change = 1 <= unit <= thermal and 1 <= period <= periods and table.ramps.get((unit, period), (0, 0)) != (up, down)
        if is_change and (up or down):
            table.ramps[unit, period] = (up, down)
        elif is_change:
            del table.ramps[unit, period]
    else:
        word, prices = ("m", table.reserve) if lines.is_at("m") else ("p", table.demand)
        period, price = _numbers(lines, word, 2)
        place = ("pm".index(word), period)
        is_change = 1 <= period <= periods and prices[period - 1] != price
        if is_change:
            prices[period - 1] = price
    if not (is_change and last < place):
        lines.refuse("a change that may not stand here")
    return place


def _prices(number: int, table: Table) -> Prices:
    return Prices(number, table.scale, table.demand, table.reserve)


def _tree(lines: Lines, version: int, periods: int, thermal: int, tables: int) -> Tuple[Leaves, Optional[int], int]:
    """The leaves of the tree, by exact values in version 3 alone, and the table and line of the first leaf with a bound in preorder."""
    most = {"bound": tables, "ray": tables, "empty": thermal}
    if version == 3:
        most.update({"exact": tables, "exact-ray": tables, "exact-empty": thermal})
    leaves: List[Tuple[str, int, int]] = []
    due = 1
    while due:
        text = lines.take()
        word, _, rest = text.partition(" ")
        numbers = [number for number in map(whole, rest.split(" ")) if number is not None]
        if word in most and _are_within(numbers, [most[word]], rest):
            due -= 1
            leaves.append((word, numbers[0], lines.number))
        elif word == "split" and _are_within(numbers, [thermal, periods], rest):
            due += 1
        else:
            lines.refuse(f"{shown(text)} is no node of the tree")
    counts = Counter(word for word, _, _ in leaves)
    only = leaves[0][:2] if len(leaves) == 1 else None
    bound, line = next(((number, line) for word, number, line in leaves if word in BOUNDS), (None, 0))
    return Leaves(dict(counts), only), bound, line


def _are_within(numbers: List[int], most: List[int], text: str) -> bool:
    """Whether a node's words are as many numbers as there are greatest ones, each from 1 to that."""
    return len(numbers) == len(most) == text.count(" ") + 1 and all(1 <= number <= m for number, m in zip(numbers, most))
