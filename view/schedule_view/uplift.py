"""What `uc uplift` printed, read strictly by its format (`docs/FORMATS.md`, "The report"), and whether it is of an instance."""
from __future__ import annotations

import re
from dataclasses import dataclass
from fractions import Fraction
from typing import List, NoReturn, Optional

from .amounts import MILLION, nearest, signed, whole
from .certificate import Certificate, Prices, Table
from .instance import Instance
from .lines import Lines
from .refusal import Refusal, shown
from .report import NAME, unescaped
from .shortages import Penalty

_NUMBER = r"(0|-?[1-9][0-9]{0,38})"
_SHED, _SLACKS = "shortages", (("reserve-slack", "reserve slack"), ("ramp-slack", "ramp slack"))


@dataclass(frozen=True)
class Part:
    """A part: its line, its name, the class that gives its colour, and its number, in 1/scale micro-dollars."""

    line: int
    name: str
    look: str
    number: int


@dataclass(frozen=True)
class Uplift:
    """The prices of a table, the parts of the schedule's cost above the bound of that table, the units' first, and their sum."""

    path: str
    prices: Prices
    thermal: List[Part]
    renewable: List[Part]
    shed: List[Part]
    slacks: List[Part]
    total: int

    @property
    def parts(self) -> List[Part]:
        """All parts, in the order of the lines."""
        return self.thermal + self.renewable + self.shed + self.slacks

    def bound(self, cost: int) -> int:
        """The bound that these prices give by themselves, in micro-dollars, of a schedule of this cost."""
        return cost + -self.total // self.prices.scale

    def micros(self, number: int) -> int:
        """The micro-dollars nearest to a number of the lines."""
        return nearest(Fraction(number, self.prices.scale * MILLION))


def read_uplift(path: str, data: bytes) -> Uplift:
    """The uplifts of the bytes of a file. Refused with the file and the line."""
    lines = Lines(path, data)
    scale = _scale(lines)
    demand, reserve = _prices(lines, "price"), _prices(lines, "reserve-price")
    thermal, renewable = _units(lines, "thermal"), _units(lines, "renewable")
    shed = [_part(lines, "shed", _SHED, "shed")] if lines.is_at("shed") else []
    slacks = [_part(lines, word, name, "slack") for word, name in _SLACKS]
    total = _part(lines, "total", "total", "").number
    lines.finish()
    return Uplift(path, Prices(0, scale, demand, reserve), thermal, renewable, shed, slacks, total)


def table_of(uplift: Uplift, tables: List[Table]) -> Optional[int]:
    """The number of the first table that has these prices at this scale; None where none has."""
    prices = uplift.prices
    wanted = prices.scale, prices.demand, prices.reserve
    return next((k for k, it in enumerate(tables, 1) if (it.scale, it.demand, it.reserve) == wanted), None)


def prices_of(certificate: Optional[Certificate], uplift: Optional[Uplift]) -> Optional[Prices]:
    """The prices that are told: those of uplifts where they are given, else those of the certificate, if it has a bound."""
    return uplift.prices if uplift else certificate.prices if certificate else None


def check_uplift(instance: Instance, uplift: Uplift, penalty: Penalty) -> None:
    """Refused where the uplifts aren't of this instance with these prices of what is short, or don't add up, with the line."""
    for line, prices in ((2, uplift.prices.demand), (3, uplift.prices.reserve)):
        if len(prices) != instance.periods:
            _refuse(uplift, line, f"{len(prices)} prices for {instance.periods} periods")
    kinds = (("thermal", uplift.thermal, instance.thermal), ("renewable", uplift.renewable, instance.renewable))
    for word, parts, units in kinds:
        if len(parts) != len(units):
            _refuse(uplift, None, f"{len(parts)} {word} units, where the instance has {len(units)}")
        for part, unit in zip(parts, units):
            if part.name != unit.name:
                _refuse(uplift, part.line, f"unit {shown(part.name)}, where the instance has {shown(unit.name)}")
    if bool(uplift.shed) != any(penalty):
        _refuse(uplift, uplift.shed[0].line if uplift.shed else None, "a line shed comes exactly where something may be short")
    for part in uplift.parts:
        if part.number < 0:
            _refuse(uplift, part.line, "a number below 0")
    summed = sum(part.number for part in uplift.parts)
    if summed != uplift.total:
        _refuse(uplift, uplift.slacks[-1].line + 1, f"the parts add up to {summed}")


def _refuse(uplift: Uplift, line: Optional[int], what: str) -> NoReturn:
    raise Refusal(uplift.path, f"line {line}" if line else "", what)


def _scale(lines: Lines) -> int:
    line = lines.take()
    scale = whole(line[6:]) if line.startswith("scale ") else None
    if not scale:
        lines.refuse(f"{shown(line)} where the scale of a table of prices is due")
    return scale


def _prices(lines: Lines, word: str) -> List[int]:
    first, *words = lines.take().split(" ")
    numbers = [number for number in map(signed, words) if number is not None]
    if first != word or len(numbers) != len(words):
        lines.refuse(f"not the line {word} and its numbers")
    return numbers


def _units(lines: Lines, word: str) -> List[Part]:
    parts = []
    while lines.is_at(word):
        line = lines.take()
        found = re.fullmatch(f"{word} {NAME} {_NUMBER}", line)
        if found is None:
            lines.refuse(f"{shown(line)} is no unit and its uplift")
        parts.append(Part(lines.number, unescaped(found[1]), word, int(found[2])))
    return parts


def _part(lines: Lines, word: str, name: str, look: str) -> Part:
    line = lines.take()
    found = re.fullmatch(f"{word} {_NUMBER}", line)
    if found is None:
        lines.refuse(f"{shown(line)} where {word} and a number are due")
    return Part(lines.number, name, look, int(found[1]))
