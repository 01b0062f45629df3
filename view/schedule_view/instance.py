"""The instance, read from pglib-uc JSON with every number exact, as `docs/FORMATS.md` says."""
from __future__ import annotations

import json
from dataclasses import dataclass
from fractions import Fraction
from typing import Dict, List, NoReturn, Optional, Tuple

from .amounts import MILLION, scaled
from .refusal import Refusal, shown

MOST_PERIODS, MOST_UNITS = 168, 4096
MOST_POINTS, MOST_CATEGORIES = 64, 16
POWER_LIMIT, COST_LIMIT, TIME_LIMIT = 10**13, 5 * 10**12, 10**6


@dataclass(frozen=True)
class Thermal:
    """A thermal unit as far as a picture needs it; power in watts, money in micro-dollars."""

    name: str
    least: int
    maximum: int
    # the greatest output: what the maximum and the points allow
    greatest: int
    # outputs in watts, none below the one before, with what an hour there costs in micro-dollars
    points: List[Tuple[int, int]]
    # micro-dollars by category
    start_costs: List[int]
    is_on_before: bool

    @property
    def average_cost(self) -> Optional[Fraction]:
        """Micro-dollars for a watt and hour at the last point, None where that is at no output."""
        last, cost = self.points[-1]
        return Fraction(cost, last) if last > 0 else None


@dataclass(frozen=True)
class Renewable:
    """A renewable unit with its least and greatest output in each period, in watts."""

    name: str
    least: List[int]
    greatest: List[int]


@dataclass(frozen=True)
class Instance:
    """The units in the order of the file, demand and reserve needed in watts, and how many numbers were rounded."""

    periods: int
    demand: List[int]
    reserves: List[int]
    thermal: List[Thermal]
    renewable: List[Renewable]
    rounded: int


class Number(str):
    """The text of a JSON number."""


class Record:
    """An object of the file, whose fields are asked for by name and refused by name."""

    def __init__(self, source: Source, place: str, value: object) -> None:
        self._source, self._place = source, place
        if not isinstance(value, dict):
            source.refuse(place, "no object")
        self._fields: Dict[str, object] = value

    def place(self, field: str, entry: Optional[int] = None) -> str:
        """Where a field stands, and which entry of it, from 1."""
        return " ".join(part for part in (self._place, field, "" if entry is None else str(entry)) if part)

    def refuse(self, what: str, field: str, entry: Optional[int] = None) -> NoReturn:
        """Ends the run at a field."""
        self._source.refuse(self.place(field, entry), what)

    def value(self, field: str) -> object:
        """What stands at a field, which has to be there."""
        if field not in self._fields:
            self.refuse("missing", field)
        return self._fields[field]

    def amount(self, field: str, limit: int) -> int:
        """Millionths at most as large as the limit."""
        return self._source.number(self.value(field), limit, self.place(field))

    def time(self, field: str) -> int:
        """A whole number of hours."""
        return self._whole(field, TIME_LIMIT)

    def flag(self, field: str) -> bool:
        """0 or 1."""
        number = self._whole(field, None)
        if number not in (0, 1):
            self.refuse("neither 0 nor 1", field)
        return number == 1

    def periods(self) -> int:
        """How many periods there are."""
        number = self._whole("time_periods", None)
        if not 1 <= number <= MOST_PERIODS:
            self.refuse(f"not from 1 to {MOST_PERIODS}", "time_periods")
        return number

    def powers(self, field: str, periods: int) -> List[int]:
        """A power of each period; entries past the last period don't count."""
        values = self._list(field)
        if len(values) < periods:
            self.refuse(f"{len(values)} entries for {periods} periods", field)
        return [self._source.number(v, POWER_LIMIT, self.place(field, t + 1)) for t, v in enumerate(values[:periods])]

    def rows(self, field: str, most: int) -> List[Record]:
        """The objects of a list that isn't empty."""
        values = self._list(field)
        if not 1 <= len(values) <= most:
            self.refuse(f"{len(values)} rows, and not from 1 to {most}", field)
        return [Record(self._source, self.place(field, k + 1), v) for k, v in enumerate(values)]

    def units(self, field: str, kind: str) -> List[Tuple[str, Record]]:
        """The units of an object from name to record, in the order of the file."""
        units = Record(self._source, self.place(field), self.value(field))._fields
        if len(units) > MOST_UNITS:
            self.refuse(f"more than {MOST_UNITS} units", field)
        return [(name, Record(self._source, f"{kind} {shown(name)}", value)) for name, value in units.items()]

    def _whole(self, field: str, limit: Optional[int]) -> int:
        number = self._source.number(self.value(field), None, self.place(field))
        if number % MILLION:
            self.refuse("not whole", field)
        hours = number // MILLION
        if limit is not None and not 0 <= hours <= limit:
            self.refuse(f"not from 0 to {limit}", field)
        return hours

    def _list(self, field: str) -> List[object]:
        value = self.value(field)
        if not isinstance(value, list):
            self.refuse("no array", field)
        return value


class Source:
    """The file that is read, and how many of its numbers were rounded so far."""

    def __init__(self, path: str) -> None:
        self._path, self.rounded = path, 0

    def refuse(self, place: str, what: str) -> NoReturn:
        """Ends the run at a place of the file."""
        raise Refusal(self._path, place, what)

    def number(self, value: object, limit: Optional[int], place: str) -> int:
        """A number in millionths, at most as large as the limit."""
        if not isinstance(value, Number):
            self.refuse(place, "no number")
        found = scaled(value)
        if found is None or (limit is not None and abs(found[0]) > limit):
            self.refuse(place, "past the limit")
        self.rounded += found[1]
        return found[0]


def read_instance(path: str, data: bytes) -> Instance:
    """The instance of the bytes of a file. Refused with the file and the field."""
    source = Source(path)
    top = Record(source, "", _json(path, data))
    periods = top.periods()
    demand, reserves = top.powers("demand", periods), top.powers("reserves", periods)
    thermal = [_thermal(name, unit) for name, unit in top.units("thermal_generators", "thermal")]
    renewable = [_renewable(name, unit, periods) for name, unit in top.units("renewable_generators", "renewable")]
    return Instance(periods, demand, reserves, thermal, renewable, source.rounded)


def _thermal(name: str, unit: Record) -> Thermal:
    """Reads every field, since each may hold a rounded number, and keeps what is needed."""
    unit.flag("must_run")
    least = unit.amount("power_output_minimum", POWER_LIMIT)
    if least < 0:
        unit.refuse("below 0", "power_output_minimum")
    maximum = unit.amount("power_output_maximum", POWER_LIMIT)
    if maximum < least:
        unit.refuse("below the minimum", "power_output_maximum")
    for field in ("ramp_up_limit", "ramp_down_limit", "ramp_startup_limit", "ramp_shutdown_limit"):
        if unit.amount(field, POWER_LIMIT) < 0:
            unit.refuse("below 0", field)
    for field in ("time_up_minimum", "time_down_minimum", "time_up_t0", "time_down_t0"):
        unit.time(field)
    unit.amount("power_output_t0", POWER_LIMIT)
    start_costs = _start_costs(unit)
    points = _points(unit)
    return Thermal(
        name=name,
        least=least,
        maximum=maximum,
        greatest=min(maximum, least + points[-1][0] - points[0][0]),
        points=points,
        start_costs=start_costs,
        is_on_before=unit.flag("unit_on_t0"),
    )


def _start_costs(unit: Record) -> List[int]:
    """What a start of each category costs, in micro-dollars."""
    costs = []
    for category in unit.rows("startup", MOST_CATEGORIES):
        category.time("lag")
        costs.append(category.amount("cost", COST_LIMIT))
    return costs


def _points(unit: Record) -> List[Tuple[int, int]]:
    """The outputs in watts, none below the one before, with their costs in micro-dollars."""
    points: List[Tuple[int, int]] = []
    for row in unit.rows("piecewise_production", MOST_POINTS):
        point = row.amount("mw", POWER_LIMIT), row.amount("cost", COST_LIMIT)
        if points and point[0] < points[-1][0]:
            row.refuse("below the row before", "mw")
        points.append(point)
    return points


def _renewable(name: str, unit: Record, periods: int) -> Renewable:
    least = [max(power, 0) for power in unit.powers("power_output_minimum", periods)]
    greatest = unit.powers("power_output_maximum", periods)
    for t, (low, high) in enumerate(zip(least, greatest)):
        if high < low:
            unit.refuse("below the minimum or 0", "power_output_maximum", t + 1)
    return Renewable(name, least, greatest)


def _json(path: str, data: bytes) -> object:
    """The JSON value of the bytes, with numbers as their texts and no key twice in an object."""

    def unique(pairs: List[Tuple[str, object]]) -> Dict[str, object]:
        fields: Dict[str, object] = {}
        for key, value in pairs:
            if key in fields:
                raise Refusal(path, "", f"key twice in an object: {shown(key)}")
            if any("\ud800" <= c <= "\udfff" for c in key):
                raise Refusal(path, "", "unpaired surrogate in a key")
            fields[key] = value
        return fields

    def refuse_constant(text: str) -> NoReturn:
        raise Refusal(path, "", f"no JSON: {text}")

    try:
        return json.loads(
            data.decode("utf-8"),
            object_pairs_hook=unique,
            parse_float=Number,
            parse_int=Number,
            parse_constant=refuse_constant,
        )
    except UnicodeDecodeError as error:
        raise Refusal(path, f"byte {error.start}", "not UTF-8") from None
    except json.JSONDecodeError as error:
        raise Refusal(path, f"line {error.lineno} column {error.colno}", "no JSON") from None
    except RecursionError:
        raise Refusal(path, "", "nested too deep") from None
