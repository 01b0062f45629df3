"""The thermal units of an instance with all their fields, as `docs/MODEL.md` names them."""
from __future__ import annotations

import json
from dataclasses import dataclass
from typing import Dict, List, Tuple

from schedule_view.instance import COST_LIMIT, MOST_CATEGORIES, MOST_POINTS, POWER_LIMIT, Instance, Number, Record, Source, read_instance


@dataclass(frozen=True)
class Unit:
    """A thermal unit; power in watts, money in micro-dollars, times in hours."""

    name: str
    must_run: bool
    least: int
    maximum: int
    ramp_up: int
    ramp_down: int
    start_limit: int
    stop_limit: int
    # at least 1
    up: int
    down: int
    # the initial state as the file has it
    output_before: int
    is_on_before: bool
    up_before: int
    down_before: int
    # lag and cost by category; outputs, none below the one before, with what an hour there costs
    startup: List[Tuple[int, int]]
    points: List[Tuple[int, int]]

    @property
    def span(self) -> int:
        """The room above the minimum."""
        return self.maximum - self.least

    @property
    def width(self) -> int:
        """The greatest output above the minimum that the points have."""
        return self.points[-1][0] - self.points[0][0]

    @property
    def start_cap(self) -> int:
        """What output above the minimum and reserve may be in the hour of a start; below 0 the unit can't start."""
        return self.span - max(self.maximum - self.start_limit, 0)

    @property
    def stop_cap(self) -> int:
        """The same in the hour before a stop."""
        return self.span - max(self.maximum - self.stop_limit, 0)

    @property
    def first(self) -> int:
        """The initial output above the minimum, which is 0 where the unit is off."""
        return self.output_before - self.least if self.is_on_before else 0

    @property
    def held_on(self) -> int:
        """For how many hours from the first one its minimum up time keeps it on."""
        return max(self.up - self.up_before, 0) if self.is_on_before else 0

    @property
    def held_off(self) -> int:
        """For how many hours from the first one its minimum down time keeps it off."""
        return 0 if self.is_on_before else max(self.down - self.down_before, 0)


@dataclass(frozen=True)
class System:
    """An instance as a picture needs it, with its thermal units, and the file's JSON value with numbers as their texts."""

    instance: Instance
    units: List[Unit]
    value: Dict[str, object]


def read_system(path: str, data: bytes) -> System:
    """The system of the bytes of a file. Refused with the file and the field."""
    instance = read_instance(path, data)
    value = json.loads(data.decode("utf-8"), parse_float=Number, parse_int=Number)
    records = Record(Source(path), "", value).units("thermal_generators", "thermal")
    return System(instance, [_unit(name, record) for name, record in records], value)


def _unit(name: str, record: Record) -> Unit:
    """A unit whose fields were found lawful."""

    def power(field: str) -> int:
        return record.amount(field, POWER_LIMIT)

    return Unit(
        name=name,
        must_run=record.flag("must_run"),
        least=power("power_output_minimum"),
        maximum=power("power_output_maximum"),
        ramp_up=power("ramp_up_limit"),
        ramp_down=power("ramp_down_limit"),
        start_limit=power("ramp_startup_limit"),
        stop_limit=power("ramp_shutdown_limit"),
        up=max(record.time("time_up_minimum"), 1),
        down=max(record.time("time_down_minimum"), 1),
        output_before=power("power_output_t0"),
        is_on_before=record.flag("unit_on_t0"),
        up_before=record.time("time_up_t0"),
        down_before=record.time("time_down_t0"),
        startup=[(row.time("lag"), row.amount("cost", COST_LIMIT)) for row in record.rows("startup", MOST_CATEGORIES)],
        points=[
            (row.amount("mw", POWER_LIMIT), row.amount("cost", COST_LIMIT))
            for row in record.rows("piecewise_production", MOST_POINTS)
        ],
    )
