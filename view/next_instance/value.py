"""The JSON value of the next instance: that of the one before it, with other hours and another initial state."""
from __future__ import annotations

import json
from typing import Dict, Iterator, List

from schedule_view.amounts import amount_text
from schedule_view.instance import Number
from schedule_view.refusal import Refusal, shown

from .state import State

Fields = Dict[str, object]
RENEWABLE = ("power_output_minimum", "power_output_maximum")
HOURLY = ("demand", "reserves")


def read_hours(path: str, data: bytes) -> Fields:
    """The value of a file of demand. Refused where it is none; its numbers aren't looked at."""
    try:
        value = json.loads(data.decode("utf-8"), parse_float=Number, parse_int=Number)
    except (ValueError, RecursionError):
        raise Refusal(path, "", "no JSON") from None
    _fields(path, "", value)
    for field in HOURLY:
        _array(path, field, value.get(field))
    return value


def behind(value: Fields, hour: int, periods: int) -> Fields:
    """The hours of an instance behind one of it, as a file of demand."""

    def rest(fields: Fields, names: Iterator[str]) -> Fields:
        return {name: fields[name][hour:periods] for name in names}

    units = {name: rest(unit, RENEWABLE) for name, unit in value["renewable_generators"].items()}
    return {"time_periods": Number(periods - hour), **rest(value, HOURLY), "renewable_generators": units}


def next_value(value: Fields, states: List[State], hours: Fields, path: str) -> Fields:
    """The instance of these hours, from these states of the thermal units. Refused where the hours have other renewable units."""
    thermal = {name: {**unit, **_state(state)} for (name, unit), state in zip(value["thermal_generators"].items(), states)}
    renewable = _renewable(value["renewable_generators"], hours, path)
    changed = {
        "time_periods": hours.get("time_periods", Number(len(hours["demand"]))),
        **{field: hours[field] for field in HOURLY},
        "thermal_generators": thermal,
        "renewable_generators": renewable,
    }
    return {**value, **changed}


def _state(state: State) -> Fields:
    return {
        "power_output_t0": Number(amount_text(state.output).rstrip("0").rstrip(".")),
        "unit_on_t0": Number(int(state.is_on)),
        "time_up_t0": Number(state.hours_on),
        "time_down_t0": Number(state.hours_off),
    }


def _renewable(units: Fields, hours: Fields, path: str) -> Fields:
    """The renewable units with the outputs of these hours."""
    given = _fields(path, "renewable_generators", hours.get("renewable_generators", {}))
    for name in (*units, *given):
        if name not in given or name not in units:
            what = "not in this file" if name in units else "not in the instance"
            raise Refusal(path, f"renewable {shown(name)}", what)
    made = {}
    for name, unit in units.items():
        place = f"renewable {shown(name)}"
        fields = _fields(path, place, given[name])
        made[name] = {**unit, **{field: _array(path, f"{place} {field}", fields.get(field)) for field in RENEWABLE}}
    return made


def _fields(path: str, place: str, value: object) -> Fields:
    if not isinstance(value, dict):
        raise Refusal(path, place, "no object")
    return value


def _array(path: str, place: str, value: object) -> List[object]:
    if not isinstance(value, list):
        raise Refusal(path, place, "missing" if value is None else "no array")
    return value


def text_of(value: Fields) -> str:
    """The text of an instance: a line for each field of the top and for each unit, and numbers as they stand."""
    lines = []
    for field, inner in value.items():
        if field.endswith("_generators"):
            units = ",\n".join(f"  {_text(name)}: {_text(unit)}" for name, unit in inner.items())
            lines.append(f" {_text(field)}: {{" + (f"\n{units}\n }}" if units else "}"))
        else:
            lines.append(f" {_text(field)}: {_text(inner)}")
    return "{\n" + ",\n".join(lines) + "\n}\n"


def _text(value: object) -> str:
    if isinstance(value, Number):
        return value
    if isinstance(value, dict):
        return "{" + ", ".join(f"{_text(name)}: {_text(inner)}" for name, inner in value.items()) + "}"
    if isinstance(value, list):
        return "[" + ", ".join(map(_text, value)) + "]"
    return json.dumps(value)
