"""Names, fields and numbers of the file that are taken otherwise than they stand there, or not at all."""
from __future__ import annotations

from typing import Dict, Iterator, List, Tuple

from schedule_view.amounts import scaled, short_text
from schedule_view.refusal import printable, shown

from .findings import Finding, Findings
from .units import System

TIMES = ("time_up_minimum", "time_down_minimum", "time_up_t0", "time_down_t0")
POWERS = ("power_output_minimum", "power_output_maximum", "power_output_t0")
RAMPS = ("ramp_up_limit", "ramp_down_limit", "ramp_startup_limit", "ramp_shutdown_limit")
ROWS = {"startup": ("lag", "cost"), "piecewise_production": ("mw", "cost")}
THERMAL = ("must_run", "unit_on_t0", *POWERS, *RAMPS, *TIMES)
RENEWABLE, HOURLY = ("power_output_minimum", "power_output_maximum"), ("demand", "reserves")
TOP = ("time_periods", *HOURLY, "thermal_generators", "renewable_generators")

_Fields = Dict[str, object]


def look_at_texts(system: System) -> Findings:
    """Doubtful names, fields that the format doesn't have, entries past the last hour, and numbers that are rounded."""
    return _names(system) + _unknown(system.value) + _long(system) + _negative(system) + _rounded(system)


def _units(value: _Fields) -> Iterator[Tuple[str, str, _Fields]]:
    """Kind, name and fields of each unit."""
    for kind in ("thermal", "renewable"):
        for name, fields in value[f"{kind}_generators"].items():
            yield kind, name, fields


def _names(system: System) -> Findings:
    found = []
    seen: Dict[str, Tuple[str, str]] = {}
    for kind, name, _ in _units(system.value):
        place = f"{kind} {shown(name)}"
        if not name or any(c.isspace() for c in name):
            found.append(Finding(place, "a name with blanks" if name else "an empty name", "who parts a report at blanks finds other words"))
        if any(c in '"\\' or not c.isprintable() for c in name):
            found.append(Finding(place, "a name with quotes, backslashes or what can't be seen", "reports write it with escapes"))
        same, other = seen.setdefault("".join(name.split()).casefold(), (kind, name))
        if (same, other) != (kind, name):
            what = f"a {same} unit has this name too" if name == other else f"{same} {shown(other)} has nearly the same name"
            found.append(Finding(place, what, "they are two units"))
    return found


def _unknown(value: _Fields) -> Findings:
    """Fields that the format doesn't have, each with how many records have it."""
    records = [("", "", value, TOP)]
    for kind, name, fields in _units(value):
        known = (*THERMAL, *ROWS) if kind == "thermal" else RENEWABLE
        records.append((kind, f"{kind} {shown(name)}", fields, known))
        for field, inner in ROWS.items() if kind == "thermal" else ():
            records += [(f"thermal {field}", f"{kind} {shown(name)} {field} {n}", row, inner) for n, row in enumerate(fields[field], 1)]
    places: Dict[Tuple[str, str], List[str]] = {}
    for kind, place, fields, known in records:
        for field in fields:
            if field not in known:
                places.setdefault((kind, field), []).append(place)
    found = []
    for (kind, field), where in places.items():
        what = f"no field of the format; {len(where)} have it, first {where[0]}" if len(where) > 1 else "no field of the format"
        place = f"{kind if len(where) > 1 else where[0]} {printable(field)}".strip()
        found.append(Finding(place, what, "it is skipped"))
    return found


def _long(system: System) -> Findings:
    """Arrays with entries past the last hour."""
    periods = system.instance.periods
    arrays = [(field, system.value[field]) for field in HOURLY]
    for kind, name, fields in _units(system.value):
        if kind == "renewable":
            arrays += [(f"renewable {shown(name)} {field}", fields[field]) for field in RENEWABLE]
    longer = [(place, len(array)) for place, array in arrays if len(array) > periods]
    if not longer:
        return []
    others = f", and {len(longer) - 1} more arrays are longer too" if len(longer) > 1 else ""
    what = f"{longer[0][1]} entries, where time_periods is {periods}{others}"
    return [Finding(longer[0][0], what, f"what follows entry {periods} isn't looked at")]


def _negative(system: System) -> Findings:
    """Least outputs of renewable units that count as 0."""
    found = []
    for kind, name, fields in _units(system.value):
        if kind == "renewable":
            numbers = [scaled(text)[0] for text in fields["power_output_minimum"][: system.instance.periods]]
            hour = next((t for t, number in enumerate(numbers, 1) if number < 0), None)
            if hour:
                place = f"renewable {shown(name)} power_output_minimum {hour}"
                found.append(Finding(place, f"{short_text(numbers[hour - 1])} MW", "a minimum below 0 counts as 0"))
    return found


def numbers(system: System) -> Iterator[Tuple[str, str, str]]:
    """Each number that is read: the field, its place, and its text."""
    value, periods = system.value, system.instance.periods
    yield "time_periods", "time_periods", value["time_periods"]
    for field in HOURLY:
        yield from ((field, f"{field} {t}", text) for t, text in enumerate(value[field][:periods], 1))
    for kind, name, fields in _units(value):
        unit = f"{kind} {shown(name)}"
        if kind == "renewable":
            for field in RENEWABLE:
                yield from ((f"renewable {field}", f"{unit} {field} {t}", text) for t, text in enumerate(fields[field][:periods], 1))
            continue
        yield from ((f"thermal {field}", f"{unit} {field}", fields[field]) for field in THERMAL)
        for field, inner in ROWS.items():
            for n, row in enumerate(fields[field], 1):
                yield from ((f"thermal {field}.{part}", f"{unit} {field} {n} {part}", row[part]) for part in inner)


def _rounded(system: System) -> Findings:
    """A finding for each field that has rounded numbers."""
    rounded: Dict[str, List[Tuple[str, str, int]]] = {}
    for field, place, text in numbers(system):
        number, is_rounded = scaled(text)
        if is_rounded:
            rounded.setdefault(field, []).append((place, text, number))
    found = []
    for field, those in rounded.items():
        place, text, number = those[0]
        more = f", and {len(those) - 1} more numbers of {field}" if len(those) > 1 else ""
        what = f"{printable(text[:40])} has more than six decimals{more}"
        effect = f"it is rounded to {short_text(number)}; every claim is of rounded numbers, and --exact refuses the file"
        found.append(Finding(place, what, effect))
    return found
