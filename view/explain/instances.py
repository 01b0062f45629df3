"""A fault of the instance in a sentence, with the value and its place where the file is given."""
from __future__ import annotations

import re
from dataclasses import dataclass
from typing import Dict, List, Optional, Tuple

from reasons.system import check
from schedule_view.amounts import scaled, short_text
from schedule_view.refusal import shown
from schedule_view.report import NAME, unescaped

from .places import Step, Value, byte_place, find
from .texts import COSTS, FIELDS, FLAGS, INSTANCE_CODES, JSON_KINDS, RENEWABLE_FIELDS, TIMES

_KNOWN = "|".join(sorted(map(re.escape, FIELDS), key=len, reverse=True))
# the quotes round a name are lost where a shell took them
_PLACE = re.compile(rf'(?:(thermal|renewable) (?:{NAME}|(.+?))(?: ({_KNOWN}))?|({_KNOWN}))?(?: ([1-9][0-9]*))?', re.DOTALL)
GROUPS = {"thermal": "thermal_generators", "renewable": "renewable_generators"}
MOST_ROWS = {"startup": 16, "piecewise_production": 64}
NO_FILE = "Give the instance by --instance to see the line and the value."


@dataclass(frozen=True)
class Place:
    """Where a fault is: the kind and name of a unit, a field, and the number of an entry; what isn't there is empty."""

    kind: str
    unit: str
    field: str
    entry: int

    @property
    def words(self) -> str:
        """The place in a sentence."""
        unit = f"{self.kind} unit {shown(self.unit)}" if self.kind else ""
        if not self.field:
            return unit or "the whole value"
        entry = f"entry {self.entry} of " if self.entry else ""
        name, _, inner = self.field.partition(".")
        field = f"{inner} in {entry}{name}" if inner else f"{entry}{self.field}"
        return f"{field} of {unit}" if unit else field

    def steps(self) -> List[Step]:
        """The way from the top value to it."""
        name, _, inner = self.field.partition(".")
        steps: List[Step] = [GROUPS[self.kind], self.unit] if self.kind else []
        steps += [name] if name else []
        steps += [self.entry - 1] if self.entry else []
        return steps + ([inner] if inner else [])

    @property
    def meaning(self) -> Tuple[str, str]:
        """What the field is, and what it takes."""
        fields: Dict[str, Tuple[str, str]] = RENEWABLE_FIELDS if self.kind == "renewable" else FIELDS
        return fields.get(self.field, FIELDS.get(self.field, ("", "an object")))


def place_of(text: str) -> Optional[Place]:
    """The place of the text behind a code; None where it is none."""
    found = _PLACE.fullmatch(text)
    if found is None:
        return None
    name = unescaped(found[2]) if found[2] is not None else found[3] or ""
    return Place(found[1] or "", name, found[4] or found[5] or "", int(found[6] or 0))


def json_fault(at: int, kind: str, path: str, data: Optional[bytes]) -> List[str]:
    """A fault of bytes that are no JSON."""
    what = JSON_KINDS[kind]
    if data is None:
        return [f"The instance is refused at byte {at:,}, counted from 0: {what}.", "Give the instance by --instance to see the line and column."]
    if at > len(data):
        return [f"The instance is refused at byte {at:,}, which the file {path} doesn't have: it isn't the one of that run."]
    place, rest = byte_place(data, at)
    here = "the file ends" if at == len(data) else f"{shown(rest.splitlines()[0][:30] if rest.splitlines() else rest)} stands"
    lines = [f"{path} {place}, where {here}: {what}."]
    hint = _json_hint(data, at, kind)
    return lines + [hint] if hint else lines


def _json_hint(data: bytes, at: int, kind: str) -> str:
    """What is likely wrong there; nothing where that can't be said."""
    here, before = data[at : at + 12], data[:at].rstrip()
    if data.startswith(b"\x1f\x8b"):
        return "The file is compressed: unpack it first."
    if kind == "not UTF-8":
        return "Save the file as UTF-8."
    if kind != "no JSON":
        return ""
    if data.startswith(b"\xef\xbb\xbf"):
        return "The file begins with a byte order mark: save it without one."
    if at == len(data):
        return "The file is cut, or a closing bracket is missing."
    hints = (
        (here[:1] in b"}]" and before.endswith(b","), "A comma stands before a closing bracket."),
        (here[:1] == b"," and before.endswith((b",", b"[", b"{")), "A comma stands where a value is due."),
        (here[:1] in b"NI", "JSON has no NaN and no Infinity."),
        (here[:1] in b"nN" or here[:1] in b"TF", "JSON has the words true, false and null alone, in small letters."),
        (here[:1] == b"'", "JSON has double quotes alone."),
        (here[:1] in b"/#", "JSON has no comments."),
        (here[:1].isdigit() and before.endswith((b"0", b"-0")), "A JSON number has no zeros in front."),
        (here[:1] in b".+", "A JSON number begins with a digit or a minus, and has a digit in front of its point."),
        (here[:1] == b'"' or here[:1].isdigit() or here[:1] in b"{[", "A comma or a colon may be missing before it."),
        (here[:1] < b" ", "A line feed or another control character stands in a text, or a text isn't closed."),
    )
    return next((hint for is_so, hint in hints if is_so), "")


def code_fault(code: str, text: str, path: str, data: Optional[bytes]) -> Optional[List[str]]:
    """A code of the instance; None where the text behind it is no place."""
    place = place_of(text)
    if place is None:
        return None
    if code == "I9":
        return _too_dear(path, data)
    general = f"The instance is refused: {place.words} {INSTANCE_CODES[code]}{_wanted(code, place)}."
    if data is None:
        return [general, NO_FILE]
    try:
        value = check.json_of(data)
    except check.Refused:
        return [general, f"The file {path} is no JSON text within the limits: it isn't the one of that run."]
    decoded = data.decode("utf-8")
    outer, inner = find(decoded, place.steps())
    if inner is None:
        lines = [f"{path} {outer.place}: {place.words} is missing{_wanted('I1', place)}."]
    else:
        lines = [f"{path} {inner.place}: {place.words} {_told(code, place, inner, decoded)}."]
    return lines + _other_line(code, text, value, path)


def _other_line(code: str, text: str, value: object, path: str) -> List[str]:
    """A word where the file has another fault, or none; rounded numbers are faults for `--exact` alone."""
    line = f"instance: {code} {text}".rstrip()
    try:
        check.instance_of(value)
        found = ""
    except check.Refused as refused:
        found = str(refused)
    if code == "I8" and not found or found.replace('"', "") == line.replace('"', ""):
        return []
    return [f"The file {path} {'gives ' + found if found else 'has no such fault'}: it isn't the one of that run."]


def _wanted(code: str, place: Place) -> str:
    """What the field takes, where that tells more."""
    what, takes = place.meaning
    if code == "I1":
        return f": {what}, {takes}" if what else ""
    if code in ("I2", "I5", "I7", "I3"):
        return f": it takes {takes}"
    if code == "I4":
        return f": {_limit(place.field)}"
    return ""


def _limit(field: str) -> str:
    if field in COSTS:
        return "a cost is at most 5,000,000 dollars in size"
    if field in TIMES:
        return "hours are from 0 to 1,000,000"
    return "a power is at most 10,000,000 MW in size"


def _told(code: str, place: Place, value: Value, text: str) -> str:
    """The value, and what is wrong with it."""
    field = place.field
    if code == "I2":
        is_row = field in MOST_ROWS and place.entry
        takes = "a number" if place.entry and not is_row else "an object" if is_row or not field else place.meaning[1]
        there = value.kind if value.kind == value.words else f"{value.kind}, {value.words},"
        return f"is {there} where {takes} is wanted"
    if code == "I6":
        periods = find(text, ["time_periods"])[1]
        return f"has {value.count:,} entries for {periods.words if periods else '?'} periods"
    if code == "I7" and field != "time_periods":
        most = MOST_ROWS.get(field, 4096)
        return f"has {value.count:,} {'rows' if field in MOST_ROWS else 'units'}, where at most {most:,} are taken"
    if code == "I8":
        return f"is {value.words}, with more than six decimals: it would be read as {_read(value)}, and --exact refuses that"
    what = {"I3": "it isn't whole", "I4": _limit(field), "I7": "at most 168 periods are taken"}.get(code) or _range(place, text)
    return f"is {value.words}: {what}" if value.kind != "an array" else f"is empty: it takes {place.meaning[1]}"


def _range(place: Place, text: str) -> str:
    """The range that a number is outside of."""
    field = place.field
    if field == "time_periods":
        return "there is at least one period"
    if field in FLAGS:
        return "it is 0 or 1"
    if field == "piecewise_production.mw":
        return f"it is below that of the row before, {_words(text, place, [field.split('.')[0], place.entry - 2, 'mw'])}"
    if field == "power_output_maximum":
        entry: List[Step] = [place.entry - 1] if place.entry else []
        least = _words(text, place, ["power_output_minimum", *entry])
        return f"it is below the minimum, {least}" + (", or below 0" if place.kind == "renewable" else "")
    return "it is below 0"


def _words(text: str, place: Place, steps: List[Step]) -> str:
    """Another value of the unit."""
    value = find(text, [GROUPS[place.kind], place.unit, *steps])[1]
    return value.words if value else "which is missing"


def _read(value: Value) -> str:
    """The number as it is read, rounded to six decimals."""
    found = scaled(value.words) if value.kind == "a number" and len(value.words) <= 60 else None
    return short_text(found[0]) if found else "another number"


def _too_dear(path: str, data: Optional[bytes]) -> List[str]:
    """The prices of what may be short are too high."""
    lead = f"The instance is refused: {INSTANCE_CODES['I9']}: all demand and all reserve, at their prices, may cost at most $2,000,000,000,000 together."
    if data is None:
        return [lead, "Give the instance by --instance to see how much of both there is."]
    try:
        instance = check.instance_of(check.json_of(data))
    except check.Refused as refused:
        return [lead, f"The file {path} gives {refused}: it isn't the one of that run."]
    demand, reserve = (sum(max(it, 0) for it in row) for row in (instance.demand, instance.reserves))
    most = [f"${min(2 * 10**18 // it, 10**6):,}" if it else "any price" for it in (demand, reserve)]
    return [
        lead,
        f"{path} asks for {short_text(demand)} MWh of demand and {short_text(reserve)} MWh of reserve: --shed alone may be up to {most[0]}, "
        f"and --spill-reserve alone up to {most[1]}.",
    ]
