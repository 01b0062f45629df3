"""What a look finds, and how its numbers are shown."""
from __future__ import annotations

from typing import List, NamedTuple

from schedule_view.amounts import dollars_text, short_text
from schedule_view.refusal import shown


class Finding(NamedTuple):
    """Where it is, what it is, and what it does to the answer."""

    place: str
    what: str
    effect: str

    def __str__(self) -> str:
        return f"{self.place}: {self.what}; {self.effect}"


Findings = List[Finding]


def thermal(name: str, field: str = "") -> str:
    """A thermal unit, or a field of it, as a place."""
    return f"thermal {shown(name)} {field}".rstrip()


def megawatts(watts: int) -> str:
    """A power."""
    return f"{short_text(watts)} MW"


def dollars(micros: int) -> str:
    """A cost."""
    return dollars_text(micros)


def hours(first: int, last: int) -> str:
    """Hours from the first to the last one."""
    return f"hour {first}" if first == last else f"hours {first} to {last}"


def time(count: int) -> str:
    """A number of hours."""
    return f"{count} hour" if count == 1 else f"{count} hours"
