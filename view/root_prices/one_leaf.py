"""The text of a certificate whose tree is one leaf (`docs/FORMATS.md`, "The certificate")."""
from __future__ import annotations

from typing import Iterable, List, Optional

from schedule_view.amounts import amount_text
from schedule_view.certificate import Certificate, CertificateCell, CertificateSchedule, Table

# a claim that every value of a table bears out: the least of 38 digits
LEAST_CLAIM = -(10**37)


def one_leaf_text(certificate: Certificate, schedule: CertificateSchedule, table: Table, bound: int) -> str:
    """A certificate of the same schedule that claims a bound, in micro-dollars, by one leaf with this table."""
    periods, thermal, renewable = certificate.sizes
    penalty = [_line("penalty", certificate.penalty)] if any(certificate.penalty) else []
    lines = [
        "uc-certificate 2",
        f"size {periods} {thermal} {renewable} 1",
        f"claim bound {amount_text(bound)}",
        *penalty,
        f"schedule {amount_text(schedule.cost)}",
        *(" ".join(["t", *map(_cell, row)]) for row in schedule.thermal),
        *(_line("w", row) for row in schedule.renewable),
        *(_line(letter, row) for letter, row in zip("de", schedule.shortages)),
        *_table(table),
        "bound 1",
        "end",
    ]
    return "".join(f"{line}\n" for line in lines)


def _line(word: str, numbers: Iterable[int]) -> str:
    return " ".join([word, *map(str, numbers)])


def _cell(cell: Optional[CertificateCell]) -> str:
    return "-" if cell is None else ":".join(map(str, cell))


def _table(table: Table) -> List[str]:
    rows = [_line("ramp", (*place, *table.ramps[place])) for place in sorted(table.ramps)]
    return [f"table {table.scale}", _line("pi", table.demand), _line("mu", table.reserve), f"ramps {len(rows)}", *rows]
