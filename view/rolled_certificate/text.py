"""The text of a certificate: a schedule, and what bounds its cost (`docs/FORMATS.md`, "The certificate")."""
from __future__ import annotations

from dataclasses import dataclass
from typing import Iterator, List

from instance_check.units import System
from schedule_view.amounts import amount_text
from schedule_view.certificate import Certificate
from schedule_view.refusal import Refusal
from schedule_view.report import Schedule
from schedule_view.shortages import Penalty, shortages

from .zero_bound import SCALE, zero_bound


@dataclass(frozen=True)
class Basis:
    """What a bound stands on: the version of its text, how many tables it has, the claim in micro-dollars, and its lines to the end."""

    version: int
    tables: int
    bound: int
    lines: List[str]


def zero_basis(system: System) -> Basis:
    """The bound of the table of zeros."""
    periods = system.instance.periods
    zeros = " 0" * periods
    lines = [f"table {SCALE}", f"pi{zeros}", f"mu{zeros}", "ramps 0", "bound 1", "end"]
    return Basis(2, 1, zero_bound(tuple(system.units), periods), lines)


def basis_of(system: System, certificate: Certificate, data: bytes) -> Basis:
    """The tables, the tree and the claim of a certificate of the same instance, which don't hang on its schedule."""
    instance = system.instance
    if certificate.sizes != (instance.periods, len(instance.thermal), len(instance.renewable)):
        raise Refusal(certificate.path, "line 2", "the sizes aren't those of the instance")
    if certificate.bound is None:
        raise Refusal(certificate.path, "line 3", "it claims that no schedule exists, where the report has one")
    lines = data.decode("utf-8").splitlines()
    first = next(n for n, line in enumerate(lines) if line.startswith("table "))
    return Basis(int(lines[0].split(" ")[1]), int(lines[1].split(" ")[4]), certificate.bound, lines[first:])


def certificate_text(system: System, schedule: Schedule, penalty: Penalty, basis: Basis) -> str:
    """The certificate of a schedule that was found to be one of the instance."""
    instance = system.instance
    sizes = instance.periods, len(instance.thermal), len(instance.renewable), basis.tables
    head = [f"uc-certificate {basis.version}", "size " + " ".join(map(str, sizes)), f"claim bound {amount_text(basis.bound)}"]
    if any(penalty):
        head.append("penalty {} {}".format(*penalty))
    head.append(f"schedule {amount_text(schedule.cost)}")
    return "".join(f"{line}\n" for line in [*head, *_rows(system, schedule, penalty), *basis.lines])


def _rows(system: System, schedule: Schedule, penalty: Penalty) -> Iterator[str]:
    for unit, row in zip(system.units, schedule.thermal):
        yield "t " + " ".join(f"{cell.output - unit.least}:{cell.reserve}:{cell.category}" if cell else "-" for cell in row.cells)
    for other in schedule.renewable:
        yield "w " + " ".join(map(str, other.outputs))
    if any(penalty):
        for letter, short in zip("de", shortages(schedule, system.instance.periods, penalty)):
            yield f"{letter} " + " ".join(map(str, short.watts))
