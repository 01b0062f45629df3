"""The runs that are tried: growing budgets, and whether units keep their ramps exactly."""
from __future__ import annotations

from dataclasses import dataclass
from typing import Iterator

from instance_check.ramps import ramps_of
from instance_check.units import read_system
from schedule_view.files import read_file
from schedule_view.refusal import Refusal

FACTOR = 4


@dataclass(frozen=True)
class Trial:
    """The budget of a run, and whether it has `--exact-units`."""

    budget: int
    is_exact: bool

    def __str__(self) -> str:
        return f"budget {self.budget}{' with --exact-units' if self.is_exact else ''}"


def budgets(most: int) -> Iterator[int]:
    """1, 4, 16 and so on, and last the greatest one."""
    budget = 1
    while budget < most:
        yield budget
        budget *= FACTOR
    yield most


def has_tight_ramps(path: str) -> bool:
    """Whether the look at the ramps of an instance finds `--exact-units` worth trying; of a file that isn't taken the program tells more."""
    try:
        ramps = ramps_of(read_system(path, read_file(path)))
    except Refusal:
        return False
    return ramps is not None and ramps.is_tight
