"""How slow the ramps of a system are, beside its reserve: whether a bound that keeps them exactly is worth trying."""
from __future__ import annotations

from dataclasses import dataclass
from typing import Optional

from .findings import Finding
from .units import System, Unit

# percent from which on `uc solve` mostly leaves the lesser gap with `--exact-units` than without it, in the same seconds
MUCH_SLOW, MUCH_RESERVE = 5, 15


@dataclass(frozen=True)
class Ramps:
    """How slow they are, in percent, rounded down.

    Slow is how much of the capacity above the minima is of units with a ramp, up or down, below half of theirs. Reserve is how much the
    greatest one is of what all units together may rise in an hour, at most 100.
    """

    slow: int
    reserve: int

    @property
    def is_tight(self) -> bool:
        """Whether `--exact-units` is worth trying."""
        return self.slow >= MUCH_SLOW or self.reserve >= MUCH_RESERVE

    @property
    def finding(self) -> Finding:
        """What is told of them."""
        slow = f"{self.slow} % of the capacity above the minima is of units with ramps below half of theirs"
        reserve = f"reserve is up to {self.reserve} % of all ramps up"
        return Finding("ramps", f"{slow}, and {reserve}", f"--exact-units {'is worth trying' if self.is_tight else 'hardly helps'}")


def ramps_of(system: System) -> Optional[Ramps]:
    """The ramps of a system; None where no unit has one below its capacity, since none can bind then."""
    units = system.units
    if all(_slower(unit) >= unit.span for unit in units):
        return None
    slow = sum(unit.span for unit in units if 2 * _slower(unit) < unit.span)
    rise = sum(min(unit.ramp_up, unit.span) for unit in units)
    reserve = max(0, *system.instance.reserves)
    return Ramps(_percent(slow, sum(unit.span for unit in units)), _percent(reserve, rise))


def _slower(unit: Unit) -> int:
    return min(unit.ramp_up, unit.ramp_down)


def _percent(part: int, whole: int) -> int:
    return min(100 * part // max(whole, 1), 100)
