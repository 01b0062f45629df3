"""What is short in a schedule that may lack something at a price: demand that stays unserved, and reserve that is missing."""
from __future__ import annotations

from dataclasses import dataclass
from math import ceil
from typing import List, Optional, Tuple

from .amounts import Watts, short_text
from .report import Schedule, ShortageRow

# the prices of unserved demand and of missing reserve, in dollars a megawatt-hour, which are micro-dollars a watt; 0 allows none
Penalty = Tuple[int, int]
NO_PENALTY: Penalty = (0, 0)
MOST_PENALTY = 1_000_000


@dataclass(frozen=True)
class Shortage:
    """What is short of one kind: its name, the class that gives its colour, its price, and its watts by hour."""

    name: str
    look: str
    price: int
    watts: List[Watts]

    @property
    def costs(self) -> List[int]:
        """What it costs in each hour, in micro-dollars, each rounded up."""
        return [ceil(self.price * watts) for watts in self.watts]

    @property
    def size_text(self) -> str:
        """How much it is in all hours, and its price."""
        return f"{short_text(sum(self.watts))} MWh at ${self.price:,}"


def shortages(schedule: Schedule, periods: int, penalty: Penalty) -> Tuple[Shortage, Shortage]:
    """Unserved demand and missing reserve; noughts where the report has no line of them."""

    def watts(row: Optional[ShortageRow]) -> List[Watts]:
        return row.watts if row else [0] * periods

    shed, spill_reserve = penalty
    return (
        Shortage("unserved demand", "shed", shed, watts(schedule.shed)),
        Shortage("missing reserve", "short", spill_reserve, watts(schedule.short)),
    )
