"""An instance with its rules, and what its units can give to a weighed sum of demand and reserve.

Rules and values are those of `examples/check.py`, which reads instances and certificates by the documents alone.
"""
from __future__ import annotations

import importlib.util
import pathlib
from dataclasses import dataclass
from typing import Any, Dict, List, Optional, Tuple

from schedule_view.instance import read_instance
from schedule_view.refusal import Refusal
from schedule_view.shortages import Penalty

CHECKER = pathlib.Path(__file__).resolve().parent.parent.parent / "examples/check.py"
MOST_INSTANCE = 2**26
# how many units at weights are kept
MOST_KEPT = 20_000

# by unit, from 1, and by period: whether the unit is on there
Decided = Dict[int, Dict[int, int]]


def _checker() -> Any:
    """The module `examples/check.py`, under a name of its own."""
    spec = importlib.util.spec_from_file_location("uc_examples_check", CHECKER)
    assert spec is not None and spec.loader is not None
    module = importlib.util.module_from_spec(spec)
    spec.loader.exec_module(module)
    return module


check = _checker()


@dataclass(frozen=True)
class Weights:
    """A number for the demand of each period, and one, at least 0, for its reserve."""

    demand: Tuple[int, ...]
    reserve: Tuple[int, ...]

    @property
    def size(self) -> int:
        """The greatest of the numbers in size."""
        return max(map(abs, self.demand + self.reserve), default=0)

    def places(self) -> List[Tuple[int, int]]:
        """Where a number isn't 0: 0 for demand or 1 for reserve, and the period from 1. The smallest numbers come first."""
        rows = (self.demand, self.reserve)
        found = [(abs(n), kind, t) for kind, row in enumerate(rows) for t, n in enumerate(row, 1) if n]
        return [(kind, t) for _, kind, t in sorted(found)]

    def without(self, places: List[Tuple[int, int]]) -> Weights:
        """The same with 0 at these places."""
        rows = [list(self.demand), list(self.reserve)]
        for kind, t in places:
            rows[kind][t - 1] = 0
        return Weights(*map(tuple, rows))

    def rounded(self, steps: int) -> Weights:
        """Each number as the nearest whole number of parts, of which the greatest number has so many."""
        size = self.size
        return Weights(*(tuple(_nearest(n * steps, size) for n in row) for row in (self.demand, self.reserve)))


def _nearest(n: int, size: int) -> int:
    """n/size rounded to a whole number, half away from 0."""
    found = (2 * abs(n) + size) // (2 * size) if size else 0
    return -found if n < 0 else found


@dataclass(frozen=True)
class Most:
    """A weighed sum of demand and reserve, and the most that each part of the system gives to it, all in weighed watts."""

    wanted: int
    thermal: List[int]
    renewable: List[int]
    short: int

    @property
    def given(self) -> int:
        """The most that all parts give together."""
        return sum(self.thermal) + sum(self.renewable) + self.short

    @property
    def excess(self) -> int:
        """By how much more is wanted than can be given: the value of the weights as a ray."""
        return self.wanted - self.given


class System:
    """An instance with its rules; units, periods and tables count from 1."""

    def __init__(self, path: str, data: bytes, penalty: Penalty) -> None:
        self.path, self.penalty = path, penalty
        named = read_instance(path, data)
        self.names = [unit.name for unit in named.thermal]
        self.renewable_names = [unit.name for unit in named.renewable]
        self.periods, self.demand, self.reserves = named.periods, named.demand, named.reserves
        try:
            if len(data) > MOST_INSTANCE:
                raise check.Refused(4, f"instance: more than {MOST_INSTANCE} bytes")
            self.instance = check.instance_of(check.json_of(data))
            check.penalize(self.instance, *penalty)
        except check.Refused as refused:
            raise Refusal(path, "", str(refused)) from None
        self.walks = 0
        self._kept: Dict[Weights, Any] = {}

    def unit(self, g: int) -> Any:
        """A thermal unit as `examples/check.py` has it."""
        return self.instance.thermal[g - 1]

    def most(self, weights: Weights, decided: Decided, is_exact: bool) -> Optional[Most]:
        """What can be given at most where this is decided; with exact values each unit keeps its ramps. None where some unit
        has no pattern there, or no schedule of its own."""
        priced = self._priced(weights)
        thermal = []
        for g in range(1, len(self.names) + 1):
            value = priced.unit_value(g, decided.get(g, {}), is_exact)
            if value is None:
                return None
            thermal.append(-value)
        self.walks += len(thermal)
        pairs = list(zip(weights.demand, weights.reserve, self.demand, self.reserves))
        wanted = sum(pi * demand + mu * reserve for pi, mu, demand, reserve in pairs)
        return Most(wanted, thermal, [self._renewable(unit, weights) for unit in self.instance.renewable], self._short(pairs))

    def value(self, table: Any, decided: Decided, is_exact: bool) -> Optional[int]:
        """V or VE at a table; None where some unit has no pattern, or no schedule of its own."""
        return check.PricedInstance(self.instance, table).value(decided, is_exact)

    def is_empty(self, g: int, decided: Decided, is_exact: bool) -> bool:
        """Whether a unit has no pattern, or with exact values no schedule of its own."""
        nothing = (0,) * self.periods
        return self._priced(Weights(nothing, nothing)).unit_value(g, decided.get(g, {}), is_exact) is None

    def _priced(self, weights: Weights) -> Any:
        if weights not in self._kept:
            if len(self._kept) * len(self.names) >= MOST_KEPT:
                self._kept.clear()
            table = check.Record(scale=0, pi=list(weights.demand), mu=list(weights.reserve), ramps={})
            self._kept[weights] = check.PricedInstance(self.instance, table)
        return self._kept[weights]

    def _renewable(self, unit: Any, weights: Weights) -> int:
        return sum(pi * (most if pi > 0 else least) for pi, least, most in zip(weights.demand, unit.least, unit.most))

    def _short(self, pairs: List[Tuple[int, int, int, int]]) -> int:
        """What may be short at a price: all of what is wanted."""
        shed, spill_reserve = (price > 0 for price in self.penalty)
        demand = sum(max(pi, 0) * max(demand, 0) for pi, _, demand, _ in pairs) if shed else 0
        return demand + (sum(mu * max(reserve, 0) for _, mu, _, reserve in pairs) if spill_reserve else 0)
