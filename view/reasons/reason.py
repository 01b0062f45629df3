"""A reason why a leaf has no schedule: what makes two of them one, and how it is told."""
from __future__ import annotations

from dataclasses import dataclass, field
from typing import List, Optional, Tuple

from .system import Weights


@dataclass(frozen=True)
class Reason:
    """A sentence, and lines that tell more. Reasons of one key are one; those of weights can be tried at another leaf."""

    key: Tuple[object, ...]
    sentence: str
    details: List[str] = field(default_factory=list)
    weights: Optional[Weights] = None
    # the unit whose rules are in the way, 0 where it isn't about one
    unit: int = 0
    is_exact: bool = False
