"""Hours and numbers of things in words."""
from __future__ import annotations

from typing import List


def times(hours: int) -> str:
    """So many hours."""
    return "1 hour" if hours == 1 else f"{hours:,} hours"


def hour_list(hours: List[int]) -> str:
    """Hours that rise, runs of three or more by their ends: `hours 2, 5 to 9 and 12`."""
    runs: List[List[int]] = []
    for hour in hours:
        if runs and hour == runs[-1][-1] + 1:
            runs[-1].append(hour)
        else:
            runs.append([hour])
    parts: List[str] = []
    for run in runs:
        parts += [f"{run[0]} to {run[-1]}"] if len(run) > 2 else map(str, run)
    return ("hour " if len(hours) == 1 else "hours ") + joined(parts)


def joined(parts: List[str]) -> str:
    """Parts of a list in words."""
    return parts[0] if len(parts) == 1 else ", ".join(parts[:-1]) + " and " + parts[-1]
