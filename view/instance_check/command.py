"""The command: the files of the words, each looked at by itself."""
from __future__ import annotations

import argparse
from typing import List, NamedTuple, Optional

from schedule_view.files import read_file
from schedule_view.refusal import Refusal, printable

from .findings import Finding, Findings
from .limits import look_at_limits, look_at_startup
from .magnitudes import look_at_magnitudes
from .points import look_at_points
from .ramps import ramps_of
from .reach import look_at_hours
from .states import look_at_state
from .texts import look_at_texts
from .units import System, read_system

ABOUT = """Looks for doubtful data in instances: what `uc solve` takes, and may not be meant. Each finding is a line with the file, the place, what
stands there, and what it does to the answer. Of a file that `uc` refuses only that is told, with the place. Where a ramp can bind, a line
of the ramps says whether --exact-units is worth trying; it is no finding."""
REFUSED = "`uc` refuses the file (codes I1 to I8, docs/FORMATS.md)"


class Said(NamedTuple):
    """The lines of what is found in a file, and the line of its ramps where one can bind."""

    found: List[str]
    ramps: Optional[str] = None


def main(words: List[str]) -> int:
    """Runs the command; 0 where nothing is found, 1 where something is or a file is no instance, 2 where the words are faulty."""
    parser = argparse.ArgumentParser(prog="uc-look", description=ABOUT)
    parser.add_argument("files", metavar="FILE", nargs="+", help="an instance, pglib-uc JSON")
    said = [said_of(path) for path in parser.parse_args(words).files]
    for found, ramps in said:
        for line in found + ([ramps] if ramps else []):
            print(line)
    return 1 if any(found for found, _ in said) else 0


def said_of(path: str) -> Said:
    """What is said of a file."""
    try:
        system = read_system(path, read_file(path))
    except Refusal as refusal:
        return Said([f"{refusal}; {REFUSED}"])
    ramps = ramps_of(system)
    return Said([_line(path, finding) for finding in look_at(system)], _line(path, ramps.finding) if ramps else None)


def _line(path: str, finding: Finding) -> str:
    return printable(f"{path}: {finding}")


def look_at(system: System) -> Findings:
    """All findings: of the texts, of the hours, of each unit, and of the magnitudes."""
    periods = system.instance.periods
    found = look_at_texts(system) + look_at_hours(system) + look_at_magnitudes(system)
    for unit in system.units:
        found += look_at_points(unit) + look_at_state(unit, periods) + look_at_limits(unit, periods) + look_at_startup(unit)
    return found
