"""The grid of units by hours: where a unit is on, starts, or is at its least or greatest output."""
from __future__ import annotations

from dataclasses import dataclass
from typing import Dict, Iterator, List, Optional, Tuple

from .amounts import Watts, short_text
from .instance import Instance, Renewable, Thermal
from .layers import merit_order
from .report import Cell, RenewableRow, Schedule, ThermalRow
from .svg import day_lines, described, element, hour_labels, percent, stretched, text, title

FEW_UNITS = 60
# the pixels of a row, of few units and of many, which the style has too
HIGH_ROW, LOW_ROW, HEAD = 17, 11, 18


@dataclass(frozen=True)
class Mark:
    """What the grid shows in a cell: the class that gives its colour, what its title says, and the category of a start, else 0."""

    look: str
    words: str
    category: int = 0


@dataclass(frozen=True)
class Row:
    """A unit's marks by hour; None where nothing is drawn."""

    name: str
    marks: List[Optional[Mark]]


def thermal_grid(instance: Instance, schedule: Schedule) -> str:
    """The thermal units, the cheapest on top."""
    order = merit_order(instance)
    return _grid("Thermal units by hour", [thermal_row(instance.thermal[g], schedule.thermal[g]) for g in order])


def renewable_grid(instance: Instance, schedule: Schedule) -> str:
    """The renewable units in the order of the file."""
    rows = [renewable_row(unit, row) for unit, row in zip(instance.renewable, schedule.renewable)]
    return _grid("Renewable units by hour", rows)


def thermal_row(unit: Thermal, row: ThermalRow) -> Row:
    """The marks of a thermal unit."""
    return Row(unit.name, [_thermal_mark(unit, cell) if cell else None for cell in row.cells])


def _thermal_mark(unit: Thermal, cell: Cell) -> Mark:
    look, where = _level(cell.output, unit.least, unit.greatest)
    words = f"{short_text(cell.output)} MW{where}, reserve {short_text(cell.reserve)} MW"
    return Mark(look, words + (f", start of category {cell.category}" if cell.category else ""), cell.category)


def renewable_row(unit: Renewable, row: RenewableRow) -> Row:
    """The marks of a renewable unit."""
    marks: List[Optional[Mark]] = []
    for output, least, greatest in zip(row.outputs, unit.least, unit.greatest):
        look, where = _level(output, least, greatest)
        words = f"{short_text(output)} of {short_text(greatest)} MW{where}"
        marks.append(Mark(look, words) if greatest else None)
    return Row(unit.name, marks)


def _level(output: Watts, least: int, greatest: int) -> Tuple[str, str]:
    """The class and the words of an output within its range."""
    if output == greatest:
        return "greatest", ", its greatest output"
    return ("least", ", its least output") if output == least else ("between", "")


def _grid(label: str, rows: List[Row]) -> str:
    """The names and the hours of a grid, and its cells; of many units it scrolls below the hours."""
    periods, few = len(rows[0].marks), len(rows) <= FEW_UNITS
    pixels = HIGH_ROW if few else LOW_ROW
    height = pixels * len(rows)
    lines = "".join(element("line", x2="100%", y1=y, y2=y, class_="line") for y in range(0, height + 1, pixels))
    pieces = [piece for place, row in enumerate(rows) for piece in _pieces(row, place, pixels)]
    cells = stretched(periods, height + 1, "".join(piece.shape for piece in pieces))
    drawn = lines + day_lines(periods, height) + cells + "".join(piece.category for piece in pieces)
    names = "".join(element("div", text(row.name), title=text(row.name)) for row in rows)
    grid = element(
        "div",
        element("div", class_="corner")
        + element("svg", hour_labels(periods, HEAD - 5), height=HEAD, class_="hours", aria_hidden="true")
        + element("div", names, class_="names")
        + element("svg", drawn, height=height + 1, **described(label)),
        class_=f"grid {'few' if few else 'many'}",
    )
    return grid if few else element("div", grid, class_="scroll")


@dataclass(frozen=True)
class Piece:
    """Hours with the same mark: the shape, in hours and pixels, and the category of a start, which isn't stretched."""

    shape: str
    category: str


def runs(row: Row) -> Iterator[Tuple[int, int, Mark]]:
    """The marks of a unit, with their first hour, from 0, and the one behind; hours that follow each other with the same mark are one."""
    first = 0
    for end in range(1, len(row.marks) + 1):
        if end == len(row.marks) or row.marks[end] != row.marks[first]:
            mark = row.marks[first]
            if mark:
                yield first, end, mark
            first = end


def hours_text(first: int, end: int) -> str:
    """The hours from one, counted from 0, to the one before another."""
    return f"hour {first + 1}" if end == first + 1 else f"hours {first + 1} to {end}"


def _pieces(row: Row, place: int, pixels: int) -> List[Piece]:
    """The marks of a unit as they are drawn."""
    found = []
    for first, end, mark in runs(row):
        words = f"{row.name}, {hours_text(first, end)}: {mark.words}"
        box = {"x": first, "y": place * pixels + 1, "width": end - first, "height": pixels - 1}
        category = _category(mark, percent(first + 0.5, len(row.marks)), (place + 0.78) * pixels)
        found.append(Piece(_shape(mark, words, box), category))
    return found


def _shape(mark: Mark, words: str, box: Dict[str, int]) -> str:
    """A mark over its hours; a start has a bar at its left edge."""
    piece = element("rect", title(words), class_=mark.look, **box)
    if not mark.category:
        return piece
    return piece + element("path", d=f"M{box['x']} {box['y']}v{box['height']}", class_="start")


def _category(mark: Mark, x: str, y: float) -> str:
    """The number of a start's category in its hour; nothing where none starts."""
    return element("text", str(mark.category), x=x, y=y, class_=f"category on-{mark.look}") if mark.category else ""
