"""A row of the table, and its texts as comma-separated values and as JSON."""
from __future__ import annotations

import csv
import io
import json
from dataclasses import dataclass, fields
from typing import List, NoReturn, Optional, Tuple, Union

from schedule_view.amounts import amount, amount_text, gap_parts, signed
from schedule_view.report import Outcome, Report

STATUS_OF = {Outcome.CLOSED: 0, Outcome.SPENT: 1, Outcome.NO_SCHEDULE: 2, Outcome.INFEASIBLE: 3}


@dataclass(frozen=True)
class Row:
    """What a run answered and took; None where it has no such number.

    Cost and bound are in micro-dollars, the gap in parts per million of the cost, rounded up. The status is that of the program, or
    the number of the signal that ended it, below 0. Microseconds are those of the processor, bytes the greatest resident memory. The
    options are the words that the program was given.
    """

    name: str
    status: int
    cost: Optional[int]
    bound: Optional[int]
    gap: Optional[int]
    evaluations: Optional[int]
    seconds: int
    memory: int
    options: str

    @property
    def is_answered(self) -> bool:
        """Whether the run came to an answer: each has its evaluations."""
        return self.evaluations is not None


def row_of(name: str, status: int, report: Optional[Report], used: Tuple[int, int], options: str) -> Row:
    """The row of a run that ended, with its report if it has one, the microseconds and bytes that it used, and its options."""
    if report is None:
        return Row(name, status, None, None, None, None, *used, options)
    cost = report.schedule.cost if report.schedule else None
    gap = None if cost is None or report.bound is None else gap_parts(cost, report.bound)
    return Row(name, status, cost, report.bound, gap, report.evaluations, *used, options)


# the columns in their order, with what writes a cell and what reads it; None is a text that is no such cell
_COLUMNS = (
    ("name", str, lambda text: text or None),
    ("status", str, signed),
    ("cost", amount_text, amount),
    ("bound", amount_text, amount),
    ("gap", str, signed),
    ("evaluations", str, signed),
    ("seconds", amount_text, amount),
    ("memory", amount_text, amount),
    ("options", str, lambda text: text or None),
)
_TEXTS = {"name", "options"}
_MAY_LACK = {"cost", "bound", "gap", "evaluations"}
HEAD = [name for name, _, _ in _COLUMNS]
assert HEAD == [field.name for field in fields(Row)]

# a cell as its text, None where it is empty
Cells = List[Optional[str]]


def _cells(row: Row) -> Cells:
    pairs = ((write, getattr(row, name)) for name, write, _ in _COLUMNS)
    return [None if value is None else write(value) for write, value in pairs]


def _row(cells: Cells) -> Row:
    """The row of its cells. A ValueError says which one is none."""
    if len(cells) != len(HEAD):
        raise ValueError(f"{len(cells)} cells, where there are {len(HEAD)} columns")
    values = []
    for cell, (name, _, read) in zip(cells, _COLUMNS):
        value = None if cell is None else read(cell)
        if value is None and not (cell is None and name in _MAY_LACK):
            raise ValueError(f"no {name} of a row")
        values.append(value)
    return Row(*values)


class CommaSeparated:
    """Rows as comma-separated values below a line of the columns' names; an empty cell is what a row lacks."""

    # what stands above the rows, and what a table begins with that has a line or a front of one
    head = opening = ",".join(HEAD) + "\n"

    @staticmethod
    def line(row: Row) -> str:
        """The line of a row."""
        out = io.StringIO()
        csv.writer(out, lineterminator="\n").writerow("" if cell is None else cell for cell in _cells(row))
        return out.getvalue()

    @staticmethod
    def row(line: str) -> Row:
        """The row of a line. A ValueError says why it is none."""
        try:
            (cells,) = csv.reader([line], strict=True)
        except csv.Error as error:
            raise ValueError(str(error)) from None
        return _row([cell or None for cell in cells])


class _Number(str):
    """The text of a JSON number."""


class JsonLines:
    """Rows as JSON objects, one a line, without a line above them; what a row lacks is null."""

    head, opening = "", '{"name": '

    @staticmethod
    def line(row: Row) -> str:
        """The line of a row."""
        words = (json.dumps(cell, ensure_ascii=False) if name in _TEXTS else cell for name, cell in zip(HEAD, _cells(row)))
        return "{" + ", ".join(f'"{name}": {word or "null"}' for name, word in zip(HEAD, words)) + "}\n"

    @staticmethod
    def row(line: str) -> Row:
        """The row of a line. A ValueError says why it is none."""
        value = json.loads(line, parse_float=_Number, parse_int=_Number, parse_constant=_no_constant)
        if not isinstance(value, dict) or list(value) != HEAD:
            raise ValueError("no object of the columns in their order")
        cells: Cells = []
        for name, cell in value.items():
            if cell is not None and not (isinstance(cell, str) and isinstance(cell, _Number) == (name not in _TEXTS)):
                raise ValueError(f"no {name} of a row")
            cells.append(None if cell is None else str(cell))
        return _row(cells)


def _no_constant(text: str) -> NoReturn:
    raise ValueError(f"no JSON: {text}")


Form = Union[CommaSeparated, JsonLines]
# by the ending of the table's name
FORMS = {".csv": CommaSeparated(), ".jsonl": JsonLines()}
