"""What a run answered: how it is told, and whether it is to be kept."""
from __future__ import annotations

from dataclasses import dataclass
from typing import Iterator, Optional, Tuple

from instance_table.rows import STATUS_OF
from schedule_view.amounts import amount_text, gap_parts
from schedule_view.refusal import Refusal
from schedule_view.report import Outcome, Report, read_report

from .trials import Trial

# what no larger budget changes
LAST = Outcome.CLOSED, Outcome.INFEASIBLE


@dataclass(frozen=True)
class Answer:
    """A whole report of the program with its bytes, and what run it is of."""

    trial: Trial
    data: bytes
    report: Report

    @property
    def status(self) -> int:
        """The status of the program for it."""
        return STATUS_OF[self.report.outcome]

    @property
    def is_last(self) -> bool:
        """Whether no other run would answer more."""
        return self.report.outcome in LAST

    @property
    def distance(self) -> Tuple[bool, int]:
        """How far the answer is from a closed one: first whether it has no schedule, then cost less bound, or the bound downward."""
        report = self.report
        if report.outcome is Outcome.INFEASIBLE:
            return False, 0
        bound = report.bound or 0
        return (False, report.schedule.cost - bound) if report.schedule else (True, -bound)

    def __str__(self) -> str:
        return ", ".join(self._parts())

    def _parts(self) -> Iterator[str]:
        report = self.report
        yield str(self.trial)
        if report.outcome is Outcome.INFEASIBLE:
            yield "infeasible"
            return
        cost, bound = report.schedule.cost if report.schedule else None, report.bound or 0
        yield "no schedule found" if cost is None else f"cost {amount_text(cost)}"
        yield f"bound {amount_text(bound)}"
        gap = None if cost is None else gap_parts(cost, bound)
        if gap is not None:
            yield f"gap {gap} ppm"


def answer_of(trial: Trial, status: int, data: bytes) -> Answer:
    """The answer of a run that ended with this status. Refused where its report says otherwise."""
    report = read_report("the report", data, takes_parts=True)
    if STATUS_OF.get(report.outcome) != status:
        raise Refusal(report.path, "", f"{report.outcome.value}, where the status is {status}")
    return Answer(trial, data, report)


def is_to_be_kept(answer: Answer, before: Optional[Answer]) -> bool:
    """Whether an answer takes the place of the one before: it is at least as near to a closed one."""
    return before is None or answer.is_last or answer.distance <= before.distance
