"""The reason that no schedule exists, or was found, as the head of a page tells it."""
from __future__ import annotations

from typing import List, Optional

from schedule_view.refusal import Refusal
from schedule_view.report import Outcome, Report

from .command import why_lines
from .stuck import stuck_words


def page_lines(path: str, data: bytes, report: Report, certificate_path: Optional[str], certificate_data: bytes) -> List[str]:
    """Lines of the reason, more of one behind a blank; none where there is none to tell, or the certificate's isn't borne out."""
    if report.stuck:
        return [" ".join(stuck_words(report.stuck))]
    if report.outcome is not Outcome.INFEASIBLE or certificate_path is None:
        return []
    try:
        lines = why_lines(path, data, certificate_path, certificate_data, 1)
    except Refusal:
        return []
    return [line for line in lines[1:] if line]
