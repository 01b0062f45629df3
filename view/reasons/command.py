"""The command: words, files, and the lines that are printed."""
from __future__ import annotations

import argparse
import sys
from typing import Any, List

from schedule_view.certificate import read_certificate
from schedule_view.files import read_file
from schedule_view.instance import read_instance
from schedule_view.fit import check_report
from schedule_view.refusal import Refusal, printable
from schedule_view.report import Outcome, read_report

from .leaves import Shared, Unfounded, decisions, reasons_of
from .stuck import stuck_words
from .system import System, check

ABOUT = """Says in words why `uc solve` ended with status 3, that no schedule exists: it reads the reasons of the certificate, and reckons
their numbers from the instance. With the report of status 2 in the certificate's place it says what the report's last line means. It is no
checker: `uc check INSTANCE CERT` tells whether the certificate holds. Status 0 where a reason was told, 1 where a file was refused, 2 where
the words are faulty."""
TOLD = 3


def main(words: List[str]) -> int:
    """Runs the command; 0 where a reason was told, 1 where a file was refused, 2 where the words are faulty."""
    given = _parser().parse_args(words)
    try:
        lines = _lines(given)
    except Refusal as refusal:
        print(f"uc-why: {refusal}", file=sys.stderr)
        return 1
    for line in lines:
        print(printable(line))
    return 0


def _parser() -> argparse.ArgumentParser:
    parser = argparse.ArgumentParser(prog="uc-why", description=ABOUT)
    parser.add_argument("instance", metavar="INSTANCE", help="the instance, pglib-uc JSON")
    parser.add_argument("certificate", metavar="CERT", help="the certificate that claims infeasibility; of status 2 the report")
    parser.add_argument("--all", action="store_true", help=f"tell each reason of a tree, and not the {TOLD} alone that exclude most leaves")
    return parser


def _lines(given: argparse.Namespace) -> List[str]:
    instance, data = read_file(given.instance), read_file(given.certificate)
    if data.startswith(b"periods "):
        return _hint(given.instance, instance, given.certificate, data)
    return why_lines(given.instance, instance, given.certificate, data, 10**9 if given.all else TOLD)


def _hint(path: str, data: bytes, report_path: str, report_data: bytes) -> List[str]:
    """What the report of a run says that found no schedule."""
    report = read_report(report_path, report_data)
    check_report(read_instance(path, data), report)
    if report.outcome is Outcome.INFEASIBLE:
        raise Refusal(report_path, "line 2", "no schedule exists, and the certificate has the reason: give it in this report's place")
    if report.outcome is not Outcome.NO_SCHEDULE or not report.stuck:
        raise Refusal(report_path, "line 2", "the report has no reason: it isn't of a run that found no schedule")
    lead = "No schedule was found within the budget. That there is none isn't shown."
    return [lead, "", *stuck_words(report.stuck)]


def why_lines(path: str, data: bytes, certificate_path: str, certificate_data: bytes, most: int = TOLD) -> List[str]:
    """What is printed for a certificate that claims infeasibility; so many kinds of reasons are told. Refused with file and place."""
    system, certificate = _read(path, data, certificate_path, certificate_data)
    try:
        shared, skipped = reasons_of(system, certificate)
    except Unfounded as unfounded:
        raise Refusal(certificate_path, "", str(unfounded)) from None
    lead = "No schedule exists, the certificate says. What follows puts its reason into words; `uc check` tells whether it holds."
    return [lead, "", *_reasons(system, shared, skipped, most)]


def _read(path: str, data: bytes, certificate_path: str, certificate_data: bytes) -> Any:
    """The instance and the certificate. Refused where it doesn't claim infeasibility, or isn't of this instance."""
    read = read_certificate(certificate_path, certificate_data)
    if read.bound is not None:
        raise Refusal(certificate_path, "line 3", "claims a bound, and not that no schedule exists; of status 2 give the report")
    system = System(path, data, read.penalty)
    if read.sizes != (system.periods, len(system.names), len(system.renewable_names)):
        raise Refusal(certificate_path, "line 2", "the sizes aren't those of the instance")
    certificate = check.certificate_of(certificate_data)
    try:
        check.check_tables(certificate.tables)
    except check.Refused as refused:
        raise Refusal(certificate_path, "", f"{refused}; `uc check` refuses such a certificate") from None
    return system, certificate


def _reasons(system: System, shared: List[Shared], skipped: int, most: int) -> List[str]:
    """The reasons with their leaves."""
    count = sum(len(it.leaves) for it in shared) + skipped
    if count == 1:
        return _reason(shared[0])
    if shared[0].is_general:
        return [f"One reason serves all {count} leaves of the tree, and holds without its splits:", *_reason(shared[0])]
    lines = [f"The tree has {count} leaves: what is decided on the way to each of them leaves no schedule there."]
    for it in shared[:most]:
        lines += ["", _which(system, it, count), *_reason(it)]
    left = shared[most:]
    if left:
        others = "another reason" if len(left) == 1 else f"{len(left)} other reasons"
        lines += ["", f"Of {_leaves(sum(len(it.leaves) for it in left))} `uc-why --all` tells {others}."]
    if skipped:
        lines += ["", f"{_leaves(skipped)} weren't looked at."]
    return lines


def _leaves(count: int) -> str:
    return "1 leaf" if count == 1 else f"{count:,} leaves"


def _which(system: System, shared: Shared, count: int) -> str:
    """Of which leaves a reason is told."""
    first = decisions(system, shared.leaves[0].decided)
    if len(shared.leaves) == 1:
        return f"Where {first}:"
    return f"{len(shared.leaves)} of {count} leaves, with the numbers of the first one, where {first}:"


def _reason(shared: Shared) -> List[str]:
    sentence = shared.reason.sentence
    return [sentence[0].upper() + sentence[1:], *(f"  {line}" for line in shared.reason.details)]
