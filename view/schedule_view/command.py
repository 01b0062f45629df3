"""The command: words, files, and the order in which they are looked at and written."""
from __future__ import annotations

import argparse
import io
import pathlib
import sys
from typing import Callable, List, Optional

from reasons.page import page_lines

from .amounts import MILLION, whole
from .certificate import Certificate, read_certificate
from .costs import hourly_costs
from .files import read_file, refuse_shared, write_file
from .fit import check_certificate, check_gap, check_report
from .instance import Instance, read_instance
from .json_form import write_json
from .page import page
from .refusal import Refusal
from .report import Report, read_report
from .shortages import MOST_PENALTY, Penalty
from .table import write_table
from .uplift import Uplift, check_uplift, prices_of, read_uplift

ABOUT = """Draws the report of `uc solve` or `uc roll` as one HTML page. Files that don't fit together are refused with a line that says where, and
status 1; then nothing is written."""


def main(words: List[str]) -> int:
    """Runs the command; 0 where the page was written, 1 where a file was refused or failed, 2 where the words are faulty."""
    given = _parser().parse_args(words)
    try:
        _run(given)
    except Refusal as refusal:
        print(f"uc-view: {refusal}", file=sys.stderr)
        return 1
    return 0


def _parser() -> argparse.ArgumentParser:
    parser = argparse.ArgumentParser(prog="uc-view", description=ABOUT)
    parser.add_argument("instance", metavar="INSTANCE", help="the instance, pglib-uc JSON")
    parser.add_argument("report", metavar="REPORT", help="what `uc solve` or `uc roll` printed for it")
    parser.add_argument("certificate", metavar="CERT", nargs="?", help="its certificate, whose prices are drawn too")
    parser.add_argument("-o", dest="page", metavar="OUT.html", required=True, help="where the page goes")
    parser.add_argument("--csv", dest="table", metavar="OUT.csv", help="where the schedule goes as a table, with what each unit costs")
    parser.add_argument("--json", metavar="OUT.json", help="where all that goes as JSON, with gap, totals, hours and uplifts")
    parser.add_argument("--uplift", metavar="UPLIFT", help="what `uc uplift` printed for the certificate, whose prices and uplifts are drawn")
    parser.add_argument("--gap", metavar="PPM", type=gap_of, help="the gap that `uc solve` was asked for, which the page then tells")
    for option, what in (("--shed", "unserved demand"), ("--spill-reserve", "missing reserve")):
        told = f"the price of {what} that `uc solve` was given; a certificate tells it too"
        parser.add_argument(option, metavar="PRICE", type=price_of, default=0, help=told)
    return parser


def number_of(least: int, most: int) -> Callable[[str], int]:
    """What reads a whole number within these limits; a word that is none is an error of the words."""

    def read(text: str) -> int:
        number = whole(text)
        if number is None or not least <= number <= most:
            raise argparse.ArgumentTypeError(f"{text} is not a whole number from {least} to {most}")
        return number

    return read


# a gap, and a price of what is short, as `uc` takes them
gap_of, price_of = number_of(0, MILLION), number_of(1, MOST_PENALTY)


def _run(given: argparse.Namespace) -> None:
    """Everything is read, checked and drawn before the first file is written."""
    inputs = [path for path in (given.instance, given.report, given.certificate, given.uplift) if path is not None]
    refuse_shared(inputs, [path for path in (given.page, given.table, given.json) if path is not None])
    data = read_file(given.instance)
    instance = read_instance(given.instance, data)
    report = read_report(given.report, read_file(given.report), takes_parts=True)
    certificate: Optional[Certificate] = None
    certificate_data = b""
    if given.certificate is not None:
        certificate_data = read_file(given.certificate)
        certificate = read_certificate(given.certificate, certificate_data, takes_parts=True)
    penalty = _penalty(given, certificate)
    check_report(instance, report, penalty)
    if given.gap is not None:
        check_gap(report, given.gap)
    if certificate:
        check_certificate(instance, report, certificate)
    uplift = _uplift(given, instance, report, penalty)
    why = page_lines(given.instance, data, report, given.certificate, certificate_data)
    name = pathlib.PurePath(given.instance).name
    outputs = [(given.page, page(instance, report, certificate, name, given.gap, penalty, uplift, why))]
    if given.table is not None:
        table = io.StringIO()
        write_table(instance, report.schedule, prices_of(certificate, uplift), penalty, table)
        outputs.append((given.table, table.getvalue()))
    if given.json is not None:
        text = io.StringIO()
        costs = hourly_costs(instance, report.schedule, penalty) if report.schedule else None
        write_json(name, instance, report, costs, certificate, uplift, text)
        outputs.append((given.json, text.getvalue()))
    for path, words in outputs:
        write_file(path, words)


def _uplift(given: argparse.Namespace, instance: Instance, report: Report, penalty: Penalty) -> Optional[Uplift]:
    """What `uc uplift` printed, where it is given. Refused where it isn't of this instance, or there is no schedule."""
    if given.uplift is None:
        return None
    uplift = read_uplift(given.uplift, read_file(given.uplift))
    if report.schedule is None:
        raise Refusal(given.uplift, "", "uplifts, where the report has no schedule")
    if report.windows is not None:
        raise Refusal(given.uplift, "", "uplifts, where a report of `uc roll` has no certificate")
    check_uplift(instance, uplift, penalty)
    return uplift


def _penalty(given: argparse.Namespace, certificate: Optional[Certificate]) -> Penalty:
    """The prices of what is short, which the words may tell, and a certificate tells. Refused where they differ."""
    told = given.shed, given.spill_reserve
    if certificate is None:
        return told
    if any(told) and told != certificate.penalty:
        raise Refusal(certificate.path, "line 4", "the prices of what is short aren't those of the words")
    return certificate.penalty
