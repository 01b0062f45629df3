"""The command: words, files, and the check that a certificate passes before it takes its place."""
from __future__ import annotations

import argparse
import subprocess
import sys
from typing import List, Optional, Tuple

from instance_check.units import System, read_system
from program_runs.draft import draft_of
from program_runs.program import add_program, built_program, last_line
from schedule_view.certificate import Certificate, read_certificate
from schedule_view.command import price_of
from schedule_view.files import cause, read_file, refuse_shared, write_file
from schedule_view.fit import check_report
from schedule_view.refusal import Refusal
from schedule_view.report import Schedule, read_report
from schedule_view.shortages import Penalty

from .text import Basis, basis_of, certificate_text, zero_basis

ABOUT = """Writes the certificate of a schedule of `uc roll`, which has none, and prints what `uc check` says of it. The bound is that of a
certificate of the same instance, or without one that of prices of 0. A certificate that `uc check` refuses isn't written."""


def main(words: List[str]) -> int:
    """Runs the command; 0 where the certificate was written, 1 where a file was refused or failed, 2 where the words are faulty."""
    given = _parser().parse_args(words)
    try:
        print(_run(given), end="")
    except Refusal as refusal:
        print(f"uc-roll-cert: {refusal}", file=sys.stderr)
        return 1
    return 0


def _parser() -> argparse.ArgumentParser:
    parser = argparse.ArgumentParser(prog="uc-roll-cert", description=ABOUT)
    parser.add_argument("instance", metavar="INSTANCE", help="the instance, pglib-uc JSON")
    parser.add_argument("report", metavar="REPORT", help="what `uc roll` printed for it")
    parser.add_argument("--cert", metavar="FILE", required=True, help="where the certificate goes")
    parser.add_argument("--bound", metavar="CERT", help="a certificate of `uc solve` for the instance, whose bound is taken")
    for option, what in (("--shed", "unserved demand"), ("--spill-reserve", "missing reserve")):
        told = f"the price of {what} that `uc roll` was given; CERT tells it too"
        parser.add_argument(option, metavar="PRICE", type=price_of, default=0, help=told)
    add_program(parser)
    return parser


def _run(given: argparse.Namespace) -> str:
    """What `uc check` says of the certificate, which then is at its place."""
    inputs = [path for path in (given.instance, given.report, given.bound) if path is not None]
    refuse_shared(inputs, [given.cert])
    system = read_system(given.instance, read_file(given.instance))
    found = _certificate(given.bound)
    penalty = _penalty(given, found[0] if found else None)
    schedule = _schedule(given, system, penalty)
    basis: Basis = basis_of(system, *found) if found else zero_basis(system)
    program = built_program(given.program)
    with draft_of(given.cert) as draft:
        write_file(draft.path, certificate_text(system, schedule, penalty, basis))
        told = _checked(program, given.instance, draft.path, penalty)
        draft.settle()
    return told


def _certificate(path: Optional[str]) -> Optional[Tuple[Certificate, bytes]]:
    """The certificate whose bound is taken, with its bytes."""
    if path is None:
        return None
    data = read_file(path)
    return read_certificate(path, data), data


def _penalty(given: argparse.Namespace, certificate: Optional[Certificate]) -> Penalty:
    """The prices of what is short, which the words may tell, and a certificate tells. Refused where they differ."""
    told = given.shed, given.spill_reserve
    if certificate is None:
        return told
    if any(told) and told != certificate.penalty:
        raise Refusal(certificate.path, "line 4", "the prices of what is short aren't those of the words")
    return certificate.penalty


def _schedule(given: argparse.Namespace, system: System, penalty: Penalty) -> Schedule:
    """The schedule of the report. Refused where it isn't one of the instance, or has none."""
    report = read_report(given.report, read_file(given.report))
    check_report(system.instance, report, penalty)
    if report.schedule is None:
        raise Refusal(given.report, "", "no schedule")
    return report.schedule


def _checked(program: str, instance: str, certificate: str, penalty: Penalty) -> str:
    """What `uc check` prints of a certificate. Refused where it doesn't accept it."""
    options = [f"--{option}={price}" for option, price in zip(("shed", "spill-reserve"), penalty) if price]
    words = [program, "check", *options, "--", instance, certificate]
    try:
        run = subprocess.run(words, stdin=subprocess.DEVNULL, stdout=subprocess.PIPE, stderr=subprocess.PIPE, check=False)
    except OSError as error:
        raise Refusal(program, "", f"can't be run: {cause(error)}") from None
    if run.returncode:
        told = last_line(run.stderr)
        raise Refusal(instance, "", f"`uc check` refuses the certificate with {run.returncode}{': ' + told if told else ''}")
    return run.stdout.decode("utf-8", "replace")
