"""The command: words, the tables that are compared, and the certificate that is written."""
from __future__ import annotations

import argparse
import pathlib
import sys
import tempfile
from dataclasses import dataclass
from fractions import Fraction
from typing import Iterator, List

from schedule_view.amounts import MILLION, dollars_text, nearest
from schedule_view.certificate import Certificate, CertificateSchedule, Table, read_certificate
from schedule_view.command import number_of
from schedule_view.files import read_file, refuse_shared, write_file
from schedule_view.refusal import Refusal
from schedule_view.uplift import Uplift, read_uplift

from .one_leaf import LEAST_CLAIM, one_leaf_text
from .program import Program

STOPPED = 130
ABOUT = """Writes a certificate of the same schedule with one table: the one whose uplifts come to least at the root of the tree, among
the tables of CERT and those of a search with a small budget. `uc uplift` prints the prices and uplifts of what is written, and `uc check`
accepts it. Where a certificate has a tree, each of its tables is made for a leaf, and its first one may leave far more unpaid than need
be. The prices of what may be short are those of CERT."""


def main(words: List[str]) -> int:
    """Runs the command; 0 where the certificate was written, 1 where a file was refused or failed, 2 where the words are faulty, 130 where
    it was stopped."""
    given = _parser().parse_args(words)
    try:
        _run(given)
    except Refusal as refusal:
        print(f"uc-prices: {refusal}", file=sys.stderr)
        return 1
    except KeyboardInterrupt:
        print("uc-prices: stopped; nothing is written", file=sys.stderr)
        return STOPPED
    return 0


def _parser() -> argparse.ArgumentParser:
    parser = argparse.ArgumentParser(prog="uc-prices", description=ABOUT)
    parser.add_argument("instance", metavar="INSTANCE", help="the instance, pglib-uc JSON")
    parser.add_argument("certificate", metavar="CERT", help="a certificate of it with a schedule, as `uc solve` wrote it")
    parser.add_argument("-o", dest="out", metavar="PRICES.cert", required=True, help="where the certificate of one table goes")
    parser.add_argument("--units", metavar="N", type=number_of(1, MILLION), default=1, help="the budget of the search; 1")
    parser.add_argument("--program", metavar="UC", help="the program that is run; ./uc, which builds it where it isn't there")
    return parser


@dataclass(frozen=True)
class Candidate:
    """A table with the name of where it stands."""

    name: str
    table: Table


@dataclass(frozen=True)
class Priced:
    """A table with the uplifts of the schedule at it."""

    candidate: Candidate
    uplift: Uplift

    @property
    def total(self) -> Fraction:
        """What the uplifts come to, in micro-dollars."""
        return Fraction(self.uplift.total, self.uplift.prices.scale)


def _run(given: argparse.Namespace) -> None:
    refuse_shared([given.instance, given.certificate], [given.out])
    certificate = read_certificate(given.certificate, read_file(given.certificate))
    schedule = certificate.schedule
    if schedule is None:
        raise Refusal(given.certificate, f"line {5 if any(certificate.penalty) else 4}", "no schedule, and so no uplifts")
    program = Program(given.program, given.instance, given.certificate, certificate.penalty)
    name = pathlib.PurePath(given.certificate).name
    with tempfile.TemporaryDirectory() as made:
        folder = pathlib.Path(made)
        found = _search(program, given.units, folder)
        own, more = _candidates(name, certificate.tables), _candidates(f"a search with --units {given.units}", found.tables)
        priced = list(_priced(program, certificate, schedule, _different(own + more), folder))
        if not priced:
            raise Refusal(given.certificate, "", "no table with a scale above 0, and the search has none either")
        best = min(priced, key=lambda it: it.total)
        text = one_leaf_text(certificate, schedule, best.candidate.table, best.uplift.bound(schedule.cost))
        checked = folder / "prices.cert"
        write_file(str(checked), text)
        program.check(str(checked))
    write_file(given.out, text)
    print("".join(f"{line}\n" for line in _told(name, certificate, schedule, priced, best)), end="")


def _search(program: Program, units: int, folder: pathlib.Path) -> Certificate:
    """What a search finds."""
    path = str(folder / "search.cert")
    program.search(path, units)
    return read_certificate(path, read_file(path))


def _candidates(name: str, tables: List[Table]) -> List[Candidate]:
    """The tables that have prices: those of scale 0 are rays."""
    return [Candidate(f"table {k} of {name}", table) for k, table in enumerate(tables, 1) if table.scale]


def _different(candidates: List[Candidate]) -> List[Candidate]:
    """Each table once."""
    found: List[Candidate] = []
    for candidate in candidates:
        if all(candidate.table != it.table for it in found):
            found.append(candidate)
    return found


def _priced(
    program: Program, certificate: Certificate, schedule: CertificateSchedule, candidates: List[Candidate], folder: pathlib.Path
) -> Iterator[Priced]:
    """The uplifts at each table, by a certificate of it alone that claims next to nothing."""
    path = str(folder / "one.cert")
    for k, candidate in enumerate(candidates, 1):
        _say(f"table {k} of {len(candidates)}")
        write_file(path, one_leaf_text(certificate, schedule, candidate.table, LEAST_CLAIM))
        yield Priced(candidate, read_uplift("what `uc uplift` printed", program.uplift(path, candidate.name)))
    _say("")


def _say(words: str) -> None:
    """Shows on a terminal how far it is."""
    if sys.stderr.isatty():
        print(f"\r\x1b[K{words}", end="", file=sys.stderr, flush=True)


def _told(name: str, certificate: Certificate, schedule: CertificateSchedule, priced: List[Priced], best: Priced) -> List[str]:
    """The least total, beside that of the first table and the gap."""
    lines = [f"least uplifts: {_dollars(best.total)}, at {best.candidate.name}, of {len(priced)} tables"]
    first = priced[0]
    if first is not best:
        lines.append(f"{first.candidate.name}: {_dollars(first.total)}")
    if certificate.bound is not None:
        lines.append(f"gap of {name}: {dollars_text(schedule.cost - certificate.bound)}")
    return lines


def _dollars(micros: Fraction) -> str:
    return dollars_text(nearest(micros / MILLION))
