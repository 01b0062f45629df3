"""The command: words, files, and the order in which they are read and written."""
from __future__ import annotations

import argparse
import sys
from typing import List

from instance_check.units import System, read_system
from program_runs.options import number_of
from schedule_view.command import price_of
from schedule_view.files import read_file, refuse_shared, write_file
from schedule_view.fit import check_report
from schedule_view.instance import MOST_PERIODS, read_instance
from schedule_view.refusal import Refusal
from schedule_view.report import Schedule, read_report

from .state import state_after
from .value import behind, next_value, read_hours, text_of

ABOUT = """Writes the instance that goes on from an hour of a schedule: each unit begins in the state in which the schedule leaves it there,
and the hours are those behind, or those of a file of demand. A schedule of it goes on from the one before by the same rules."""


def main(words: List[str]) -> int:
    """Runs the command; 0 where the instance was written, 1 where a file was refused or failed, 2 where the words are faulty."""
    given = _parser().parse_args(words)
    try:
        _run(given)
    except Refusal as refusal:
        print(f"uc-next: {refusal}", file=sys.stderr)
        return 1
    return 0


def _parser() -> argparse.ArgumentParser:
    parser = argparse.ArgumentParser(prog="uc-next", description=ABOUT)
    parser.add_argument("instance", metavar="INSTANCE", help="the instance, pglib-uc JSON")
    parser.add_argument("report", metavar="REPORT", help="what `uc solve` or `uc roll` printed for it")
    parser.add_argument("hour", metavar="HOUR", type=number_of(MOST_PERIODS), help="the last hour that is over, from 1")
    parser.add_argument("next", metavar="FILE", help="where the next instance goes")
    told = "the hours that follow: demand, reserves, and the outputs of renewable units, as in an instance"
    parser.add_argument("--demand", metavar="FILE", help=told)
    for option, what in (("--shed", "unserved demand"), ("--spill-reserve", "missing reserve")):
        parser.add_argument(option, metavar="PRICE", type=price_of, default=0, help=f"the price of {what} that `uc` was given")
    return parser


def _run(given: argparse.Namespace) -> None:
    """Everything is read and checked before the file is written."""
    inputs = [path for path in (given.instance, given.report, given.demand) if path is not None]
    refuse_shared(inputs, [given.next])
    system = read_system(given.instance, read_file(given.instance))
    schedule = _schedule(given, system)
    periods = system.instance.periods
    if given.hour > periods:
        raise Refusal(given.instance, "", f"{periods} hours, and no hour {given.hour}")
    if given.demand is not None:
        hours = read_hours(given.demand, read_file(given.demand))
    elif given.hour < periods:
        hours = behind(system.value, given.hour, periods)
    else:
        raise Refusal(given.instance, "", f"no hour behind hour {given.hour}; --demand names a file of those that follow")
    states = [state_after(unit, row.cells[: given.hour]) for unit, row in zip(system.units, schedule.thermal)]
    source = given.instance if given.demand is None else given.demand
    text = text_of(next_value(system.value, states, hours, source))
    read_instance(source, text.encode("utf-8"))
    write_file(given.next, text)


def _schedule(given: argparse.Namespace, system: System) -> Schedule:
    """The schedule of the report. Refused where it isn't one of the instance, or has none."""
    report = read_report(given.report, read_file(given.report))
    check_report(system.instance, report, (given.shed, given.spill_reserve))
    if report.schedule is None:
        raise Refusal(given.report, "", "no schedule")
    return report.schedule
