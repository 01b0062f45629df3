"""The command: words, runs one after another, and what is kept of them."""
from __future__ import annotations

import argparse
import contextlib
import os
import pathlib
import sys
import time
from functools import cached_property
from typing import Iterator, List, NoReturn, Optional

from instance_table.rows import STATUS_OF
from instance_table.runs import stops_held
from program_runs.draft import Draft, draft_of
from program_runs.options import MOST_UNITS, add_search_options, number_of, search_options
from program_runs.program import add_program, built_program, last_line
from schedule_view.files import cause, read_file, refuse_shared
from schedule_view.refusal import Refusal, printable

from .answer import Answer, answer_of, is_to_be_kept
from .run import Task, TimeIsOver, run_until
from .trials import Trial, budgets, has_tight_ramps

MOST_SECONDS = 10**7
# statuses besides those of answers: no run was whole in time, or when it was stopped; faulty words; files; no program
TOO_SHORT, STOPPED, WORDS, FILES, NO_PROGRAM = 124, 130, 5, 7, 70
ABOUT = """Runs `uc solve` with the budgets 1, 4, 16 and so on, for so many seconds. Where `uc-look` says that --exact-units is worth trying, each
budget is run without it and with it. After each run a line on the error output tells budget, cost, bound, gap and the seconds since the
beginning, and the certificate of the best run takes its place. At the end, which comes with a closed answer, with the time or with a signal to
stop, the report of the best run is printed, and its status is the status."""


class Words(argparse.ArgumentParser):
    """Ends faulty words with the status that `uc` has for them, since that of argparse is one of its answers."""

    def error(self, message: str) -> NoReturn:
        self.print_usage(sys.stderr)
        self.exit(WORDS, f"{self.prog}: error: {message}\n")


def main(words: List[str]) -> int:
    """Runs the command; the status of what is kept, or of the program's fault, or one of those above."""
    given = _parser().parse_args(words)
    try:
        program = built_program(given.program)
    except Refusal as refusal:
        _tell(str(refusal))
        return NO_PROGRAM
    try:
        return _run(given, program)
    except Refusal as refusal:
        _tell(str(refusal))
        return FILES
    except KeyboardInterrupt:
        return STOPPED


def _parser() -> argparse.ArgumentParser:
    parser = Words(prog="uc-within", description=ABOUT)
    parser.add_argument("seconds", metavar="SECONDS", type=_seconds, help="how long it may take")
    parser.add_argument("instance", metavar="INSTANCE", help="the instance, pglib-uc JSON")
    parser.add_argument("--cert", metavar="FILE", required=True, help="where the certificate goes")
    told = f"the greatest budget; {MOST_UNITS}"
    parser.add_argument("--units", metavar="N", type=number_of(MOST_UNITS), default=MOST_UNITS, help=told)
    add_search_options(parser)
    add_program(parser)
    return parser


def _seconds(text: str) -> float:
    whole, _, decimals = text.partition(".")
    if not (whole + decimals).isdigit() or not text.isascii() or not 0 < float(text) <= MOST_SECONDS:
        raise argparse.ArgumentTypeError(f"{text} is no number of seconds")
    return float(text)


def _run(given: argparse.Namespace, program: str) -> int:
    """The status of the best answer, whose report is printed and whose certificate is at its place."""
    refuse_shared([given.instance], [given.cert])
    with draft_of(given.cert) as draft:
        search = Search(given, program, draft)
        # a second signal to stop comes when the first one is done with
        with contextlib.suppress(KeyboardInterrupt), stops_held():
            search.run()
    if search.kept:
        _print(search.kept.data)
    return search.status


def _print(data: bytes) -> None:
    try:
        sys.stdout.buffer.write(data)
        sys.stdout.flush()
    except OSError as error:
        # what is left in the buffer has nowhere to go
        os.dup2(os.open(os.devnull, os.O_WRONLY), sys.stdout.fileno())
        raise Refusal("the output", "", f"can't be written: {cause(error)}") from None


class Search:
    """The runs, and the best answer so far."""

    def __init__(self, given: argparse.Namespace, program: str, draft: Draft) -> None:
        self._given, self._program, self._draft = given, program, draft
        self._began = time.monotonic()
        self._status = STOPPED
        self.kept: Optional[Answer] = None

    @property
    def status(self) -> int:
        """The status of what is kept, or one that tells why nothing is."""
        return self.kept.status if self.kept else self._status

    def run(self) -> None:
        """Runs the budgets one after another, and tells why it ends before the answer is closed."""
        try:
            why = self._run_all()
        except TimeIsOver:
            why, self._status = "the time is over", TOO_SHORT
        except KeyboardInterrupt:
            why = "stopped"
        if self.kept is None:
            _tell(f"{why}; there is no answer")
        elif not self.kept.is_last:
            _tell(f"{why}; the answer of {self.kept.trial} is kept")

    def _run_all(self) -> str:
        """Why it ends, where it does so by itself."""
        for trial in self._trials():
            if not self._run(trial):
                return "the program failed"
            if self.kept is not None and self.kept.is_last:
                return "closed"
        return "the greatest budget is spent"

    def _trials(self) -> Iterator[Trial]:
        """Each budget. Where both ways are tried, that of the best answer goes first, as the time may end before the other one."""
        for budget in budgets(self._given.units):
            is_exact = self.kept.trial.is_exact if self.kept else self._given.exact_units
            yield Trial(budget, is_exact)
            if self._tries_both:
                yield Trial(budget, not is_exact)

    @cached_property
    def _tries_both(self) -> bool:
        """Whether budgets are run with `--exact-units` and without it; asked after the first run, which may end the search at once."""
        return not self._given.exact_units and has_tight_ramps(self._given.instance)

    def _run(self, trial: Trial) -> bool:
        """Runs a trial and keeps its answer; whether there is one. The cause of a fault is told."""
        folder = pathlib.Path(self._draft.path).parent
        task = Task(self._words(trial), folder / "report", folder / "errors")
        status = run_until(task, self._began + self._given.seconds)
        if status in STATUS_OF.values():
            self._keep(answer_of(trial, status, read_file(str(task.report))))
            return True
        told = last_line(read_file(str(task.errors)))
        what = f"signal {-status}" if status < 0 else f"status {status}"
        _tell(f"{trial}: {what}{': ' + told if told else ''}")
        self._status = status if status > 0 else 128 - status
        return False

    def _words(self, trial: Trial) -> List[str]:
        given = argparse.Namespace(**{**vars(self._given), "exact_units": trial.is_exact})
        options = [f"--cert={self._draft.path}", f"--units={trial.budget}", *search_options(given)]
        return [self._program, "solve", *options, "--", self._given.instance]

    def _keep(self, answer: Answer) -> None:
        """Gives the certificate its place where the answer is to be kept, and tells of it."""
        seconds = time.monotonic() - self._began
        is_kept = is_to_be_kept(answer, self.kept)
        if is_kept:
            self._draft.settle()
            self.kept = answer
        _tell(f"{answer}, {seconds:.1f} s{'' if is_kept else '; the one before is kept'}")


def _tell(line: str) -> None:
    """A line on the error output, also where that is closed."""
    try:
        print(printable(f"uc-within: {line}"), file=sys.stderr, flush=True)
    except OSError:
        os.dup2(os.open(os.devnull, os.O_WRONLY), sys.stderr.fileno())
