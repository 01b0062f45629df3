"""The command: words, the program that is run, and what becomes of each run."""
from __future__ import annotations

import argparse
import pathlib
import sys
import tempfile
from typing import Dict, List, Optional, Tuple

from program_runs.options import MOST_UNITS, UNITS, add_search_options, number_of, search_options
from program_runs.program import add_program, built_program, last_line
from schedule_view.files import make_folder, move_file, read_file, refuse_shared, remove_file
from schedule_view.refusal import Refusal
from schedule_view.report import Report, read_report

from .cases import cases, certificate_paths
from .progress import Progress
from .rows import STATUS_OF, row_of
from .runs import Ended, Task, run_all, stops_held
from .table_file import TableFile

MOST_AT_ONCE, STOPPED = 4096, 130
ABOUT = """Runs `uc solve` on instances and writes a row of a table for each: name, status, cost, bound, gap in parts per million,
evaluations, seconds of the processor, memory in megabytes, and the options. Rows that the table has are kept, and their instances
aren't run again; a table of other options is refused."""


def main(words: List[str]) -> int:
    """Runs the command; 0 where each instance has its answer, 1 where one has none or a file was refused, 2 where the words are
    faulty, 130 where it was stopped."""
    given = _parser().parse_args(words)
    try:
        return 0 if _run(given) else 1
    except Refusal as refusal:
        print(f"uc-table: {refusal}", file=sys.stderr)
        return 1
    except KeyboardInterrupt:
        print("uc-table: stopped; the same words go on from here", file=sys.stderr)
        return STOPPED


def _parser() -> argparse.ArgumentParser:
    parser = argparse.ArgumentParser(prog="uc-table", description=ABOUT)
    parser.add_argument("cases", metavar="FILE", nargs="+", help="an instance, or a folder, whose files that end in .json are taken")
    parser.add_argument("-o", dest="table", metavar="TABLE", required=True, help="the table, OUT.csv, or OUT.jsonl for JSON lines")
    parser.add_argument("-j", dest="most", metavar="N", type=number_of(MOST_AT_ONCE), default=1, help="how many run at once; 1")
    parser.add_argument("--certs", metavar="FOLDER", help="where certificates are kept, NAME.cert of NAME.json")
    parser.add_argument("--units", metavar="N", type=number_of(MOST_UNITS), default=UNITS, help=f"goes to `uc solve`; {UNITS}")
    add_search_options(parser)
    add_program(parser)
    return parser


def _run(given: argparse.Namespace) -> bool:
    """Runs the instances whose rows the table lacks; whether each instance then has its answer there."""
    names = cases(given.cases)
    refuse_shared(names, [given.table])
    kept = certificate_paths(given.certs, names) if given.certs is not None else {}
    table = TableFile(given.table)
    try:
        _refuse_mixed(table, " ".join(_options(given)))
        missing = [name for name in names if name not in table.rows]
        if missing:
            with tempfile.TemporaryDirectory() as folder:
                tasks = _tasks(given, missing, pathlib.Path(folder), kept)
                failed = sum(name in table.rows and not table.rows[name].is_answered for name in names)
                progress = Progress(sys.stderr, len(names), len(names) - len(missing), failed)
                _run_tasks(tasks, given.most, Book(table, progress, kept, " ".join(_options(given))))
        return all(table.rows[name].is_answered for name in names)
    finally:
        table.close()


def _options(given: argparse.Namespace) -> List[str]:
    """The options that go to `uc solve`, and into the rows."""
    return [f"--units={given.units}", *search_options(given)]


def _refuse_mixed(table: TableFile, options: str) -> None:
    """Refused where a row of the table comes of other options."""
    for row in table.rows.values():
        if row.options != options:
            raise Refusal(table.path, f"row of {row.name}", f"its options are {row.options}, and those of the words {options}")


def _tasks(given: argparse.Namespace, names: List[str], folder: pathlib.Path, kept: Dict[str, str]) -> List[Task]:
    """What is to be run. A certificate that is to be kept is first written beside its place."""
    program = built_program(given.program)
    if given.certs is not None:
        make_folder(given.certs)
    options = _options(given)
    tasks = []
    for number, name in enumerate(names):
        files = [folder / f"{number}.{ending}" for ending in ("report", "errors", "cert")]
        if name in kept:
            files[2] = pathlib.Path(kept[name] + ".part")
        tasks.append(Task(name, [program, "solve", f"--cert={files[2]}", *options, "--", name], *files))
    return tasks


def _run_tasks(tasks: List[Task], most: int, book: Book) -> None:
    try:
        with stops_held():
            run_all(tasks, most, book.began, book.ended)
    finally:
        book.progress.clear()
        for task in tasks:
            remove_file(str(task.certificate))


class Book:
    """Takes what ended runs leave: a row for the table, the certificate, and a word of a failure."""

    def __init__(self, table: TableFile, progress: Progress, kept: Dict[str, str], options: str) -> None:
        self.progress = progress
        self._table, self._kept, self._options = table, kept, options

    def began(self, task: Task) -> None:
        """A run was begun."""
        self.progress.began(task.name)

    def ended(self, run: Ended) -> None:
        """Writes the row of a run; its certificate is at its place before that."""
        report, fault = _answer(run)
        name = run.task.name
        if report and name in self._kept:
            move_file(str(run.task.certificate), self._kept[name])
        for path in (run.task.report, run.task.errors, run.task.certificate):
            remove_file(str(path))
        self._table.append(row_of(name, run.status, report, (run.microseconds, run.memory), self._options))
        self.progress.ended(name, report is not None)
        if fault:
            self.progress.say(f"uc-table: {name}: {fault}")


def _answer(run: Ended) -> Tuple[Optional[Report], str]:
    """The report of a run that came to an answer; else what is wrong."""
    if run.status not in STATUS_OF.values():
        told = last_line(read_file(str(run.task.errors)))
        what = f"signal {-run.status}" if run.status < 0 else f"status {run.status}"
        return None, f"{what}: {told}" if told else what
    try:
        report = read_report("the report", read_file(str(run.task.report)), takes_parts=True)
    except Refusal as refusal:
        return None, f"status {run.status}: {refusal}"
    if STATUS_OF[report.outcome] != run.status:
        return None, f"status {run.status}: the report says {report.outcome.value}"
    return report, ""
