"""One run of the program, which is ended where its time is over or a signal to stop comes."""
from __future__ import annotations

import contextlib
import ctypes
import pathlib
import signal
import subprocess
import time
from dataclasses import dataclass
from typing import Iterator, List, Optional

from instance_table.runs import STOPS
from schedule_view.files import cause
from schedule_view.refusal import Refusal

# seconds that a run is given to end when it is told to, and the word by which Linux ends it where this process is killed
PATIENCE, PR_SET_PDEATHSIG = 1, 1
_LIBRARY = ctypes.CDLL(None)


@dataclass(frozen=True)
class Task:
    """The words of a run, and the files for what it prints."""

    words: List[str]
    report: pathlib.Path
    errors: pathlib.Path


class TimeIsOver(Exception):
    """The time is over, and the run was ended."""


def run_until(task: Task, deadline: float) -> int:
    """The status of a run that ends before the deadline of the monotonic clock; within `stops_held` of the runs of a table.

    Else it is ended: then TimeIsOver, or of a signal to stop KeyboardInterrupt.
    """
    process = _begin(task)
    try:
        with _stops_taken():
            return process.wait(max(deadline - time.monotonic(), 0))
    except subprocess.TimeoutExpired:
        raise TimeIsOver from None
    finally:
        _end(process)


def _begin(task: Task) -> subprocess.Popen:
    with task.report.open("wb") as report, task.errors.open("wb") as errors:
        try:
            return subprocess.Popen(task.words, stdin=subprocess.DEVNULL, stdout=report, stderr=errors, preexec_fn=_prepare)
        except OSError as error:
            raise Refusal(task.words[0], "", f"can't be run: {cause(error)}") from None


def _prepare() -> None:
    """Lets signals reach the run, which would else begin with those held that are held here, and lets it end with this process."""
    signal.pthread_sigmask(signal.SIG_UNBLOCK, STOPS)
    _LIBRARY.prctl(PR_SET_PDEATHSIG, int(signal.SIGTERM), 0, 0, 0)


@contextlib.contextmanager
def _stops_taken() -> Iterator[None]:
    """Takes signals to stop while it lasts."""
    try:
        signal.pthread_sigmask(signal.SIG_UNBLOCK, STOPS)
        yield
    finally:
        signal.pthread_sigmask(signal.SIG_BLOCK, STOPS)


def _end(process: subprocess.Popen) -> Optional[int]:
    """Ends a run that still lasts."""
    if process.poll() is None:
        process.terminate()
        with contextlib.suppress(subprocess.TimeoutExpired):
            return process.wait(PATIENCE)
        process.kill()
    return process.wait()
