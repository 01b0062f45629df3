"""Runs of `uc solve`, some side by side: each a process of its own, measured by what the system tells when it ends.

The system counts a process's memory from its fork on, with that of whoever forked. So a run is forked by a small shell, and not by
this interpreter, which takes more than most runs; the shell ends, and leaves the run to this process.
"""
from __future__ import annotations

import contextlib
import ctypes
import fcntl
import os
import pathlib
import resource
import signal
from collections import deque
from dataclasses import dataclass
from typing import Callable, Deque, Dict, Iterator, List

from schedule_view.amounts import MILLION
from schedule_view.files import cause
from schedule_view.refusal import Refusal

SHELL = "/bin/sh"
STOPS = (signal.SIGINT, signal.SIGTERM, signal.SIGHUP)
# bytes in what Linux counts resident memory by, and its word for a process that orphans are left to
MEMORY_UNIT, PR_SET_CHILD_SUBREAPER = 1024, 36
# tells the run's process number, and begins the run at a word from outside; without that, as where this process was killed, it ends
_BEGIN = '{ read -r go <&8 && exec "$@" 8<&-; } 9>&- & echo "$!" >&9'


@dataclass(frozen=True)
class Task:
    """What a run is to do, and where it leaves its report, its error output and its certificate."""

    name: str
    words: List[str]
    report: pathlib.Path
    errors: pathlib.Path
    certificate: pathlib.Path


@dataclass(frozen=True)
class Ended:
    """A run that ended: its status, or below 0 the signal that ended it, the processor's microseconds and the bytes of memory."""

    task: Task
    status: int
    microseconds: int
    memory: int


@contextlib.contextmanager
def stops_held() -> Iterator[None]:
    """Lets a signal to stop wait, so that it finds no run half begun and no row half written; `run_all` takes it while it waits.

    A signal that is ignored stays so.
    """
    mask = signal.pthread_sigmask(signal.SIG_BLOCK, STOPS)
    before = {stop: signal.signal(stop, _stop) for stop in STOPS if signal.getsignal(stop) is not signal.SIG_IGN}
    try:
        yield
    finally:
        try:
            signal.pthread_sigmask(signal.SIG_SETMASK, mask)
        finally:
            for stop, handler in before.items():
                signal.signal(stop, handler)


def _stop(_number: int, _frame: object) -> None:
    raise KeyboardInterrupt


def run_all(tasks: List[Task], most: int, began: Callable[[Task], None], ended: Callable[[Ended], None]) -> None:
    """Runs all tasks, at most so many at once, within `stops_held`. Where it is stopped it ends those that run, and raises."""
    ctypes.CDLL(None).prctl(PR_SET_CHILD_SUBREAPER, 1, 0, 0, 0)
    waiting: Deque[Task] = deque(tasks)
    running: Dict[int, Task] = {}
    try:
        while waiting or running:
            while waiting and len(running) < most:
                task = waiting.popleft()
                running[_start(task)] = task
                began(task)
            process = _next_end()
            _, status, used = os.wait4(process, 0)
            if process in running:
                ended(_ended(running.pop(process), status, used))
    finally:
        _end(list(running))


def _start(task: Task) -> int:
    """The process of a task that was begun by a shell, which ends before the program begins."""
    wait, go = _pipe()
    told, tell = _pipe()
    made = os.O_WRONLY | os.O_CREAT | os.O_TRUNC
    files = [
        (os.POSIX_SPAWN_OPEN, 0, os.devnull, os.O_RDONLY, 0),
        (os.POSIX_SPAWN_OPEN, 1, str(task.report), made, 0o600),
        (os.POSIX_SPAWN_OPEN, 2, str(task.errors), made, 0o600),
        (os.POSIX_SPAWN_DUP2, wait, 8),
        (os.POSIX_SPAWN_DUP2, tell, 9),
    ]
    with open(go, "wb", buffering=0) as gate, open(told, "rb") as number:
        try:
            shell = os.posix_spawn(SHELL, [SHELL, "-c", _BEGIN, SHELL, *task.words], os.environ, file_actions=files, setsigmask=[])
        except OSError as error:
            raise Refusal(SHELL, "", f"can't be run: {cause(error)}") from None
        finally:
            os.close(wait)
            os.close(tell)
        process = number.read()
        os.waitpid(shell, 0)
        if not process:
            raise Refusal(SHELL, "", "can't begin a run")
        with contextlib.suppress(BrokenPipeError):
            gate.write(b"go\n")
    return int(process)


def _pipe() -> List[int]:
    """A pipe's ends, to read from and to write to, at numbers that the shell has no use for."""
    ends = os.pipe()
    high = [fcntl.fcntl(end, fcntl.F_DUPFD_CLOEXEC, 10) for end in ends]
    for end in ends:
        os.close(end)
    return high


def _next_end() -> int:
    """Waits for some run to end, or for a signal to stop; the process that ended is still there."""
    signal.pthread_sigmask(signal.SIG_UNBLOCK, STOPS)
    try:
        found = os.waitid(os.P_ALL, 0, os.WEXITED | os.WNOWAIT)
    finally:
        signal.pthread_sigmask(signal.SIG_BLOCK, STOPS)
    assert found is not None, "there is a run to wait for"
    return found.si_pid


def _ended(task: Task, status: int, used: resource.struct_rusage) -> Ended:
    code = -os.WTERMSIG(status) if os.WIFSIGNALED(status) else os.WEXITSTATUS(status)
    return Ended(task, code, round((used.ru_utime + used.ru_stime) * MILLION), used.ru_maxrss * MEMORY_UNIT)


def _end(processes: List[int]) -> None:
    """Ends processes of ours that still run."""
    for process in processes:
        os.kill(process, signal.SIGTERM)
    for process in processes:
        os.wait4(process, 0)
