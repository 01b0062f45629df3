"""What is told on the error output while the instances run: a line that changes, where it is a terminal, and failures."""
from __future__ import annotations

import os
from typing import List, TextIO

from schedule_view.refusal import printable

CLEAR = "\r\x1b[K"


class Progress:
    """How many of the instances are done and failed, and which ones run."""

    def __init__(self, out: TextIO, count: int, done: int, failed: int) -> None:
        self._out, self._count, self._done, self._failed = out, count, done, failed
        self._running: List[str] = []
        self._is_terminal = out.isatty()

    def began(self, name: str) -> None:
        """An instance was begun."""
        self._running.append(name)
        self._show()

    def ended(self, name: str, is_answered: bool) -> None:
        """An instance's row is written."""
        self._running.remove(name)
        self._done += 1
        self._failed += not is_answered
        self._show()

    def say(self, words: str) -> None:
        """A line that stays."""
        self.clear()
        print(printable(words), file=self._out, flush=True)

    def clear(self) -> None:
        """Takes the line that changes away."""
        if self._is_terminal:
            print(CLEAR, end="", file=self._out, flush=True)

    def _show(self) -> None:
        if not self._is_terminal:
            return
        failed = f", {self._failed} failed" if self._failed else ""
        running = f"; running: {', '.join(self._running)}" if self._running else ""
        line = printable(f"{self._done} of {self._count} done{failed}{running}")
        print(CLEAR + line[: self._columns() - 1], end="", file=self._out, flush=True)

    def _columns(self) -> int:
        try:
            return os.get_terminal_size(self._out.fileno()).columns or 80
        except OSError:
            return 80
