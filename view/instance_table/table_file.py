"""The file of the table: the rows that are there are kept, and each new one is appended as soon as it is known."""
from __future__ import annotations

import fcntl
import pathlib
from typing import Dict

from schedule_view.files import cause
from schedule_view.refusal import Refusal

from .rows import FORMS, Form, Row


class TableFile:
    """A table that is open for appending, and that no other run appends to meanwhile."""

    def __init__(self, path: str) -> None:
        """Opens the table, or makes it. Refused where it is none, or another run writes it."""
        self.path = path
        self._form = _form(path)
        self.rows: Dict[str, Row] = {}
        try:
            self._file = open(path, "a+b", buffering=0)
        except (OSError, ValueError) as error:
            raise Refusal(path, "", f"can't be opened: {cause(error)}") from None
        try:
            self._lock()
            self._keep()
        except BaseException:
            self._file.close()
            raise

    def append(self, row: Row) -> None:
        """Adds a row, whole or not at all as far as the system allows. Refused where it can't be written."""
        self._put(self._form.line(row))
        self.rows[row.name] = row

    def close(self) -> None:
        """Lets other runs append."""
        self._file.close()

    def _lock(self) -> None:
        try:
            fcntl.flock(self._file, fcntl.LOCK_EX | fcntl.LOCK_NB)
        except BlockingIOError:
            raise Refusal(self.path, "", "another run writes it") from None
        except OSError:
            # the file system has no locks: then nothing keeps two runs apart
            pass

    def _keep(self) -> None:
        """Reads the rows; then a line that was cut off when a run was stopped is taken away. A file that is no table stays as it is."""
        self._file.seek(0)
        data = self._file.read()
        cut = data.rfind(b"\n") + 1
        lines, rest = self._decoded(data[:cut]).split("\n")[:-1], data[cut:]
        head, opening = self._form.head.splitlines(), self._form.opening.encode("utf-8")
        if lines[: len(head)] != head[: len(lines)] or not (lines or opening.startswith(rest) or rest.startswith(opening)):
            raise Refusal(self.path, "line 1", "not what a table of instances begins with")
        for number, line in enumerate(lines[len(head) :], len(head) + 1):
            self._add(number, line)
        self._file.truncate(cut)
        if not lines:
            self._put(self._form.head)

    def _decoded(self, data: bytes) -> str:
        try:
            return data.decode("utf-8")
        except UnicodeDecodeError:
            raise Refusal(self.path, "", "not UTF-8") from None

    def _add(self, number: int, line: str) -> None:
        try:
            row = self._form.row(line)
        except ValueError as error:
            raise Refusal(self.path, f"line {number}", str(error)) from None
        if row.name in self.rows:
            raise Refusal(self.path, f"line {number}", f"a second row of {row.name}")
        self.rows[row.name] = row

    def _put(self, text: str) -> None:
        data = text.encode("utf-8")
        try:
            while data:
                data = data[self._file.write(data) :]
        except OSError as error:
            raise Refusal(self.path, "", f"can't be written: {cause(error)}") from None


def _form(path: str) -> Form:
    ending = pathlib.PurePath(path).suffix
    if ending not in FORMS:
        raise Refusal(path, "", f"ends in none of {', '.join(FORMS)}, which tells the table's form")
    return FORMS[ending]
