"""The lines of a report or a certificate, taken one after another, each ended by a line feed."""
from __future__ import annotations

from typing import NoReturn, Optional

from .refusal import Refusal


class Lines:
    """The bytes of a file that are still to be read, and the number of the line that was taken last, from 1."""

    def __init__(self, path: str, data: bytes) -> None:
        self.path, self.number = path, 0
        self._data, self._at = data, 0

    def take(self) -> str:
        """The next line without its line feed. Refused where the file ends before that, or the line isn't UTF-8."""
        self.number += 1
        end = self._data.find(b"\n", self._at)
        if end < 0:
            self.refuse("cut short")
        raw, self._at = self._data[self._at : end], end + 1
        try:
            return raw.decode("utf-8")
        except UnicodeDecodeError:
            self.refuse("not UTF-8")

    def is_at(self, word: str) -> bool:
        """Whether the next line has this word and a blank in front."""
        return self._data.startswith(f"{word} ".encode(), self._at)

    def is_done(self) -> bool:
        """Whether no byte is left."""
        return self._at == len(self._data)

    def finish(self) -> None:
        """Refused where a byte is left."""
        if not self.is_done():
            self.number += 1
            self.refuse("bytes after the end")

    def refuse(self, what: str, number: Optional[int] = None) -> NoReturn:
        """Ends the run at the line taken last, or at the one named."""
        raise Refusal(self.path, f"line {number or self.number}", what)
