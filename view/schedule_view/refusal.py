"""What ends a run without a picture: one line that says the file, the place in it, and what is wrong there."""
from __future__ import annotations

SHOWN = 60


class Refusal(Exception):
    """A file that isn't taken, or couldn't be read or written. Its text is one printable line."""

    def __init__(self, path: str, place: str, what: str) -> None:
        super().__init__(": ".join(printable(part) for part in (path, place, what) if part))


def printable(text: str) -> str:
    """The text with what can't be seen, or would break the line, by its number."""
    return "".join(c if c.isprintable() else f"\\u{ord(c):04x}" for c in text)


def shown(text: str) -> str:
    """A text of a file as a refusal shows it: between quotes, and cut where it is long."""
    return '"' + (text if len(text) <= SHOWN else text[:SHOWN] + "..") + '"'
