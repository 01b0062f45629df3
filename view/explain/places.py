"""Where a value stands in a JSON text, and which line and column a place is."""
from __future__ import annotations

import json
import re
from dataclasses import dataclass
from typing import Iterator, List, Optional, Tuple, Union

SHOWN = 60
_BLANK = re.compile(r"[ \t\r\n]*")
_SCALAR = re.compile(r'"(?:[^"\\]|\\.)*"|[^\]\[{},:"\s]+', re.DOTALL)
_NESTED = re.compile(r'"(?:[^"\\]|\\.)*"|[\]\[{}]', re.DOTALL)

# a key of an object, or the number of an entry from 0
Step = Union[str, int]


@dataclass(frozen=True)
class Value:
    """A value of the text, from its first character to behind its last one."""

    text: str
    start: int
    end: int

    @property
    def words(self) -> str:
        """The value as it is written, on one line and cut where it is long."""
        words = " ".join(self.text[self.start : min(self.end, self.start + 4 * SHOWN)].split())
        return words if len(words) <= SHOWN else words[:SHOWN] + ".."

    @property
    def kind(self) -> str:
        """What sort of value it is."""
        first = self.text[self.start]
        kinds = {"{": "an object", "[": "an array", '"': "a text", "t": "true", "f": "false", "n": "null"}
        return kinds.get(first, "a number")

    @property
    def count(self) -> int:
        """How many members or entries it has."""
        return sum(1 for _ in members(self))

    @property
    def place(self) -> str:
        """Its line and column."""
        return place_words(self.text, self.start)


def place_words(text: str, at: int) -> str:
    """The line and the column of a character, both from 1."""
    return f"line {text.count(chr(10), 0, at) + 1}, column {at - text.rfind(chr(10), 0, at)}"


def byte_place(data: bytes, at: int) -> Tuple[str, str]:
    """The line and column of a byte, and the text from there on."""
    front, rest = data[:at].decode("utf-8", "replace"), data[at : at + 4 * SHOWN].decode("utf-8", "replace")
    return place_words(front, len(front)), rest


def top_value(text: str) -> Value:
    """The value that the text is."""
    start = _blank(text, 0)
    return Value(text, start, _end(text, start))


def members(value: Value) -> Iterator[Tuple[Step, Value]]:
    """The members of an object by their keys, or the entries of an array by their numbers; none of another value."""
    text, at = value.text, value.start
    if text[at] not in "{[":
        return
    is_object, number = text[at] == "{", 0
    at = _blank(text, at + 1)
    while text[at] not in "}]":
        step: Step = number
        if is_object:
            end = _end(text, at)
            step = json.loads(text[at:end])
            at = _blank(text, _blank(text, end) + 1)
        end = _end(text, at)
        yield step, Value(text, at, end)
        at, number = _blank(text, end), number + 1
        if text[at] == ",":
            at = _blank(text, at + 1)


def find(text: str, steps: List[Step]) -> Tuple[Value, Optional[Value]]:
    """The value that the steps lead to, behind the one before it; None where it isn't there."""
    inner: Optional[Value] = top_value(text)
    outer = inner
    for step in steps:
        if inner is None:
            break
        outer = inner
        inner = next((value for key, value in members(outer) if key == step and type(key) is type(step)), None)
    assert outer is not None
    return outer, inner


def _blank(text: str, at: int) -> int:
    found = _BLANK.match(text, at)
    assert found is not None
    return found.end()


def _end(text: str, at: int) -> int:
    """Where a value ends that begins there."""
    if text[at] not in "{[":
        found = _SCALAR.match(text, at)
        assert found is not None
        return found.end()
    depth = 0
    for token in _NESTED.finditer(text, at):
        depth += {"{": 1, "[": 1, "}": -1, "]": -1}.get(token[0], 0)
        if not depth:
            return token.end()
    raise AssertionError("a JSON text closes its brackets")
