"""The files of a run: read and written whole, and none written over another one."""
from __future__ import annotations

import contextlib
import os
import pathlib
from typing import List

from .refusal import Refusal


def read_file(path: str) -> bytes:
    """The bytes of a file. Refused with the cause."""
    try:
        return pathlib.Path(path).read_bytes()
    except (OSError, ValueError) as error:
        raise Refusal(path, "", f"can't be read: {cause(error)}") from None


def write_file(path: str, words: str) -> None:
    """Makes the words the whole content of a file. Refused with the cause."""
    try:
        pathlib.Path(path).write_bytes(words.encode("utf-8"))
    except (OSError, ValueError) as error:
        raise Refusal(path, "", f"can't be written: {cause(error)}") from None


def make_folder(path: str) -> None:
    """Makes a folder where there is none. Refused with the cause."""
    try:
        os.makedirs(path, exist_ok=True)
    except (OSError, ValueError) as error:
        raise Refusal(path, "", f"can't be made: {cause(error)}") from None


def move_file(path: str, place: str) -> None:
    """Gives a file another name, also where that is another file's. Refused with the cause."""
    try:
        os.replace(path, place)
    except (OSError, ValueError) as error:
        raise Refusal(place, "", f"can't be written: {cause(error)}") from None


def remove_file(path: str) -> None:
    """Removes a file where it is there and can be removed."""
    with contextlib.suppress(OSError, ValueError):
        os.unlink(path)


def refuse_shared(inputs: List[str], outputs: List[str]) -> None:
    """Refused where an output is a file that is read, or the output before it, by whatever name or link."""
    for place, output in enumerate(outputs):
        for other in inputs + outputs[:place]:
            if _are_one(output, other):
                raise Refusal(output, "", f"would be written over {other}, which is the same file")


def _are_one(path: str, other: str) -> bool:
    """Whether two names are of one file, also where it isn't there yet."""
    try:
        if os.path.samefile(path, other):
            return True
    except (OSError, ValueError):
        # one of them isn't there: then only a name can make them one
        pass
    return _real(path) == _real(other)


def _real(path: str) -> str:
    try:
        return os.path.realpath(path)
    except (OSError, ValueError):
        return path


def cause(error: Exception) -> str:
    """What went wrong, as the system says it."""
    return getattr(error, "strerror", None) or str(error)
