"""A file that is made beside its place, and takes it once it is whole."""
from __future__ import annotations

import contextlib
import os
import shutil
import tempfile
from typing import Iterator

from schedule_view.files import cause, move_file
from schedule_view.refusal import Refusal


class Draft:
    """A path for what isn't whole yet, and the file whose place it is to take."""

    def __init__(self, path: str, place: str) -> None:
        self.path, self.place = path, place

    def settle(self) -> None:
        """Gives the draft its place, with the permissions of the file there. Refused with the cause."""
        with contextlib.suppress(FileNotFoundError):
            shutil.copymode(self.place, self.path)
        move_file(self.path, self.place)


@contextlib.contextmanager
def draft_of(path: str) -> Iterator[Draft]:
    """A draft in a folder of its own beside the file, which goes away with all that is left in it.

    A symbolic link is followed. Refused where the place isn't that of a file, or its folder takes no new one.
    """
    place = os.path.realpath(path)
    if os.path.exists(place) and not os.path.isfile(place):
        raise Refusal(path, "", "can't be written: no regular file")
    try:
        folder = tempfile.mkdtemp(prefix=".uc-draft-", dir=os.path.dirname(place))
    except (OSError, ValueError) as error:
        raise Refusal(path, "", f"can't be written: {cause(error)}") from None
    try:
        yield Draft(os.path.join(folder, "draft"), place)
    finally:
        shutil.rmtree(folder, ignore_errors=True)
