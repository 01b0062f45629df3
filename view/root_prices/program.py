"""Runs of `uc` on one instance."""
from __future__ import annotations

import os
import pathlib
import subprocess
from typing import List, Optional, Tuple

from schedule_view.files import cause
from schedule_view.refusal import Refusal
from schedule_view.shortages import Penalty

LAUNCHER = pathlib.Path(__file__).resolve().parent.parent.parent / "uc"


class Program:
    """The program, the instance, and the prices of what is short, which each run is given; `source` has the schedule."""

    def __init__(self, path: Optional[str], instance: str, source: str, penalty: Penalty) -> None:
        if path is not None and not (os.path.isfile(path) and os.access(path, os.X_OK)):
            raise Refusal(path, "", "no program that can be run")
        self._path = os.path.abspath(path) if path is not None else str(LAUNCHER)
        self._instance, self._source = instance, source
        self._prices = [f"--{name}={price}" for name, price in zip(("shed", "spill-reserve"), penalty) if price]

    def search(self, certificate: str, units: int) -> None:
        """Writes the certificate of a search; what it says, as while it builds the program, is seen."""
        words = [f"--cert={certificate}", f"--units={units}", "--gap=0"]
        status, _, _ = self._run("solve", words, [self._instance], is_seen=True)
        if status not in (0, 1, 2):
            raise Refusal(self._instance, "", f"`uc solve` ended with status {status}")

    def uplift(self, certificate: str, place: str) -> bytes:
        """What `uc uplift` prints for a certificate's first table, which is the one of this place."""
        return self._accepted("uplift", certificate, place)

    def check(self, certificate: str) -> None:
        """Refused where `uc check` doesn't accept a certificate."""
        self._accepted("check", certificate, "")

    def _accepted(self, command: str, certificate: str, place: str) -> bytes:
        status, out, err = self._run(command, [], [self._instance, certificate], is_seen=False)
        if status:
            told = err.decode("utf-8", "replace").strip().rpartition("\n")[2]
            raise Refusal(self._source, place, f"`uc {command}` ended with status {status}: {told}")
        return out

    def _run(self, command: str, words: List[str], files: List[str], is_seen: bool) -> Tuple[int, bytes, bytes]:
        told = [self._path, command, *words, *self._prices, "--", *files]
        try:
            errors = None if is_seen else subprocess.PIPE
            ran = subprocess.run(told, stdin=subprocess.DEVNULL, stdout=subprocess.PIPE, stderr=errors, check=False)
        except OSError as error:
            raise Refusal(self._path, "", f"can't be run: {cause(error)}") from None
        return ran.returncode, ran.stdout, ran.stderr or b""
