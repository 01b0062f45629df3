"""The program that is run."""
from __future__ import annotations

import argparse
import os
import pathlib
import subprocess
from typing import Optional

from schedule_view.files import cause
from schedule_view.refusal import Refusal

TOP = pathlib.Path(__file__).resolve().parent.parent.parent
BUILT, PROVED = "crates/uc/out/uc", "proved"
# the statuses of an answer of `uc demo`
ANSWERS = range(4)


def add_program(parser: argparse.ArgumentParser) -> None:
    """The option that names the program."""
    parser.add_argument("--program", metavar="UC", help=f"the program that is run; {BUILT}, as ./uc builds it")


def built_program(path: Optional[str]) -> str:
    """The program to run: that of the words, or the one of this repository, which is built first where it isn't there.

    Where UC_BUILD asks `./uc` for another build, `./uc` knows where that is, and is run itself.
    """
    if path is not None:
        if not (os.path.isfile(path) and os.access(path, os.X_OK)):
            raise Refusal(path, "", "no program that can be run")
        return os.path.abspath(path)
    script = str(TOP / "uc")
    try:
        tried = subprocess.run([script, "demo", "0"], stdin=subprocess.DEVNULL, stdout=subprocess.DEVNULL, check=False)
    except OSError as error:
        raise Refusal(script, "", f"can't be run: {cause(error)}") from None
    if tried.returncode not in ANSWERS:
        raise Refusal(script, "", f"ended with {tried.returncode}, and gave no program")
    return str(TOP / BUILT) if os.environ.get("UC_BUILD", PROVED) == PROVED else script


def last_line(errors: bytes) -> str:
    """What a run that failed says of its cause, which is the last line of its error output."""
    return errors.decode("utf-8", "replace").rstrip("\n").rpartition("\n")[2]
