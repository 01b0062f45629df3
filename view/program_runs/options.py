"""The options of a command that go to `uc solve`; one that isn't given goes by the value that it then has there."""
from __future__ import annotations

import argparse
from typing import Callable, List

from schedule_view.command import gap_of, price_of

# what `uc solve` takes where these aren't given
UNITS, WORKERS, GAP = 1000, 1, 1000
MOST_UNITS, MOST_WORKERS = 1_000_000, 64


def number_of(most: int) -> Callable[[str], int]:
    """What reads a whole number from 1 to the greatest one; a word that is none is an error of the words."""

    def read(text: str) -> int:
        if not (text.isascii() and text.isdigit() and 1 <= int(text) <= most):
            raise argparse.ArgumentTypeError(f"{text} is not a whole number from 1 to {most}")
        return int(text)

    return read


def add_search_options(parser: argparse.ArgumentParser) -> None:
    """The options but for the budget."""
    told = f"goes to `uc solve`, whose run takes so many processors; {WORKERS}"
    parser.add_argument("--workers", metavar="N", type=number_of(MOST_WORKERS), default=WORKERS, help=told)
    parser.add_argument("--gap", metavar="PPM", type=gap_of, default=GAP, help=f"goes to `uc solve`; {GAP}")
    for option in ("--exact", "--exact-units", "--pivot"):
        parser.add_argument(option, action="store_true", help="goes to `uc solve`")
    for option in ("--shed", "--spill-reserve"):
        parser.add_argument(option, metavar="PRICE", type=price_of, help="goes to `uc solve`")


def search_options(given: argparse.Namespace) -> List[str]:
    """These options as words, in one order and spelling."""
    numbers = (("workers", given.workers), ("gap", given.gap), ("shed", given.shed), ("spill-reserve", given.spill_reserve))
    switches = (("exact", given.exact), ("exact-units", given.exact_units), ("pivot", given.pivot))
    options = [f"--{option}={value}" for option, value in numbers if value is not None]
    return options + [f"--{option}" for option, is_given in switches if is_given]
