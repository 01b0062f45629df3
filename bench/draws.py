#!/usr/bin/env python3
"""Runs the tests of model_tests on a copy, in which so many units are drawn as is said, and not the few of the gate.

    python3 bench/draws.py [COUNT]     # `rt` on the path; 20,000 units if no count is given

Nothing is proved here: the tests are run with the checks of `rt try`.
"""
import pathlib
import re
import shutil
import subprocess
import sys
import tempfile

TOP = pathlib.Path(__file__).resolve().parent.parent
DRAWN = pathlib.Path("crates") / "model_tests" / "src" / "paths.rt"
COUNT, SECONDS = 20_000, "3600"


def copy(folder, count):
    """A copy of the crates, without what earlier checks kept, in which so many units are drawn."""
    shutil.copy(TOP / "crates.txt", folder)
    shutil.copytree(TOP / "crates", folder / "crates", ignore=shutil.ignore_patterns("out"))
    text, changes = re.subn(r"^const UNITS: u32 = [\d_]+;", f"const UNITS: u32 = {count};", (folder / DRAWN).read_text(), flags=re.M)
    if changes != 1:
        raise SystemExit(f"{DRAWN} has no number of units")
    (folder / DRAWN).write_text(text)


def main(count=COUNT):
    with tempfile.TemporaryDirectory() as name:
        folder = pathlib.Path(name)
        copy(folder, int(count))
        words = ["rt", "try", "--test", "--seconds", SECONDS]
        return subprocess.run(words, cwd=folder / "crates" / "model_tests").returncode


if __name__ == "__main__":
    sys.exit(main(*sys.argv[1:]))
