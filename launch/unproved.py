"""Builds the program of the sources at hand without a proof: unproved.py FOLDER OUT, where the folder is there and empty."""
import pathlib
import shutil
import sys

sys.dont_write_bytecode = True
sys.path.insert(0, str(pathlib.Path(__file__).resolve().parent.parent / "bench"))

import search  # noqa: E402

shutil.copy(search.built(pathlib.Path(sys.argv[1])), sys.argv[2])
