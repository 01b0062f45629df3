#!/usr/bin/env python3
"""Times `uc solve` with one evaluation and `uc check` of the certificate that it writes, on instance files.

    python3 bench/check.py ./uc examples/*.json      # at the top of the repository

Prints for each file the status of both and the best of five runs of each, in seconds of the wall clock.
"""
import pathlib
import subprocess
import sys
import tempfile
import time

RUNS = 5


def best(words):
    seconds = []
    for _ in range(RUNS):
        start = time.perf_counter()
        run = subprocess.run(words, capture_output=True, text=True, check=False)
        seconds.append(time.perf_counter() - start)
    return run.returncode, min(seconds)


def main():
    program = str(pathlib.Path(sys.argv[1]).resolve())
    with tempfile.TemporaryDirectory() as folder:
        certificate = str(pathlib.Path(folder) / "made.cert")
        for file in sys.argv[2:]:
            solved, solving = best([program, "solve", file, "--cert", certificate, "--units", "1"])
            checked, checking = best([program, "check", file, certificate])
            print(f"{file}: solve {solved} in {solving:.4f} s, check {checked} in {checking:.4f} s, {checking / solving:.2f} times")


if __name__ == "__main__":
    main()
