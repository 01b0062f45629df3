#!/usr/bin/env python3
"""Measures what whole runs of `uc solve` find on instance files, and what they take.

    python3 bench/search.py PROGRAM UNITS[:SECONDS] [--exact-units] [--shed=PRICE] [--spill-reserve=PRICE] CASE.json ..

PROGRAM is `crates/uc/out/uc`, or `unproved`, which builds the program of the sources at hand without a proof, see `unproved.py`. Told are
cost, bound and gap after a budget of so many evaluations, the evaluations, and the seconds of the processor that the run took and the check
of its certificate, which has to be accepted. With SECONDS, where the Python that runs this has scipy 1.9 or later, HiGHS follows on the same
instance with so many seconds, see `highs.py`.
"""
import pathlib
import resource
import subprocess
import sys
import tempfile

import unproved

TOP = pathlib.Path(__file__).resolve().parent.parent
LIBRARIES = "outside outside_system report uc_cli".split()

# The option of `solve` that the check and HiGHS know nothing of.
EXACT = "--exact-units"


def built(folder):
    source = (TOP / "crates" / "uc" / "src" / "main.rt").read_text()
    (folder / "built").mkdir()
    return unproved.build(folder / "built", LIBRARIES, source, checks=False)


def processor():
    """The seconds of the processor that ended children took so far."""
    used = resource.getrusage(resource.RUSAGE_CHILDREN)
    return used.ru_utime + used.ru_stime


def timed(words):
    start = processor()
    ran = subprocess.run(words, capture_output=True, text=True)
    return ran, processor() - start


def amount(report, name):
    """An amount of a report in dollars, where it has one."""
    rows = [row.split(" ") for row in report.splitlines()]
    return next((float(row[1]) for row in rows if row[0] == name), None)


def measure(program, units, options, case, folder):
    certificate, prices = folder / "found.cert", [it for it in options if it != EXACT]
    solved, took = timed([program, "solve", case, "--cert", certificate, "--units", units, *options])
    if solved.returncode > 3:
        raise SystemExit(solved.stderr)
    checked, check = timed([program, "check", case, certificate, *prices])
    if checked.returncode:
        raise SystemExit(checked.stderr)
    cost, bound = amount(solved.stdout, "cost"), amount(solved.stdout, "bound")
    parts = [f"{pathlib.Path(case).stem}: status {solved.returncode}"]
    if cost is not None:
        parts.append(f"cost {cost:.2f}")
    if bound is not None:
        parts.append(f"bound {bound:.2f}")
    if cost:
        parts.append(f"gap {(cost - bound) / abs(cost):.4%}")
    parts.append(f"evaluations {int(amount(solved.stdout, 'evaluations'))}")
    print(", ".join(parts), f"in {took:.2f} s, checked in {check:.2f} s", flush=True)


def highs_too(seconds, options, case):
    prices = [it for it in options if it != EXACT]
    try:
        import highs
    except ImportError:
        print("HiGHS: not run, as there is no scipy")
        return
    print("HiGHS on", end=" ", flush=True)
    highs.main(seconds, [*prices, case])


def main(program, budget, words):
    units, _, seconds = budget.partition(":")
    options, cases = ([it for it in words if it.startswith("--") == is_option] for is_option in (True, False))
    with tempfile.TemporaryDirectory() as made:
        folder = pathlib.Path(made)
        program = built(folder) if program == "unproved" else program
        for case in cases:
            measure(program, units, options, case, folder)
            if seconds:
                highs_too(float(seconds), options, case)


if __name__ == "__main__":
    if len(sys.argv) < 4:
        raise SystemExit(__doc__)
    main(sys.argv[1], sys.argv[2], sys.argv[3:])
