#!/usr/bin/env python3
"""Whole runs on small random instances beside their best schedules, which are found by enumeration.

    python3 bench/random_runs.py PROGRAM [COUNT [SEED]] [prices]     # PROGRAM is `crates/uc/out/uc`, or `unproved`

The instances are those of `random_repairs.py`, with up to three units and four hours, and `solve` gets 200 evaluations and the gap 0. Told
are how many runs ended with each status; of the instances with a schedule in whole megawatts how many were answered without one, and by a
dearer one than the best of these; and each run that says something untrue: that there is no schedule where there is one, a bound above
the best cost, or a certificate that `check` refuses. Nothing of what enumerates is shared with the program. With `prices` unserved demand,
missing reserve or both have a price, and demand and reserve are more by chance, so that they may be above what all units give.
"""
import collections
import json
import pathlib
import random
import subprocess
import sys
import tempfile

import random_repairs
import search

UNITS = "200"


def micro_dollars(report, name):
    """An amount of a report, where it has one."""
    rows = [row.split(" ") for row in report.splitlines()]
    return next((int(row[1].replace(".", "")) for row in rows if row[0] == name), None)


def options(prices):
    return [f"--{name}={price}" for name, price in zip(("shed", "spill-reserve"), prices) if price]


def run(program, instance, prices, folder):
    """The status of `solve`, its cost and bound, and whether its certificate is accepted."""
    case, certificate = folder / "instance.json", folder / "found.cert"
    case.write_text(json.dumps(instance))
    words = [program, "solve", case, "--cert", certificate, "--units", UNITS, "--gap", "0", *options(prices)]
    solved = subprocess.run(words, capture_output=True, text=True)
    checked = subprocess.run([program, "check", case, certificate, *options(prices)], capture_output=True)
    cost, bound = (micro_dollars(solved.stdout, name) for name in ("cost", "bound"))
    return solved.returncode, cost, bound, checked.returncode == 0


def main(program, count, seed, has_prices):
    chance, statuses, missed, dearer = random.Random(seed), collections.Counter(), 0, 0
    with tempfile.TemporaryDirectory() as made:
        folder = pathlib.Path(made)
        program = search.built(folder) if program == "unproved" else pathlib.Path(program).resolve()
        for number in range(count):
            instance = random_repairs.random_instance(chance)
            prices = random_repairs.with_prices(chance, instance) if has_prices else (0, 0)
            status, cost, bound, is_accepted = run(program, instance, prices, folder)
            best = random_repairs.best_cost(instance, prices)
            statuses[status] += 1
            missed += best is not None and cost is None
            dearer += best is not None and cost is not None and cost > best
            if not is_accepted or best is not None and (status == 3 or bound > best):
                print(f"UNTRUE: instance {number}, status {status}, cost {cost}, bound {bound}, best {best}, accepted {is_accepted}")
    print(", ".join(f"status {status}: {times}" for status, times in sorted(statuses.items())), end="; ")
    print(f"{missed} without a schedule that is there, {dearer} dearer than the best in whole megawatts")


if __name__ == "__main__":
    words = [it for it in sys.argv[1:] if it != "prices"]
    if not 1 <= len(words) <= 3:
        raise SystemExit(__doc__)
    main(words[0], *(int(it) for it in (words[1:] + ["1000", "1"][len(words) - 1:])), "prices" in sys.argv[1:])
