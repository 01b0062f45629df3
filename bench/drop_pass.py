#!/usr/bin/env python3
"""Whether the drop pass of two checkouts ends with the same commitment: whether `solve` and `demo` print and write the same.

    python3 bench/drop_pass.py OLD NEW [COUNT [SEED]] [CASE ..]       # `rt` on the path

OLD and NEW are programs, or checkouts, of which programs are built without a proof (`unproved.py`). Both solve, with one evaluation, the
cases, with and without prices of shortages, and COUNT random systems (2,000 if no count is given), and run `demo` with the seeds 0 to 19.
The systems have up to sixteen units, which start, stop and are bound by their ramps, and up to 24 hours; some have renewable units, costs
that fall as outputs rise, or prices of shortages. With one evaluation the schedule that is printed is the drop commitment's, or made from
it. Told are the runs that differ, how many runs ended with each status, and how many differ.
"""
import collections
import json
import pathlib
import random
import subprocess
import sys
import tempfile

import random_repairs
import same_bytes

BUILDING = "import sys; sys.path.insert(0, sys.argv[1]); import pathlib, search; print(search.built(pathlib.Path(sys.argv[2])))"
PRICED = "--shed", "1000", "--spill-reserve", "500"
PERIODS, SEEDS, COUNT = (3, 6, 12, 24), 20, 2000


def built(program, folder):
    """The program of a checkout, built in a folder; a program is itself."""
    program = pathlib.Path(program).resolve()
    if program.is_file():
        return program
    folder.mkdir()
    words = [sys.executable, "-c", BUILDING, program / "bench", folder]
    return subprocess.run(words, check=True, capture_output=True, text=True).stdout.split()[-1]


def demand(chance, thermal, periods, most):
    """What the units give initially, and changes from hour to hour as wide as the system."""
    step, given, hours = max(len(thermal), 2), sum(it["power_output_t0"] for it in thermal.values()), []
    for _ in range(periods):
        given = min(max(given + chance.randint(-step, step), 1), most)
        hours.append(given)
    return hours


def system(chance):
    periods, units, falling = chance.choice(PERIODS), chance.randint(1, 16), chance.random() < 0.3
    thermal = {f"g{g}": random_repairs.random_unit(chance, falling) for g in range(units)}
    most = sum(it["power_output_maximum"] for it in thermal.values())
    renewable = {}
    for w in range(chance.choice([0, 0, 1, 2])):
        free = [chance.randint(0, 8) for _ in range(periods)]
        least = [min(it, chance.choice([0, 0, 0, 2])) for it in free]
        renewable[f"w{w}"] = {"power_output_minimum": least, "power_output_maximum": free}
    return {
        "time_periods": periods, "demand": demand(chance, thermal, periods, most),
        "reserves": [chance.randint(0, units // 2) for _ in range(periods)],
        "thermal_generators": thermal, "renewable_generators": renewable,
    }


def solved(case, certificate, prices):
    return ["solve", case, "--cert", certificate, "--units", "1", *prices]


def prices_of(chance, instance):
    """The options for prices of shortages, where a system has some."""
    if chance.random() < 0.6:
        return ()
    shed, spill = random_repairs.with_prices(chance, instance)
    return [f"--{name}={price}" for name, price in (("shed", shed), ("spill-reserve", spill)) if price]


def runs(count, seed, cases, folder):
    """The words of each run, and its certificate."""
    certificate, case = folder / "found.cert", folder / "instance.json"
    for shared in cases:
        yield shared, solved(shared, certificate, ()), certificate
        yield f"{shared}, with prices", solved(shared, certificate, PRICED), certificate
    for number in range(SEEDS):
        yield f"demo {number}", ["demo", str(number)], certificate
    chance = random.Random(seed)
    for number in range(count):
        instance = system(chance)
        prices = prices_of(chance, instance)
        case.write_text(json.dumps(instance))
        yield f"system {number}", solved(case, certificate, prices), certificate


def main(old, new, count, seed, cases):
    statuses, others = collections.Counter(), 0
    with tempfile.TemporaryDirectory() as made:
        folder = pathlib.Path(made)
        old, new = built(old, folder / "old"), built(new, folder / "new")
        for name, words, certificate in runs(count, seed, cases, folder):
            answer = same_bytes.answer(old, words, certificate)
            statuses[answer[0]] += 1
            if same_bytes.answer(new, words, certificate) != answer:
                others += 1
                print(f"{name}: the answers differ", flush=True)
    ended = ", ".join(f"{count} with status {status}" for status, count in sorted(statuses.items()))
    print(f"{sum(statuses.values())} runs, {ended}; {others} differ")
    return others


if __name__ == "__main__":
    programs, rest = sys.argv[1:3], sys.argv[3:]
    numbers = [int(word) for word in rest if word.isdigit()]
    cases = [word for word in rest if not word.isdigit()]
    sys.exit(main(*programs, *(numbers + [COUNT, 1][len(numbers):]), cases) > 0)
