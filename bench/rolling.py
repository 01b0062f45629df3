#!/usr/bin/env python3
"""Rolls small random systems by each window and each step, and checks each stitched schedule by the rules of the whole.

    python3 bench/rolling.py PROGRAM [COUNT [SEED]] [prices]     # PROGRAM is `crates/uc/out/uc`, or `unproved`

A system has up to three units and six hours, drawn as in `random_repairs.py`, and `roll` gets 100 evaluations for each window. A schedule
has to be accepted at its printed cost by `examples/check.py`, which shares no code with the program, and the number of windows has to be
that of its hours; so have the number and the hours of a window that has none. Where one window has all hours the run has to end as `solve`
does, with no higher cost. Told are how many runs ended in which way, how much dearer the rolled schedules are than those of one window,
and each run that is wrong. The status is 1 where one is. With `prices` unserved demand, missing reserve or both have a price.
"""
import collections
import json
import pathlib
import random
import re
import subprocess
import sys
import tempfile
from types import SimpleNamespace as Record

import random_repairs
import random_runs
import search

sys.path.insert(0, str(search.TOP / "examples"))
import check  # noqa: E402

UNITS = "100"
STOPPED = re.compile(r"window (\d+) periods (\d+) to (\d+): (infeasible|no schedule found)")


def random_system(chance):
    periods, units = chance.randint(1, 6), chance.randint(1, 3)
    thermal = {f"g{g}": random_repairs.random_unit(chance, False) for g in range(units)}
    most = sum(it["power_output_maximum"] for it in thermal.values())
    renewable = {}
    if chance.random() < 0.4:
        free = [chance.randint(0, 3) for _ in range(periods)]
        renewable["w"] = {"power_output_minimum": [0] * periods, "power_output_maximum": free}
    return {
        "time_periods": periods, "demand": random_repairs.random_demand(chance, thermal, periods, most),
        "reserves": [chance.choice([0, 0, 1, 2]) for _ in range(periods)],
        "thermal_generators": thermal, "renewable_generators": renewable,
    }


def windows(periods, window, step):
    """The first and the last period of each window."""
    first = 1
    while True:
        last = min(first + window - 1, periods)
        yield first, last
        if last == periods:
            return
        first += min(step, window)


def watts(text):
    return int(text.replace(".", ""))


def cell(text, pmin):
    if text == "-":
        return None
    amounts, _, category = text.partition("*")
    output, reserve = map(watts, amounts.split("+"))
    return output - pmin, reserve, int(category or 0)


def schedule_of(instance, report):
    """The schedule of a report as `check.py` takes that of a certificate."""
    rows = collections.defaultdict(list)
    for word, *row in (line.split(" ") for line in report.splitlines()):
        rows[word].append(row)
    cells = [[cell(text, unit.pmin) for text in row[1:]] for unit, row in zip(instance.thermal, rows["thermal"])]
    outputs = [list(map(watts, row[1:])) for row in rows["renewable"]]
    short = [[watts(it) for it in rows[word][0]] if rows[word] else [0] * instance.periods for word in ("shed", "reserve-short")]
    return Record(cost=watts(rows["cost"][0][0]), denominator=1, cells=cells, outputs=outputs, shortages=short)


def fault_of(instance, places, status, report):
    """What is wrong with a run, or nothing."""
    lines = report.splitlines()
    if status == 0:
        if lines[1] != f"rolled {len(places)} windows":
            return f"{lines[1]} of {len(places)}"
        try:
            check.check_schedule(instance, schedule_of(instance, report))
        except check.Refused as refused:
            return str(refused)
        return None
    stopped = STOPPED.fullmatch(lines[-1]) if status == 10 else None
    if not stopped:
        return f"status {status}: {lines[-1:]}"
    number, *place = map(int, stopped.groups()[:3])
    return None if number <= len(places) and places[number - 1] == tuple(place) else lines[-1]


def told(status, report):
    return "rolled" if status == 0 else report.rpartition(": ")[2].strip()


def same_as_solve(program, case, options, folder, status, report):
    """Whether a roll of one window is what `solve` finds, or cheaper by its start categories."""
    words = [program, "solve", case, "--cert", folder / "found.cert", "--units", UNITS, *options]
    solved = subprocess.run(words, capture_output=True, text=True)
    if status == 10:
        return solved.returncode == (3 if told(status, report) == "infeasible" else 2)
    return solved.returncode < 2 and random_runs.micro_dollars(report, "cost") <= random_runs.micro_dollars(solved.stdout, "cost")


def main(program, count, seed, has_prices):
    chance, ends, wrong, rolled, whole = random.Random(seed), collections.Counter(), 0, 0, 0
    with tempfile.TemporaryDirectory() as made:
        folder = pathlib.Path(made)
        program = search.built(folder) if program == "unproved" else pathlib.Path(program).resolve()
        case = folder / "instance.json"
        for system in range(count):
            drawn = random_system(chance)
            prices = random_repairs.with_prices(chance, drawn) if has_prices else (0, 0)
            options = random_runs.options(prices)
            case.write_text(json.dumps(drawn))
            instance = check.instance_of(check.json_of(case.read_bytes()))
            check.penalize(instance, *prices)
            hours, costs = range(1, instance.periods + 1), {}
            for window in reversed(hours):
                for step in hours:
                    words = [program, "roll", case, "--window", str(window), "--step", str(step), "--units", UNITS, *options]
                    ran = subprocess.run(words, capture_output=True, text=True)
                    fault = fault_of(instance, list(windows(instance.periods, window, step)), ran.returncode, ran.stdout)
                    if not fault and window == instance.periods and not same_as_solve(
                            program, case, options, folder, ran.returncode, ran.stdout):
                        fault = "not as solve"
                    if fault:
                        wrong += 1
                        print(f"WRONG: system {system}, window {window}, step {step}: {fault}")
                        continue
                    ends[told(ran.returncode, ran.stdout)] += 1
                    if ran.returncode == 0:
                        costs[window, step] = random_runs.micro_dollars(ran.stdout, "cost")
            least = costs.get((instance.periods, 1))
            if least is not None:
                rolled, whole = rolled + sum(costs.values()), whole + least * len(costs)
    print(", ".join(f"{end}: {times}" for end, times in sorted(ends.items())), end="; ")
    print(f"{wrong} wrong; {100 * (rolled - whole) / max(whole, 1):.1f} % dearer than one window")
    return 1 if wrong else 0


if __name__ == "__main__":
    words = [it for it in sys.argv[1:] if it != "prices"]
    if not 1 <= len(words) <= 3:
        raise SystemExit(__doc__)
    sys.exit(main(words[0], *(int(it) for it in (words[1:] + ["1000", "1"][len(words) - 1:])), "prices" in sys.argv[1:]))
