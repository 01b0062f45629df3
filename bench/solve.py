#!/usr/bin/env python3
"""Times `uc solve` on instances that it makes: one unit over 168 hours with minimum times of a day and 16
startup categories, and 1,000 units over 48 hours. Prints the wall clock seconds (the best of three) of the
whole run, from the file to the certificate.

    python3 bench/solve.py ./uc [OPTION ..]  # at the top of the repository; options as --shed 1000 go to `solve`
"""
import json
import pathlib
import random
import subprocess
import sys
import tempfile
import time


def unit(categories, least):
    """One thermal unit that was on for a day, with these startup categories and minimum times."""
    low = random.randint(10, 100)
    high = low + random.randint(50, 400)
    points = sorted(random.sample(range(low + 1, high), 8))
    watts = [low, *points, high]
    costs, slope = [1000.0], 10.0
    for before, after in zip(watts, watts[1:]):
        slope += random.uniform(0, 5)
        costs.append(round(costs[-1] + slope * (after - before), 2))
    return {
        "must_run": 0,
        "power_output_minimum": low,
        "power_output_maximum": high,
        "ramp_up_limit": 40,
        "ramp_down_limit": 40,
        "ramp_startup_limit": high,
        "ramp_shutdown_limit": high,
        "time_up_minimum": least,
        "time_down_minimum": least,
        "power_output_t0": low,
        "unit_on_t0": 1,
        "time_up_t0": 24,
        "time_down_t0": 0,
        "startup": [{"lag": least + k, "cost": 500 + 100 * k} for k in range(categories)],
        "piecewise_production": [{"mw": mw, "cost": cost} for mw, cost in zip(watts, costs)],
    }


def instance(units, periods, categories, least):
    return {
        "time_periods": periods,
        "demand": [100 * units] * periods,
        "reserves": [5 * units] * periods,
        "thermal_generators": {f"g{number}": unit(categories, least) for number in range(units)},
        "renewable_generators": {},
    }


def best(program, options, folder, name, made):
    path = folder / f"{name}.json"
    path.write_text(json.dumps(made))
    words = [program, "solve", str(path), "--cert", str(folder / f"{name}.cert"), "--units", "1", *options]
    seconds = []
    for _ in range(3):
        start = time.perf_counter()
        run = subprocess.run(words, capture_output=True, text=True, check=False)
        seconds.append(time.perf_counter() - start)
    size = path.stat().st_size
    print(f"{name}: {size} bytes, status {run.returncode}, {min(seconds):.3f} s")


def main():
    random.seed(1)
    program, options = str(pathlib.Path(sys.argv[1]).resolve()), sys.argv[2:]
    with tempfile.TemporaryDirectory() as name:
        folder = pathlib.Path(name)
        best(program, options, folder, "week", instance(1, 168, 16, 24))
        best(program, options, folder, "thousand", instance(1000, 48, 4, 8))


if __name__ == "__main__":
    main()
