#!/usr/bin/env python3
"""Times the check of a schedule of 978 units over 48 hours, all on throughout, as a step of `uc check`.

    python3 bench/schedule_check.py ./uc     # at the top of the repository

No command checks a schedule alone. So one certificate writes a wrong cost, which is told once all rules were asked and all cells
priced, and another breaks the first rule at its first place, which is told at once; both are read whole. Prints the best of ten
runs of each, and the difference.
"""
import json
import pathlib
import subprocess
import sys
import tempfile
import time

UNITS, PERIODS, ABOVE, RUNS = 978, 48, 20, 10


def unit(number):
    """A unit of twelve points that is on at first, and has to be where it is the first."""
    low = 50 + number % 90
    points = [(low + 10 * k, 1000 + 150 * k + 3 * k * k) for k in range(12)]
    return {
        "must_run": 1 if number == 0 else 0,
        "power_output_minimum": low,
        "power_output_maximum": points[-1][0],
        "ramp_up_limit": 40,
        "ramp_down_limit": 40,
        "ramp_startup_limit": low + 40,
        "ramp_shutdown_limit": low + 40,
        "time_up_minimum": 8,
        "time_down_minimum": 8,
        "power_output_t0": low,
        "unit_on_t0": 1,
        "time_up_t0": 24,
        "time_down_t0": 0,
        "startup": [{"lag": 8 + k, "cost": 500 + 100 * k} for k in range(4)],
        "piecewise_production": [{"mw": mw, "cost": cost} for mw, cost in points],
    }


def certificate(first):
    cell = f"{ABOVE * 10**6}:0:0"
    rows = [[first, *[cell] * (PERIODS - 1)], *[[cell] * PERIODS] * (UNITS - 1)]
    return "\n".join([
        "uc-certificate 1",
        f"size {PERIODS} {UNITS} 0 0",
        "claim infeasible",
        "schedule 0.000000",
        *(" ".join(["t", *row]) for row in rows),
        "empty 1",
        "end",
        "",
    ])


def best(program, instance, path):
    seconds = []
    for _ in range(RUNS):
        start = time.perf_counter()
        run = subprocess.run([program, "check", str(instance), str(path)], capture_output=True, text=True, check=False)
        seconds.append(time.perf_counter() - start)
    return min(seconds), run.returncode, run.stderr.strip()


def main():
    program = str(pathlib.Path(sys.argv[1]).resolve())
    units = {f"g{number}": unit(number) for number in range(UNITS)}
    demand = sum(made["power_output_minimum"] + ABOVE for made in units.values())
    made = {
        "time_periods": PERIODS,
        "demand": [demand] * PERIODS,
        "reserves": [0] * PERIODS,
        "thermal_generators": units,
        "renewable_generators": {},
    }
    with tempfile.TemporaryDirectory() as folder:
        instance = pathlib.Path(folder) / "instance.json"
        instance.write_text(json.dumps(made))
        told = []
        for name, first in (("whole", f"{ABOVE * 10**6}:0:0"), ("first rule", "-")):
            path = pathlib.Path(folder) / f"{name}.cert"
            path.write_text(certificate(first))
            seconds, status, line = best(program, instance, path)
            told.append(seconds)
            print(f"{name}: status {status}, {line}, {seconds:.4f} s")
        print(f"difference: {told[0] - told[1]:.4f} s")


if __name__ == "__main__":
    main()
