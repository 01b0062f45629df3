#!/usr/bin/env python3
"""Writes the instances of `uc demo`'s seeds, and compares what `solve` and `demo` find of them.

    python3 bench/demos.py PROGRAM SEED ..         # PROGRAM is `crates/uc/out/uc`, or `unproved`
    python3 bench/demos.py write FOLDER SEED ..    # writes FOLDER/demo_SEED.json

The instance of a seed is made here anew, by the formulas of docs/FORMATS.md. `solve` with the budget of `demo` has to print the lines that
`demo` prints, twice the same, and `check` has to accept its certificate. Told are the cost, the bound and the seconds of the processor.
"""
import json
import pathlib
import sys
import tempfile

PERIODS, UNITS, BUDGET = 24, 40, "200"
LOADS = "30 30 32 35 40 45 50 55 60 64 68 70 72 72 70 68 70 74 76 72 66 58 50 42"


class Draws:
    """The generator of a seed."""

    def __init__(self, seed):
        self.state = seed

    def draw(self, count):
        self.state = (self.state * 6364136223846793005 + 1442695040888963407) % 2**64
        return (self.state >> 33) % count


def thermal(draws):
    minimum, span = 20 + draws.draw(31), 40 + draws.draw(161)
    up, down = 1 + draws.draw(8), 1 + draws.draw(8)
    low = 10 + draws.draw(30)
    high = low + 1 + draws.draw(10)
    start, ramp, middle, first = 500 + draws.draw(1500), (span + 1) // 2, span // 2, minimum * (low + 5)
    return {
        "must_run": 0,
        "power_output_minimum": minimum,
        "power_output_maximum": minimum + span,
        "ramp_up_limit": ramp,
        "ramp_down_limit": ramp,
        "ramp_startup_limit": minimum + ramp,
        "ramp_shutdown_limit": minimum + ramp,
        "time_up_minimum": up,
        "time_down_minimum": down,
        "power_output_t0": minimum + 3 * span // 10,
        "unit_on_t0": 1,
        "time_up_t0": up,
        "time_down_t0": 0,
        "startup": [{"lag": down, "cost": start}, {"lag": down + 6, "cost": 2 * start}],
        "piecewise_production": [
            {"mw": minimum, "cost": first},
            {"mw": minimum + middle, "cost": first + low * middle},
            {"mw": minimum + span, "cost": first + low * middle + high * (span - middle)},
        ],
    }


def instance(seed):
    draws = Draws(seed)
    units = {f"u{number}": thermal(draws) for number in range(1, UNITS + 1)}
    minimums = sum(it["power_output_minimum"] for it in units.values())
    spans = sum(it["power_output_maximum"] for it in units.values()) - minimums
    return {
        "time_periods": PERIODS,
        "demand": [minimums + spans * int(load) // 100 for load in LOADS.split()],
        "reserves": [3 * spans // 100] * PERIODS,
        "thermal_generators": units,
        "renewable_generators": {"w1": {"power_output_minimum": [0] * PERIODS, "power_output_maximum": [30] * PERIODS}},
    }


def write(folder, seed):
    path = pathlib.Path(folder) / f"demo_{seed}.json"
    path.write_text(json.dumps(instance(seed)))
    return path


def compare(program, seed, folder):
    import search

    shown = [search.timed([program, "demo", str(seed)]) for _ in range(2)]
    case, certificate = write(folder, seed), folder / "demo.cert"
    solved, took = search.timed([program, "solve", case, "--cert", certificate, "--units", BUDGET])
    checked, check = search.timed([program, "check", case, certificate])
    first = [f"demo {seed}", *[row for row in solved.stdout.splitlines()[1:] if not row.startswith(("thermal", "renewable"))]]
    same = shown[0][0].stdout == shown[1][0].stdout and shown[0][0].stdout.splitlines() == first
    cost, bound = (search.amount(solved.stdout, name) for name in ("cost", "bound"))
    evaluations = int(search.amount(solved.stdout, "evaluations"))
    print(f"demo {seed}: status {solved.returncode}, cost {cost:.2f}, bound {bound:.2f}, gap {(cost - bound) / cost:.4%}", end=", ")
    print(f"evaluations {evaluations} in {took:.2f} s, demo in {shown[0][1]:.2f} s, checked in {check:.2f} s", end="")
    print("" if same and checked.returncode == 0 else "; DIFFERS OR REFUSED")


def main(first, words):
    if first == "write":
        for seed in words[1:]:
            write(words[0], int(seed))
        return
    import search

    with tempfile.TemporaryDirectory() as made:
        folder = pathlib.Path(made)
        program = search.built(folder) if first == "unproved" else pathlib.Path(first).resolve()
        for seed in words:
            compare(program, int(seed), folder)


if __name__ == "__main__":
    if len(sys.argv) < 3:
        raise SystemExit(__doc__)
    main(sys.argv[1], sys.argv[2:])
