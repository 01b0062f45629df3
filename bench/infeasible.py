#!/usr/bin/env python3
"""Runs of small systems that no schedule serves, for what their ramps allow from hour to hour, which no single hour shows.

    python3 bench/infeasible.py PROGRAM [--exact-units] [highs]     # PROGRAM is `crates/uc/out/uc`, or `unproved`

Each is one of two systems with changes, and stands beside why it has no schedule. `solve` gets 100 evaluations and should end with status
3, and `check` has to accept its certificate. Told are the status, the evaluations and the seconds of the processor. With `--exact-units` the
search keeps the ramps of each unit in its bounds. With `highs`, by a Python that has scipy 1.9 or later, HiGHS looks for a schedule too, see
`highs.py`. The two systems as they stand have one, and come first.
"""
import copy
import json
import pathlib
import sys
import tempfile

import search

UNITS = "100"
EXACT = "--exact-units"
NONE = 3


def unit(low, high, ramp, limit, times, output):
    """A unit of one ramp limit, one limit of starts and stops, and one least time on and off, which has been as it is for 9 h."""
    return {
        "must_run": 0, "power_output_minimum": low, "power_output_maximum": high, "ramp_up_limit": ramp, "ramp_down_limit": ramp,
        "ramp_startup_limit": limit, "ramp_shutdown_limit": limit, "time_up_minimum": times, "time_down_minimum": times,
        "power_output_t0": output, "unit_on_t0": int(output > 0), "time_up_t0": 9 if output else 0, "time_down_t0": 0 if output else 9,
        "startup": [{"lag": 1, "cost": 10 * high}], "piecewise_production": [{"mw": low, "cost": 30 * low}, {"mw": high, "cost": 25 * high}],
    }


def system(demand, reserve, units):
    return {
        "time_periods": len(demand), "demand": demand, "reserves": [reserve] * len(demand), "thermal_generators": units,
        "renewable_generators": {},
    }


# A large unit, a middling one and a quick one over a morning, and six units over half a day.
BASES = {
    "three": system(
        [90, 95, 100, 110, 120, 110, 100, 90], 10,
        {"large": unit(40, 100, 20, 60, 3, 60), "middle": unit(20, 60, 15, 30, 2, 30), "quick": unit(5, 30, 30, 30, 1, 0)},
    ),
    "six": system(
        [300, 310, 330, 350, 370, 380, 380, 370, 350, 330, 310, 300], 20,
        {"a": unit(60, 150, 20, 70, 4, 120), "b": unit(60, 150, 20, 70, 4, 120), "c": unit(30, 80, 15, 40, 3, 60),
         "d": unit(30, 80, 15, 40, 3, 0), "e": unit(10, 40, 40, 40, 1, 0), "f": unit(10, 40, 40, 40, 1, 0)},
    ),
}

OFF = {"power_output_t0": 0, "unit_on_t0": 0, "time_up_t0": 0, "time_down_t0": 9}

SLOW_STARTS = {name: {"ramp_up_limit": 10, "ramp_startup_limit": low} for name, low in (("a", 60), ("b", 60), ("c", 30), ("d", 30))}

# Of each system its name, why it has no schedule, its base, and what is changed: fields of the system, and of units.
SYSTEMS = (
    ("a stop", "the large unit falls by 10 an hour from 100, may stop from 50, and so gives 60 in hour 4, where demand is 50",
     "three", {"demand": [125, 105, 85, 50, 50, 50, 50, 50]},
     {"large": {"power_output_t0": 100, "ramp_down_limit": 10, "ramp_shutdown_limit": 50}}),
    ("a start", "the middle unit starts at 20 and rises by 5 an hour, and before hour 4 demand is too low for it beside the large one",
     "three", {"demand": [55, 55, 55, 130, 120, 110, 100, 90]},
     {"large": {"must_run": 1, "power_output_t0": 50}, "middle": {**OFF, "ramp_up_limit": 5, "ramp_startup_limit": 20}}),
    ("nought", "ramps of nought hold the large unit at 60 and the middle one at 30, the quick one gives 30, and demand comes to 125",
     "three", {"demand": [90, 95, 100, 110, 125, 110, 100, 90]},
     {"large": {"ramp_up_limit": 0, "ramp_down_limit": 0}, "middle": {"ramp_up_limit": 0, "ramp_down_limit": 0}}),
    ("reserve", "ramps up leave 65 of reserve at most in hour 5 of a valley, as demand is that of hour 4, and 70 are wanted",
     "three", {"demand": [100, 90, 80, 75, 75, 90, 100, 100], "reserves": [10, 10, 10, 10, 70, 10, 10, 10]}, {"middle": {"must_run": 1}}),
    ("slow", "an hour after 90 the large and the middle unit give 130 at most, by rises and a start, the quick one 30, and demand is 165",
     "three", {"demand": [90, 90, 90, 90, 165, 165, 165, 165]}, {}),
    ("two peaks", "no unit is off and back between peaks of 175, and from 70 in hour 5 they rise by 70 in two hours, the quick one by 30",
     "three", {"demand": [120, 150, 175, 130, 70, 130, 175, 150]},
     {"large": {"power_output_t0": 80}, "middle": {"power_output_t0": 40}}),
    ("a fall", "both units that must run fall by 70 in two hours, and demand by 90; the quick one falls by 5, and isn't off so soon",
     "three", {"demand": [150, 150, 105, 60, 60, 60, 60, 60], "reserves": [0] * 8},
     {"large": {"must_run": 1, "power_output_t0": 90}, "middle": {"must_run": 1, "power_output_t0": 50}, "quick": {"ramp_down_limit": 5}}),
    ("a valley", "units that give 490 in hour 3 can't fall, or fall to where they may stop, so far that they give 140 in hour 6",
     "six", {"demand": [380, 450, 490, 350, 230, 140, 140, 230, 350, 450, 490, 450]}, {}),
    ("long reserve", "the slow units' ramps leave 28 of reserve and the quick units 60, unless a start lets others fall; 100 are wanted",
     "six", {"reserves": [20] * 3 + [100] * 6 + [20] * 3}, {name: {"ramp_up_limit": 7} for name in "abcd"}),
    ("a rise", "slow units that start at their minimums after a valley of 100 and rise by 10 an hour don't reach 430 four hours later",
     "six", {"demand": [300, 260, 200, 140, 100, 100, 100, 100, 140, 200, 260, 430]}, SLOW_STARTS),
    ("a tight rise", "nor do they reach 400, of which they lack so little that no ray shows it before several splits",
     "six", {"demand": [300, 260, 200, 140, 100, 100, 100, 100, 140, 200, 260, 400]}, SLOW_STARTS),
)


def changed(base, fields, units):
    made = copy.deepcopy(BASES[base])
    made.update(fields)
    for name, changes in units.items():
        made["thermal_generators"][name].update(changes)
    return made


def run(program, made, folder, options):
    """The status of `solve`, the evaluations, and the seconds of the processor that it took; its certificate has to be accepted."""
    case, certificate = folder / "instance.json", folder / "found.cert"
    case.write_text(json.dumps(made))
    solved, took = search.timed([program, "solve", case, "--cert", certificate, "--units", UNITS, *options])
    checked, _ = search.timed([program, "check", case, certificate])
    if solved.returncode > 3 or checked.returncode:
        raise SystemExit(solved.stderr + checked.stderr)
    return solved.returncode, int(search.amount(solved.stdout, "evaluations")), took


def has_schedule(made):
    import highs
    return highs.model_of(made).solve(60).x is not None


def main(program, others):
    rows = [(name, name, {}, {}) for name in BASES] + [row[:1] + row[2:] for row in SYSTEMS]
    ended = 0
    with tempfile.TemporaryDirectory() as kept:
        folder = pathlib.Path(kept)
        program = search.built(folder) if program == "unproved" else pathlib.Path(program).resolve()
        for name, base, fields, units in rows:
            made = changed(base, fields, units)
            status, evaluations, took = run(program, made, folder, [it for it in others if it == EXACT])
            ended += status == NONE
            told = ", HiGHS finds " + ("a schedule" if has_schedule(made) else "none") if "highs" in others else ""
            print(f"{name}: status {status}, {evaluations} evaluations in {took:.2f} s{told}", flush=True)
    print(f"{ended} of {len(SYSTEMS)} ended with status {NONE}")


if __name__ == "__main__":
    if len(sys.argv) < 2 or not set(sys.argv[2:]) <= {EXACT, "highs"}:
        raise SystemExit(__doc__)
    main(sys.argv[1], sys.argv[2:])
