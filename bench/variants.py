#!/usr/bin/env python3
"""Makes other systems of an instance file, to measure the search on more than it was tuned on.

    python3 bench/variants.py CASE.json OUT.json [copies=N] [ramps=PART] [units=N] [slow=LOW:HIGH] [reserve=PART] [wind=PART]
        [must=N] [costs=PART] [hours=N] [short=N] [seed=N]

- copies=N: N of each thermal unit, with N times the demand and reserve.
- ramps=PART: each unit's ramps are this part of its greatest output, and so are its startup and shutdown limits where that is above its
  minimum; else these are its minimum.
- units=N: so many of the thermal units, by chance, with demand and renewable outputs in proportion to their greatest outputs, demand 5 %
  lower and moved by up to 2 % in each period.
- slow=LOW:HIGH: half of the units, by chance, have ramps of a part of their range between these.
- reserve=PART: reserve is this part of demand.
- wind=PART: renewable units give so many times as much, at least and at most.
- must=N: so many of the units, by chance, must run, which begin as they do.
- costs=PART: each unit's production costs and starts are dearer or cheaper by up to this part, by chance.
- hours=N: so many hours, the hours of the file one after another and then anew, with demand and reserve by the days of a week.
- short=N: in the N hours of greatest demand, demand is a tenth above what all units can give, in whole megawatts.

They are made in the order in which they stand. All chance hangs on the seed, 0 where none is given.
"""
import json
import math
import pathlib
import random
import sys

THERMAL, RENEWABLE = "thermal_generators", "renewable_generators"
DECIMALS = 6

# How much is wanted on the days of a week, from a Monday on.
WEEK = 1, 1.01, 1.02, 1.01, 0.99, 0.9, 0.86


def copied(case, count):
    case["demand"] = [it * count for it in case["demand"]]
    case["reserves"] = [it * count for it in case["reserves"]]
    case[THERMAL] = {f"{name}_{i}": dict(unit) for i in range(count) for name, unit in case[THERMAL].items()}


def ramped(case, part):
    for unit in case[THERMAL].values():
        ramp = round(unit["power_output_maximum"] * part, DECIMALS)
        unit["ramp_up_limit"] = unit["ramp_down_limit"] = ramp
        unit["ramp_startup_limit"] = unit["ramp_shutdown_limit"] = max(unit["power_output_minimum"], ramp)


def most(case):
    return sum(it["power_output_maximum"] for it in case[THERMAL].values())


def chosen(case, count, chance):
    before = most(case)
    names = sorted(case[THERMAL])
    chance.shuffle(names)
    case[THERMAL] = {name: case[THERMAL][name] for name in names[:count]}
    part = most(case) / before
    case["demand"] = [round(it * part * 0.95 * (1 + 0.02 * chance.uniform(-1, 1)), DECIMALS) for it in case["demand"]]
    for unit in case[RENEWABLE].values():
        for end in ("minimum", "maximum"):
            unit[f"power_output_{end}"] = [round(it * part, DECIMALS) for it in unit[f"power_output_{end}"]]


def slowed(case, low, high, chance):
    for unit in case[THERMAL].values():
        if chance.random() < 0.5:
            span = unit["power_output_maximum"] - unit["power_output_minimum"]
            unit["ramp_up_limit"] = unit["ramp_down_limit"] = round(span * chance.uniform(low, high), DECIMALS)


def windy(case, part):
    for unit in case[RENEWABLE].values():
        for end in ("minimum", "maximum"):
            unit[f"power_output_{end}"] = [round(it * part, DECIMALS) for it in unit[f"power_output_{end}"]]


def running(case, count, chance):
    begun = sorted(name for name, unit in case[THERMAL].items() if unit["unit_on_t0"])
    for name in chance.sample(begun, min(count, len(begun))):
        case[THERMAL][name]["must_run"] = 1


def priced(case, part, chance):
    for unit in case[THERMAL].values():
        times = 1 + part * chance.uniform(-1, 1)
        for point in (*unit["piecewise_production"], *unit["startup"]):
            point["cost"] = round(point["cost"] * times, DECIMALS)


def repeated(case, hours):
    before = case["time_periods"]
    case["time_periods"] = hours
    for name in ("demand", "reserves"):
        case[name] = [round(case[name][t % before] * WEEK[t // 24 % 7], DECIMALS) for t in range(hours)]
    for unit in case[RENEWABLE].values():
        for end in ("minimum", "maximum"):
            unit[f"power_output_{end}"] = [unit[f"power_output_{end}"][t % before] for t in range(hours)]


def lacking(case, count):
    hours = sorted(range(case["time_periods"]), key=lambda t: -case["demand"][t])
    for t in hours[:count]:
        given = most(case) + sum(it["power_output_maximum"][t] for it in case[RENEWABLE].values())
        case["demand"][t] = math.ceil(1.1 * given)


def main(source, target, options):
    case = json.loads(pathlib.Path(source).read_text())
    given = dict(option.split("=") for option in options)
    chance = random.Random(int(given.pop("seed", 0)))
    for name, value in given.items():
        if name == "copies":
            copied(case, int(value))
        elif name == "ramps":
            ramped(case, float(value))
        elif name == "units":
            chosen(case, int(value), chance)
        elif name == "slow":
            slowed(case, *map(float, value.split(":")), chance)
        elif name == "wind":
            windy(case, float(value))
        elif name == "must":
            running(case, int(value), chance)
        elif name == "costs":
            priced(case, float(value), chance)
        elif name == "hours":
            repeated(case, int(value))
        elif name == "short":
            lacking(case, int(value))
        elif name == "reserve":
            case["reserves"] = [round(float(value) * it, DECIMALS) for it in case["demand"]]
        else:
            raise SystemExit(__doc__)
    pathlib.Path(target).write_text(json.dumps(case))


if __name__ == "__main__":
    if len(sys.argv) < 4:
        raise SystemExit(__doc__)
    main(sys.argv[1], sys.argv[2], sys.argv[3:])
