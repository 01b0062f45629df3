#!/usr/bin/env python3
"""Repairs of small random instances beside their best schedules, which are found by enumeration.

    python3 bench/random_repairs.py [COUNT [SEED]] [falling] [priced]     # at the top of the repository, with `rt` on the path

An instance has up to three units and four hours, and whole megawatts. Its best schedule in whole megawatts is the least over all allowed
patterns of all outputs that keep the rules. Told are of how many instances with such a schedule a repair found one, and how many of those
cost no more. A repair may also find cheaper ones, between whole megawatts. With `falling` costs may fall as outputs rise, and there is
always a renewable unit, of up to 8 MW. With `priced` unserved demand, missing reserve or both have a price, and demand and reserve are more
by chance, so that they may be above what all units give. Nothing is proved here, see `unproved.py`.
"""
import itertools
import json
import pathlib
import random
import subprocess
import sys
import tempfile
from fractions import Fraction

import unproved

PRICES = [1, 8, 25, 60, 1000]
LIBRARIES = "dual_model instance prices schedule_repair uc_model".split()

PROGRAM = """#![tactic(auto)]

use dual_model::Node;
use instance::read_instance;
use prices::{CutPool, Effort, Values, ascend, zero};
use schedule_repair::{Repair, repair};
use std::alloc::Global;
use std::fs;
use std::io;
use uc_model::{Instance, List};

// The cost of the schedule that a repair finds.
fn cost(alloc: Global, instance: &Instance) -> Option<i64> {
    let root = Node { fixings: List::from_vec(Vec::new(alloc)) };
    let table = zero(alloc, instance).ok()?;
    let effort = Effort { evaluations: 40, enough: i128::MAX };
    let ascent = ascend(alloc, Values { instance, exact: false }, &mut CutPool::closed(alloc), &root, &table, effort, 1_000_000).ok()?;
    let mut room = Repair::new(alloc, instance).ok()?;
    let (_, cost) = repair(alloc, &mut room, instance, &ascent.table, &ascent.shares, 3000, i64::MIN).ok()??;
    Some(cost)
}

const PRICES: [(u32, u32); COUNT] = [PAIRS];

fn main(rt: HostRuntime) -> io::Result<()> {
    for number in 0..COUNT_usize {
        let name = format!(in rt.alloc(); "{number}.json")?;
        match read_instance(rt.alloc(), &fs::read(&rt, name.as_str())?, false) {
            Ok((mut instance, _)) => {
                instance.a = PRICES[number].0;
                instance.b = PRICES[number].1;
                match cost(rt.alloc(), &instance) {
                    Some(cost) => println!(rt; "{cost}")?,
                    None => println!(rt; "none")?,
                }
            }
            Err(_) => println!(rt; "refused")?,
        }
    }
    Ok(())
}
"""


def random_unit(chance, falling):
    low = chance.randint(1, 3)
    high = low + chance.randint(0, 4)
    outputs = sorted(chance.sample(range(low, high + 1), min(chance.randint(1, 3), high - low + 1)) + [low, high])
    cost, points = chance.randint(0, 30), []
    for output in sorted(set(outputs)):
        points.append({"mw": output, "cost": cost})
        cost += chance.randint(-40 if falling else 0, 60)
    on = chance.random() < 0.6
    startup = [{"lag": chance.randint(1, 2), "cost": chance.randint(0, 40)}]
    if chance.random() < 0.5:
        startup.append({"lag": startup[0]["lag"] + chance.randint(1, 2), "cost": chance.randint(0, 80)})
    return {
        "must_run": int(chance.random() < 0.1), "power_output_minimum": low, "power_output_maximum": high,
        "ramp_up_limit": chance.randint(1, 5), "ramp_down_limit": chance.randint(1, 5),
        "ramp_startup_limit": low + chance.randint(0, 4), "ramp_shutdown_limit": low + chance.randint(0, 4),
        "time_up_minimum": chance.randint(1, 3), "time_down_minimum": chance.randint(1, 3),
        "power_output_t0": chance.randint(low, high) if on else 0, "unit_on_t0": int(on),
        "time_up_t0": chance.randint(1, 3) if on else 0, "time_down_t0": 0 if on else chance.randint(1, 3),
        "startup": startup, "piecewise_production": points,
    }


def random_instance(chance, falling=False):
    periods, units = chance.choice([(1, 1), (1, 3), (2, 2), (2, 3), (3, 1), (3, 2), (4, 1), (4, 2)])
    thermal = {f"g{g}": random_unit(chance, falling) for g in range(units)}
    most = sum(it["power_output_maximum"] for it in thermal.values())
    renewable = {}
    if falling or chance.random() < 0.4:
        free = [chance.randint(0, 8 if falling else 3) for _ in range(periods)]
        renewable["w"] = {"power_output_minimum": [0] * periods, "power_output_maximum": free}
    return {
        "time_periods": periods, "demand": random_demand(chance, thermal, periods, most),
        "reserves": [chance.choice([0, 0, 1, 2]) for _ in range(periods)],
        "thermal_generators": thermal, "renewable_generators": renewable,
    }


def random_demand(chance, thermal, periods, most):
    """What the units give initially, and changes from hour to hour."""
    demand, given = [], sum(it["power_output_t0"] for it in thermal.values())
    for _ in range(periods):
        given = min(max(given + chance.randint(-3, 3), 1), most)
        demand.append(given)
    return demand


def hull(unit, power):
    """The least cost in micro-dollars of weights on the points at an output above the first one, rounded up."""
    first = unit["piecewise_production"][0]["mw"]
    points = [(it["mw"] - first, it["cost"]) for it in unit["piecewise_production"]]
    costs = [Fraction(c) for x, c in points if x == power]
    for (x, c), (y, d) in itertools.combinations(points, 2):
        if x < power < y:
            costs.append(c + Fraction(d - c, y - x) * (power - x))
    return -((-min(costs) * 10**6) // 1) if costs else None


def is_allowed(unit, on, periods):
    before = unit["unit_on_t0"]
    states = [before, *on]
    starts = [int(not a and b) for a, b in zip(states, on)]
    stops = [int(a and not b) for a, b in zip(states, on)]
    up, down = unit["time_up_minimum"], unit["time_down_minimum"]
    if unit["must_run"] and not all(on):
        return False
    if before and not all(on[:max(min(up - unit["time_up_t0"], periods), 0)]):
        return False
    if not before and any(on[:max(min(down - unit["time_down_t0"], periods), 0)]):
        return False
    for t in range(min(up, periods) - 1, periods):
        if sum(starts[t - min(up, periods) + 1:t + 1]) > on[t]:
            return False
    for t in range(min(down, periods) - 1, periods):
        if sum(stops[t - min(down, periods) + 1:t + 1]) > 1 - on[t]:
            return False
    width = unit["power_output_maximum"] - unit["power_output_minimum"]
    given = unit["power_output_t0"] - unit["power_output_minimum"] if before else 0
    return given <= before * width - max(unit["power_output_maximum"] - unit["ramp_shutdown_limit"], 0) * stops[0]


def caps(unit, on, periods):
    width = unit["power_output_maximum"] - unit["power_output_minimum"]
    starting = max(unit["power_output_maximum"] - unit["ramp_startup_limit"], 0)
    stopping = max(unit["power_output_maximum"] - unit["ramp_shutdown_limit"], 0)
    states, found = [unit["unit_on_t0"], *on], []
    for t in range(periods):
        cap = width * on[t] - starting * (not states[t] and on[t])
        if t + 1 < periods:
            cap = min(cap, width * on[t] - stopping * (on[t] and not on[t + 1]))
        found.append(cap)
    return found


def start_cost(unit, on, periods):
    states, rows, total = [unit["unit_on_t0"], *on], unit["startup"], 0
    stops = {t for t in range(1, periods + 1) if states[t - 1] and not states[t]}
    for t in range(1, periods + 1):
        if states[t - 1] or not states[t]:
            continue
        costs = [rows[-1]["cost"]]
        for s in range(len(rows) - 1):
            lag, after = rows[s]["lag"], rows[s + 1]["lag"]
            if t >= after:
                allowed = any(t - i in stops for i in range(lag, after))
            else:
                allowed = not max(1, after - unit["time_down_t0"] + 1) <= t <= min(after - 1, periods)
            if allowed:
                costs.append(rows[s]["cost"])
        total += min(costs) * 10**6
    return total


def with_prices(chance, instance):
    """Prices of unserved demand and of missing reserve, of which one may be 0; the instance may want more than all units give then."""
    for name, most in (("demand", 5), ("reserves", 3)):
        instance[name] = [it + chance.choice([0, 0, chance.randint(0, most)]) for it in instance[name]]
    prices = [chance.choice(PRICES), chance.choice(PRICES)]
    if chance.random() < 0.5:
        prices[chance.randrange(2)] = 0
    return tuple(prices)


def best_cost(instance, prices=(0, 0)):
    """The cost of the best schedule in whole megawatts, or None, at prices of unserved demand and of missing reserve."""
    periods, units = instance["time_periods"], list(instance["thermal_generators"].values())
    free = [sum(it["power_output_maximum"][t] for it in instance["renewable_generators"].values()) for t in range(periods)]
    choices = []
    for unit in units:
        rows = [on for on in itertools.product((0, 1), repeat=periods) if is_allowed(unit, on, periods)]
        choices.append([(on, caps(unit, on, periods), start_cost(unit, on, periods)) for on in rows if min(caps(unit, on, periods)) >= 0])
    best = None
    first = tuple((it["power_output_t0"] - it["power_output_minimum"]) * it["unit_on_t0"] for it in units)
    hulls = [[hull(it, p) for p in range(it["power_output_maximum"] - it["power_output_minimum"] + 1)] for it in units]
    for commitment in itertools.product(*choices):
        states = {first: sum(starts for _, _, starts in commitment)}
        for t in range(periods):
            wanted = instance["demand"][t], instance["reserves"][t]
            states = next_states(units, hulls, commitment, t, (*wanted, free[t]), prices, states)
        if states and (best is None or min(states.values()) < best):
            best = min(states.values())
    return best


def lack(amount, price):
    """What it costs in micro-dollars that so many megawatts are short; None where some are and have no price."""
    return max(amount, 0) * price * 10**6 if price or amount <= 0 else None


def next_states(units, hulls, commitment, t, hour, prices, states):
    demand, need, free = hour
    floor = sum(unit["power_output_minimum"] * on[t] for unit, (on, _, _) in zip(units, commitment))
    left, found = demand - floor, {}
    ranges = [range(row[t] + 1) if on[t] else (0,) for on, row, _ in commitment]
    for powers in itertools.product(*ranges):
        shed = lack(left - sum(powers) - free, prices[0])
        if sum(powers) > left or shed is None:
            continue
        cost = shed + sum(costs[p] for costs, p, (on, _, _) in zip(hulls, powers, commitment) if on[t])
        for before, so_far in states.items():
            reserve = 0
            for unit, p, last, (on, row, _) in zip(units, powers, before, commitment):
                head = min(row[t] if on[t] else 0, last + unit["ramp_up_limit"])
                if p > head or last - p > unit["ramp_down_limit"]:
                    break
                reserve += head - p if on[t] else 0
            else:
                short = lack(need - reserve, prices[1])
                if short is not None and so_far + cost + short < found.get(powers, so_far + cost + short + 1):
                    found[powers] = so_far + cost + short
    return found


def source(prices):
    """The program for instances with these prices."""
    pairs = ", ".join(f"({a}, {b})" for a, b in prices)
    return PROGRAM.replace("PAIRS", pairs).replace("COUNT", str(len(prices)))


def main(count, seed, falling, priced):
    chance = random.Random(seed)
    instances = [random_instance(chance, falling) for _ in range(count)]
    prices = [with_prices(chance, it) if priced else (0, 0) for it in instances]
    with tempfile.TemporaryDirectory() as made:
        folder = pathlib.Path(made)
        program = unproved.build(folder, LIBRARIES, source(prices), checks=True)
        for number, instance in enumerate(instances):
            (folder / f"{number}.json").write_text(json.dumps(instance))
        ran = subprocess.run([program], cwd=folder, capture_output=True, text=True, check=True)
        found = ran.stdout.split()
    possible, missed, equal, worst = 0, [], 0, Fraction(0)
    for number, (instance, cost) in enumerate(zip(instances, found)):
        best = best_cost(instance, prices[number])
        if best is None:
            continue
        possible += 1
        if cost == "none":
            missed.append(number)
        elif int(cost) <= best:
            equal += 1
        else:
            worst = max(worst, Fraction(int(cost) - best, max(best, 1)))
    print(f"{possible} of {count} have a schedule; found {possible - len(missed)}, of which {equal} cost no more; at most {float(worst):.3f} above")
    print(f"refused {found.count('refused')}; missed: {' '.join(map(str, missed))}")


if __name__ == "__main__":
    words = [it for it in sys.argv[1:] if it not in ("falling", "priced")]
    main(*(int(it) for it in (words + ["1000", "1"][len(words):])), "falling" in sys.argv, "priced" in sys.argv)
