#!/usr/bin/env python3
"""Compares the exact value of small units, as unit_exact finds it, with a plain enumeration of their schedules.

    python3 bench/exact_least.py [COUNT [SEED]]     # at the top of the repository, with `rt` on the path

A unit has up to 3 MW above its minimum, two convex segments, minimum times, a start cost and up to three hours, and each hour may be
decided. Enumerated are all patterns that keep M1 to M5 and M7 and what is decided, with all outputs and reserves in whole megawatts
that keep M9 to M12: where the numbers are whole megawatts, so is a least schedule. Asked is that both have the same value or none, and
that the pattern that is found has a schedule of that value. The program keeps the checks of `rt try`; nothing is proved here, see
`unproved.py`.
"""
import itertools
import json
import pathlib
import random
import sys
import tempfile
from fractions import Fraction
from math import floor

import exact_values
import unproved

MEGA = 1_000_000
LIBRARIES = "cert_text cost_curves dual_model instance state_walk uc_model unit_exact".split()

PROGRAM = """#![tactic(auto)]

use cert_text::read;
use cost_curves::Curve;
use dual_model::{Fix, Table};
use instance::read_instance;
use state_walk::{ExactWalk, least_exact};
use std::alloc::Global;
use std::env;
use std::fs;
use std::io;
use uc_model::{Instance, Pattern};
use unit_exact::{Exact, least};

// The bits of a pattern, one behind the other.
fn bits(word: &str) -> Pattern {
    let mut pattern = Pattern::all_off();
    for (t, bit) in word.bytes().enumerate() {
        if bit == b'1' {
            pattern.switch_on(t as u32);
        }
    }
    pattern
}

// The exact value of the first unit and its pattern, the solver's way, and the value the checker's way.
fn found(alloc: Global, instance: &Instance, table: &Table, fix: &Fix) -> Option<(Option<(i128, Pattern)>, Option<i128>)> {
    let unit = instance.thermal.as_slice().first()?;
    let points = unit.points.as_slice().len();
    let curve = Curve::of(alloc, unit.points.as_slice()).ok()?;
    let mut exact = Exact::new(alloc, instance.periods as usize, points).ok()?;
    let mut walk = ExactWalk::new(alloc, instance.periods as usize, points).ok()?;
    let forward = least(&mut exact, instance, &curve, table, 0, fix);
    Some((forward, least_exact(&mut walk, instance, &curve, table, 0, fix)))
}

fn main(rt: HostRuntime) -> io::Result<()> {
    let alloc = rt.alloc();
    let count = env::args(&rt)?.nth(1).and_then(|word| word.as_str().parse().ok()).unwrap_or(0);
    for number in 0..count {
        let number: u32 = number;
        let instance = read_instance(alloc, &fs::read(&rt, format!(in alloc; "{number}.json")?.as_str())?, false);
        let cert = read(alloc, &fs::read(&rt, format!(in alloc; "{number}.cert")?.as_str())?);
        let words = fs::read_to_string(&rt, format!(in alloc; "{number}.fix")?.as_str())?;
        let (known, on) = words.split_once(' ').unwrap_or(("", ""));
        let fix = Fix { known: bits(known), on: bits(on) };
        if let (Ok((instance, _)), Ok(cert)) = (instance, cert) {
            if let Some(table) = cert.tables.as_slice().first() {
                match found(alloc, &instance, table, &fix) {
                    Some((Some((value, pattern)), Some(back))) => println!(rt; "{value} {} {back}", pattern.low)?,
                    Some((None, None)) => println!(rt; "none")?,
                    Some(_) => println!(rt; "both")?,
                    None => println!(rt; "no memory")?,
                }
                continue;
            }
        }
        println!(rt; "refused")?;
    }
    Ok(())
}
"""


def lasts(states, state, initial, left, most):
    """Whether each stay in the state lasts: the first one so many periods more, and each that begins at least the most."""
    before, since = initial, None
    for t, now in enumerate(states):
        if before == state and now != state and (t < left if since is None else t - since < most):
            return False
        if now == state and before != state:
            since = t
        before = now
    return True


def is_allowed(unit, pattern, known, on):
    """M1 to M5 and M7, and what is decided."""
    if unit["must_run"] and not all(pattern) or any(k and p != o for p, k, o in zip(pattern, known, on)):
        return False
    up, down = max(unit["ut"] - unit["ut0"], 0), max(unit["dt"] - unit["dt0"], 0)
    if not lasts(pattern, True, unit["on0"], up, unit["ut"]) or not lasts(pattern, False, unit["on0"], down, unit["dt"]):
        return False
    stop = max(unit["pmax"] - unit["sd"], 0) * (unit["on0"] and not pattern[0])
    return not unit["on0"] or unit["p0"] - unit["pmin"] <= unit["pmax"] - unit["pmin"] - stop


def values(unit, k, pi, mu, known, on):
    """The least value of each allowed pattern that has a schedule."""
    most, best = unit["pmax"] - unit["pmin"], {}
    for pattern in itertools.product((False, True), repeat=len(pi)):
        if not is_allowed(unit, pattern, known, on):
            continue
        starts = sum(now and not before for before, now in zip((unit["on0"], *pattern), pattern))
        choices = [[(p, r) for p in range(most + 1) for r in range(most + 1 - p)] if now else [(0, 0)] for now in pattern]
        for cells in itertools.product(*choices):
            if exact_values.reaches(unit, pattern, 1, [p for p, _ in cells], [r for _, r in cells]):
                value = k * unit["start"] * starts + sum(
                    exact_values.floored(unit, k, 1, p) - pi[t] * (p + unit["pmin"]) - mu[t] * r
                    for t, (p, r) in enumerate(cells) if pattern[t])
                best[pattern] = min(best.get(pattern, value), value)
    return best


def drawn(chance):
    """A unit in megawatts and dollars; its slopes are halves, so that K times one may not be whole."""
    pmin, width, on0 = chance.randint(0, 2), chance.randint(1, 3), chance.random() < 0.6
    first, cost = Fraction(chance.randint(-4, 4), 2), chance.randint(-3, 3)
    rising, cut = first + Fraction(chance.randint(0, 3), 2), chance.randint(0, width)
    return {"pmin": pmin, "pmax": pmin + width, "ru": chance.randint(0, 2), "rd": chance.randint(0, 2), "on0": on0,
            "su": pmin + chance.randint(0, 3), "sd": pmin + chance.randint(0, 3), "must_run": chance.random() < 0.1,
            "p0": pmin + chance.randint(-1 if pmin else 0, width) if on0 else 0, "start": chance.randint(0, 4),
            "ut": chance.randint(1, 3), "dt": chance.randint(1, 3), "ut0": chance.randint(1, 3) if on0 else 0,
            "dt0": 0 if on0 else chance.randint(1, 3), "cost": cost, "slopes": [first] * cut + [rising] * (width - cut)}


def points(unit):
    """The points of the production cost: one for each megawatt."""
    heights = itertools.accumulate(unit["slopes"], initial=Fraction(unit["cost"]))
    return [{"mw": unit["pmin"] + x, "cost": float(height)} for x, height in enumerate(heights)]


def instance(unit, hours):
    record = {"must_run": int(unit["must_run"]), "power_output_minimum": unit["pmin"], "power_output_maximum": unit["pmax"],
              "ramp_up_limit": unit["ru"], "ramp_down_limit": unit["rd"], "ramp_startup_limit": unit["su"],
              "ramp_shutdown_limit": unit["sd"], "time_up_minimum": unit["ut"], "time_down_minimum": unit["dt"],
              "power_output_t0": unit["p0"], "unit_on_t0": int(unit["on0"]), "time_up_t0": unit["ut0"], "time_down_t0": unit["dt0"],
              "startup": [{"lag": 1, "cost": unit["start"]}], "piecewise_production": points(unit)}
    return json.dumps({"time_periods": hours, "demand": [0] * hours, "reserves": [0] * hours, "thermal_generators": {"g": record},
                       "renewable_generators": {}})


def certificate(hours, k, pi, mu):
    table = f"table {k}\npi {' '.join(map(str, pi))}\nmu {' '.join(map(str, mu))}\nramps 0\n"
    return f"uc-certificate 1\nsize {hours} 1 0 1\nclaim bound 0.000000\nschedule none\n{table}bound 1\nend\n"


def word(bits):
    return "".join("01"[bit] for bit in bits)


def wrong_of(answer, best):
    """What is wrong with an answer, of the least values of all patterns."""
    if answer == "none":
        return "none is found" if best else None
    if answer == "both":
        return "one way finds a value, the other none"
    value, pattern, back = map(int, answer.split())
    if not best or {value, back} != {MEGA * min(best.values())}:
        return f"{value} is found, and {back} the checker's way"
    mine = [bits for bits, least in best.items() if sum(bit << t for t, bit in enumerate(bits)) == pattern and MEGA * least == value]
    return None if mine else f"pattern {pattern} is found, which costs otherwise"


def main(count=1000, seed=1):
    chance, cases, wrong, none = random.Random(seed), [], 0, 0
    with tempfile.TemporaryDirectory() as name:
        folder = pathlib.Path(name)
        (folder / "built").mkdir()
        program = unproved.build(folder / "built", LIBRARIES, PROGRAM, True)
        for number in range(count):
            unit, hours, k = drawn(chance), chance.randint(1, 3), chance.randint(0, 3)
            pi, mu = [chance.randint(-4, 4) for _ in range(hours)], [chance.randint(0, 3) for _ in range(hours)]
            known = [chance.random() < 0.15 for _ in range(hours)]
            on = [bit and chance.random() < 0.5 for bit in known]
            (folder / f"{number}.json").write_text(instance(unit, hours))
            (folder / f"{number}.cert").write_text(certificate(hours, k, pi, mu))
            (folder / f"{number}.fix").write_text(f"{word(known)} {word(on)}")
            cases.append((unit, k, pi, mu, known, on))
        answers = unproved.run(program, folder, [str(count)])[0].splitlines()
    for number, (case, answer) in enumerate(zip(cases, answers, strict=True)):
        best = values(*case)
        none += not best
        fault = wrong_of(answer, best)
        if fault:
            wrong += 1
            print(f"unit {number}: {fault}, and {MEGA * min(best.values()) if best else 'none'} by enumeration: {case}")
    print(f"{count} units, {none} without a schedule, {wrong} with another value or pattern")
    return wrong


if __name__ == "__main__":
    sys.exit(main(*map(int, sys.argv[1:])) > 0)
