#!/usr/bin/env python3
"""Compares the exact values of units as the solver finds them with those that the checker finds, and times both, on instance files.

    python3 bench/exact_ways.py CASE.json ..     # at the top of the repository, with `rt` on the path

At three tables, of 0.9, 1 and 1.1 times the prices in order of merit and of drawn prices of reserve, each unit's value where nothing is
decided is found both ways; the program that compares keeps the checks of `rt try`. Then each way goes over all units at each table
in a program without these, and told is what the best of three rounds takes for one table. Nothing is proved here, see `unproved.py`.
"""
import json
import pathlib
import random
import sys
import tempfile

import unproved
import values

FACTORS, ROUNDS = (0.9, 1, 1.1), 3
LIBRARIES = "cert_text cost_curves dual_model instance state_walk uc_model unit_exact".split()

PROGRAM = """#![tactic(auto)]

use cert_text::read;
use cost_curves::curves_of;
use dual_model::{Fix, Table};
use instance::read_instance;
use state_walk::{ExactWalk, least_exact};
use std::alloc::Global;
use std::env;
use std::fs;
use std::io;
use std::time::Instant;
use uc_model::{Instance, Pattern};
use unit_exact::{Exact, least};

// The most points of a unit.
fn most_points(instance: &Instance) -> usize {
    let mut most = 0;
    for unit in instance.thermal.as_slice() {
        most = most.max(unit.points.as_slice().len());
    }
    most
}

// The values of all units at the table, in the order of the units: the solver's way, or the checker's.
fn found(alloc: Global, instance: &Instance, table: &Table, back: bool) -> Option<Vec<Option<i128>>> {
    let free = Fix { known: Pattern::all_off(), on: Pattern::all_off() };
    let curves = curves_of(alloc, instance).ok()?;
    let mut exact = Exact::new(alloc, instance.periods as usize, most_points(instance)).ok()?;
    let mut walk = ExactWalk::new(alloc, instance.periods as usize, most_points(instance)).ok()?;
    let mut values = Vec::new(alloc);
    for (g, curve) in curves.iter().enumerate() {
        let value = if back {
            least_exact(&mut walk, instance, curve, table, g as u32, &free)
        } else {
            least(&mut exact, instance, curve, table, g as u32, &free).map(|best| best.0)
        };
        values.push(value).ok()?;
    }
    Some(values)
}

// Tells of each table how many units there are, and how many values are the same.
fn compare(rt: &HostRuntime, instance: &Instance, tables: &[Table]) -> io::Result<()> {
    for table in tables {
        let forward = found(rt.alloc(), instance, table, false);
        let back = found(rt.alloc(), instance, table, true);
        if let (Some(forward), Some(back)) = (forward, back) {
            let mut same = 0_u64;
            for g in 0..forward.len() {
                if forward[g] == back[g] {
                    same += 1;
                }
            }
            println!(rt; "{} {same}", forward.len())?;
        }
    }
    Ok(())
}

// Tells how many nanoseconds each way takes over all tables.
fn time(rt: &HostRuntime, instance: &Instance, tables: &[Table]) -> io::Result<()> {
    for back in [false, true] {
        let start = Instant::now(rt)?;
        let mut some = 0_u64;
        for table in tables {
            if found(rt.alloc(), instance, table, back).is_some() {
                some += 1;
            }
        }
        let time = start.elapsed(rt)?.as_nanos();
        println!(rt; "{time} {some}")?;
    }
    Ok(())
}

fn main(rt: HostRuntime) -> io::Result<()> {
    let instance = read_instance(rt.alloc(), &fs::read(&rt, "instance.json")?, false);
    let cert = read(rt.alloc(), &fs::read(&rt, "tables.cert")?);
    let rounds: u32 = env::args(&rt)?.nth(1).and_then(|word| word.as_str().parse().ok()).unwrap_or(0);
    if let (Ok((instance, _)), Ok(cert)) = (instance, cert) {
        if rounds == 0 {
            compare(&rt, &instance, cert.tables.as_slice())?;
        }
        for _ in 0..rounds {
            time(&rt, &instance, cert.tables.as_slice())?;
        }
    }
    Ok(())
}
"""


def tables(made):
    hours = range(made["time_periods"])
    return [values.table([factor * it for it in values.merit_prices(made)], [3 * random.random() for _ in hours], []) for factor in FACTORS]


def main():
    random.seed(1)
    wrong = 0
    with tempfile.TemporaryDirectory() as name:
        top = pathlib.Path(name)
        comparing = unproved.build(top / "comparing", LIBRARIES, PROGRAM, checks=True)
        timing = unproved.build(top / "timing", LIBRARIES, PROGRAM, checks=False)
        for file in map(pathlib.Path, sys.argv[1:]):
            made = json.loads(file.read_text())
            (top / "instance.json").write_bytes(file.read_bytes())
            (top / "tables.cert").write_text(values.certificate(made, tables(made)))
            rows = [tuple(map(int, row.split())) for row in unproved.run(comparing, top, ["0"])[0].splitlines()]
            differ = sum(units - same for units, same in rows)
            wrong += differ + (len(rows) != len(FACTORS))
            print(f"{file.name}: {rows[0][0] if rows else 0} units at {len(rows)} tables, {differ} values differ")
            times = [int(row.split()[0]) / 1e6 / len(FACTORS) for row in unproved.run(timing, top, [str(ROUNDS)])[0].splitlines()]
            print(f"{file.name}: {min(times[::2]):.2f} ms a table the solver's way, {min(times[1::2]):.2f} the checker's", flush=True)
    return wrong


if __name__ == "__main__":
    sys.exit(main() > 0)
