#!/usr/bin/env python3
"""Compares the values of units along paths with those of walks, and times the values of the root, on instance files.

    python3 bench/values.py CASE.json ..     # at the top of the repository, with `rt` on the path

At three tables with prices of demand and reserve and ramp rows of each unit, the unit's least value along a path is compared with
the walk's, and with the cost of the path's pattern: the walk's value where all periods are decided as the pattern has them. That
program keeps the checks of `rt try`. Then `value_in` is timed at the root, with lent room, at a hundred tables: at 0.9 to 1.1 times
the prices in order of merit, which are those at full load of the unit with which the greatest outputs, cheapest first, reach demand
and reserve less the most of the renewable units. Told are the mean over the tables in the best round, the most that the room and
the values hold on the heap beside the instance's numbers at 8 bytes each, and the program's greatest resident memory, reading
included. Then `exact_value` is timed at the same tables, in turn with `value_in`, and its time is told as a multiple. The tables reach
the programs as certificates. Nothing is proved here, see `unproved.py`.
"""
import json
import pathlib
import random
import sys
import tempfile

import heap
import unproved

SCALE, TABLES, CELLS = 1_000_000, 100, 500_000
LIBRARIES = "cert_text cost_curves dual_model dual_value instance period_term ramp_duals state_walk uc_model unit_path".split()

COMPARING = """#![tactic(auto)]

use cert_text::read;
use cost_curves::Curve;
use dual_model::{Fix, Table};
use instance::read_instance;
use period_term::terms;
use ramp_duals::fill;
use state_walk::Walk;
use std::alloc::Global;
use std::fs;
use std::io;
use uc_model::{Instance, Pattern, Terms, Thermal};
use unit_path::Scratch;

// The terms of unit g, from 0, at the table.
fn unit_terms(alloc: Global, instance: &Instance, table: &Table, g: usize) -> Option<Terms> {
    let unit = &instance.thermal.as_slice()[g];
    let curve = Curve::of(alloc, unit.points.as_slice()).ok()?;
    let mut rows = vec![in alloc; (0_i128, 0_i128, 0_i128); instance.periods as usize].ok()?;
    fill(rows.as_mut_slice(), table, g as u32);
    terms(alloc, unit, &curve, table.k(), &rows).ok()
}

// All periods are decided as the pattern has them.
fn decided(pattern: Pattern, periods: u32) -> Fix {
    let mut known = Pattern::all_off();
    for t in 0..periods {
        known.switch_on(t);
    }
    Fix { known, on: pattern }
}

// Whether the unit's value is the walk's, and its pattern costs as much.
fn is_same(scratch: &mut Scratch, walk: &mut Walk, terms: &Terms, unit: &Thermal, periods: u32) -> bool {
    let free = Fix { known: Pattern::all_off(), on: Pattern::all_off() };
    let walked = state_walk::least(walk, terms, unit, &free);
    match unit_path::least(scratch, terms, unit, &free) {
        None => walked.is_none(),
        Some((value, pattern)) => {
            let cost = state_walk::least(walk, terms, unit, &decided(pattern, periods));
            walked == Some(value) && cost == Some(value)
        }
    }
}

// How many units were compared at a table, each as often as there are tables, and how many of them had the same value.
fn compared(alloc: Global, instance: &Instance, tables: &[Table]) -> Option<(u64, u64)> {
    let periods = instance.periods as usize;
    let mut scratch = Scratch::new(alloc, periods).ok()?;
    let mut walk = Walk::new(alloc, periods).ok()?;
    let mut count = 0_u64;
    let mut same = 0_u64;
    for table in tables {
        for (g, unit) in instance.thermal.as_slice().iter().enumerate() {
            let terms = unit_terms(alloc, instance, table, g)?;
            count += 1;
            if is_same(&mut scratch, &mut walk, &terms, unit, instance.periods) {
                same += 1;
            }
        }
    }
    Some((count, same))
}

fn main(rt: HostRuntime) -> io::Result<()> {
    let instance = read_instance(rt.alloc(), &fs::read(&rt, "instance.json")?, false);
    let cert = read(rt.alloc(), &fs::read(&rt, "tables.cert")?);
    if let (Ok((instance, _)), Ok(cert)) = (instance, cert) {
        if let Some((count, same)) = compared(rt.alloc(), &instance, cert.tables.as_slice()) {
            println!(rt; "{count} {same}")?;
        }
    }
    Ok(())
}
"""

TIMING = """#![tactic(auto)]

use cert_text::read;
use dual_model::{Node, Table};
use dual_value::{Room, value_in};
use instance::read_instance;
use std::alloc::Global;
use std::env;
use std::fs;
use std::io;
use std::time::Instant;
use uc_model::{Instance, List};
use unit_path::Scratch;

// The sum of the root's values at the tables.
fn values(alloc: Global, scratch: &mut Scratch, room: &mut Room, instance: &Instance, tables: &[Table]) -> Option<i128> {
    let root = Node { fixings: List::from_vec(Vec::new(alloc)) };
    let mut sum: i128 = 0;
    for table in tables {
        sum += value_in(alloc, scratch, room, instance, &root, table).ok()?.total;
    }
    Some(sum)
}

// Tells how many nanoseconds it took to make the room, and then each of so many rounds.
fn time_rounds(rt: &HostRuntime, instance: &Instance, tables: &[Table], rounds: u64) -> io::Result<()> {
    let alloc = rt.alloc();
    let start = Instant::now(rt)?;
    let scratch = Scratch::new(alloc, instance.periods as usize);
    let room = Room::new(alloc, instance);
    let time = start.elapsed(rt)?.as_nanos();
    println!(rt; "{time}")?;
    if let (Ok(mut scratch), Ok(mut room)) = (scratch, room) {
        for _ in 0..rounds {
            let start = Instant::now(rt)?;
            let sum = values(alloc, &mut scratch, &mut room, instance, tables);
            let time = start.elapsed(rt)?.as_nanos();
            println!(rt; "{time} {sum:?}")?;
        }
    }
    Ok(())
}

fn main(rt: HostRuntime) -> io::Result<()> {
    let instance = read_instance(rt.alloc(), &fs::read(&rt, "instance.json")?, false);
    let cert = read(rt.alloc(), &fs::read(&rt, "tables.cert")?);
    let rounds = env::args(&rt)?.nth(1).and_then(|word| word.as_str().parse().ok()).unwrap_or(0);
    match (instance, cert) {
        (Ok((instance, _)), Ok(cert)) => time_rounds(&rt, &instance, cert.tables.as_slice(), rounds),
        _ => println!(rt; "refused"),
    }
}
"""

# The same program for exact values.
EXACT_TIMING = TIMING.replace("value_in", "exact_value").replace("Room::new", "Room::for_exact_values")


def full_load(unit):
    """What a watt costs at full load, in micro-dollars an hour."""
    last = unit["piecewise_production"][-1]
    return last["cost"] / last["mw"]


def merit_prices(made):
    """In each period what a watt costs the unit that is the last one needed in order of merit."""
    units, prices = sorted(made["thermal_generators"].values(), key=full_load), []
    for t in range(made["time_periods"]):
        free = sum(it["power_output_maximum"][t] for it in made["renewable_generators"].values())
        left, last = made["demand"][t] + made["reserves"][t] - free, units[0]
        for last in units:
            left -= last["power_output_maximum"]
            if left <= 0:
                break
        prices.append(full_load(last))
    return prices


def table(prices, reserve, ramps):
    pi = " ".join(str(round(SCALE * it)) for it in prices)
    mu = " ".join(str(round(SCALE * it)) for it in reserve)
    rows = "".join(f"ramp {g} {t} {up} {down}\n" for g, t, up, down in ramps)
    return f"table {SCALE}\npi {pi}\nmu {mu}\nramps {len(ramps)}\n{rows}"


def certificate(made, tables):
    size = f"{made['time_periods']} {len(made['thermal_generators'])} {len(made['renewable_generators'])} {len(tables)}"
    return f"uc-certificate 1\nsize {size}\nclaim bound 0.000000\nschedule none\n{''.join(tables)}bound 1\nend\n"


def drawn_table(made, factor):
    """Merit prices times the factor, reserve at up to $3 a MWh, and for each unit ramp rows in a third of the periods, up to $5."""
    periods, units = made["time_periods"], len(made["thermal_generators"])
    cells = [(g, t) for g in range(1, units + 1) for t in range(1, periods + 1) if t == 1 or random.random() < 1 / 3]
    rows = [(g, t, random.randrange(1, 5 * SCALE), random.choice((0, random.randrange(5 * SCALE)))) for g, t in cells]
    return table([factor * it for it in merit_prices(made)], [3 * random.random() for _ in range(periods)], rows)


def count_numbers(made):
    inner = made.values() if isinstance(made, dict) else made if isinstance(made, list) else ()
    return sum(map(count_numbers, inner)) + isinstance(made, (int, float))


def compare(program, folder, made):
    tables = [drawn_table(made, factor) for factor in (0.9, 1, 1.1)]
    (folder / "tables.cert").write_text(certificate(made, tables))
    count, same = map(int, unproved.run(program, folder)[0].split())
    return f"{count // len(tables)} units at {len(tables)} tables, {count - same} values or costs of patterns differ"


def measure(program, library, folder, made):
    prices, zeros = merit_prices(made), [0] * made["time_periods"]
    factors = [0.9 + 0.2 * step / (TABLES - 1) for step in range(TABLES)]
    (folder / "tables.cert").write_text(certificate(made, [table([f * it for it in prices], zeros, []) for f in factors]))
    rounds = str(max(10, CELLS // (len(made["thermal_generators"]) * made["time_periods"])))
    said, resident = unproved.run(program, folder, [rounds])
    begun, most = heap.held(program, folder, library, ["1"])
    room, *times = (int(line.split()[0]) / 1e6 for line in said.splitlines())
    added, numbers = most - begun, 8 * count_numbers(made)
    told = f"{min(times) / TABLES:.4f} ms a value, the best of {rounds} rounds; {room:.3f} ms for the room; "
    told += f"{added} bytes of heap beside {numbers} of numbers, {added / numbers:.2f} times; "
    return told + f"{resident / 1e6:.2f} MB resident"


def multiple(timing, exact, folder, rounds):
    """How many times as long exact values take, by the best rounds of both programs, which run in turn."""
    best = {timing: [], exact: []}
    for _ in range(3):
        for program, times in best.items():
            said, _ = unproved.run(program, folder, [rounds])
            times += [int(line.split()[0]) / 1e6 for line in said.splitlines()[1:]]
    plain, kept = min(best[timing]), min(best[exact])
    return f"an exact value takes {kept / TABLES:.4f} ms, {kept / plain:.1f} times as long"


def main():
    random.seed(1)
    with tempfile.TemporaryDirectory() as name:
        top = pathlib.Path(name)
        comparing = unproved.build(top / "comparing", LIBRARIES, COMPARING, checks=True)
        timing = unproved.build(top / "timing", LIBRARIES, TIMING, checks=False)
        exact = unproved.build(top / "exact", LIBRARIES, EXACT_TIMING, checks=False)
        library = heap.counter(top)
        for file in map(pathlib.Path, sys.argv[1:]):
            made = json.loads(file.read_text())
            (top / "instance.json").write_bytes(file.read_bytes())
            print(f"{file.name}: {compare(comparing, top, made)}")
            print(f"{file.name}: {measure(timing, library, top, made)}", flush=True)
            print(f"{file.name}: {multiple(timing, exact, top, '10')}", flush=True)


if __name__ == "__main__":
    main()
