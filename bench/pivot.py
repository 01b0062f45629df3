#!/usr/bin/env python3
"""Measures the exact dispatch of the commitment that `solve` finds, on instance files and on their first ten units.

    python3 bench/pivot.py PROGRAM CASE.json ..     # PROGRAM is `crates/uc/out/uc`, or `unproved`

`solve` gets 100 evaluations. In the smaller system, which has no renewable unit, demand and reserve are what the first ten units give
and hold in that schedule. Told of each system are what `best` answers, the seconds of the processor and the greatest resident memory of
the program that asks, reading included, and how many pivots a run makes, which a second run of the program counts. The program that is
timed is always built without a proof, see `unproved.py`.
"""
import json
import pathlib
import subprocess
import sys
import tempfile

import rolling
import search
import unproved

sys.path.insert(0, str(search.TOP / "examples"))
import check  # noqa: E402

UNITS, FIRST, MEGA = "100", 10, 1_000_000
LIBRARIES = "dispatch_table instance pivot_dispatch pivot_run uc_model".split()

PROGRAM = """#![tactic(auto)]

use dispatch_table::{Made, start};
use instance::read_instance;
use pivot_dispatch::{Pivot, best};
use pivot_run::{Halt, run};
use std::alloc::{AllocError, Global};
use std::env;
use std::fs;
use std::io;
use uc_model::{Instance, Pattern};

// A pattern for each word, whose digits are 1 where it is on.
fn patterns(alloc: Global, words: &str) -> Result<Vec<Pattern>, AllocError> {
    let mut patterns = Vec::new(alloc);
    for word in words.split(' ') {
        let mut pattern = Pattern::all_off();
        for (t, digit) in word.bytes().enumerate() {
            if digit == b'1' {
                pattern.switch_on(t as u32);
            }
        }
        patterns.push(pattern)?;
    }
    Ok(patterns)
}

// Tells what the exact dispatch answers.
fn tell_best(rt: &HostRuntime, instance: &Instance, patterns: &[Pattern]) -> io::Result<()> {
    match best(rt.alloc(), instance, patterns) {
        Ok(Pivot::Best { schedule, table }) => println!(rt; "best over {}, scale {}", schedule.denominator, table.k()),
        Ok(Pivot::Ray(_)) => println!(rt; "ray"),
        Ok(Pivot::Wide { what, .. }) => println!(rt; "wide {what:?}"),
        Err(_) => println!(rt; "no memory"),
    }
}

// Tells how many pivots its run makes.
fn count_pivots(rt: &HostRuntime, instance: &Instance, patterns: &[Pattern]) -> io::Result<()> {
    match start(rt.alloc(), instance, patterns) {
        Ok(Made::Start(start)) => {
            let mut start = start;
            match run(&mut start.table, start.free) {
                Ok(pivots) => println!(rt; "{pivots}"),
                Err(Halt::Met(stop)) => println!(rt; "{}", stop.pivots),
                Err(Halt::NoMemory) => println!(rt; "no memory"),
            }
        }
        _ => println!(rt; "0"),
    }
}

fn main(rt: HostRuntime) -> io::Result<()> {
    let alloc = rt.alloc();
    let counts = env::args(&rt)?.nth(1).is_some();
    let instance = read_instance(alloc, &fs::read(&rt, "instance.json")?, false);
    let patterns = patterns(alloc, fs::read_to_string(&rt, "commitment")?.as_str());
    match (instance, patterns) {
        (Ok((instance, _)), Ok(patterns)) if counts => count_pivots(&rt, &instance, &patterns),
        (Ok((instance, _)), Ok(patterns)) => tell_best(&rt, &instance, &patterns),
        _ => println!(rt; "no instance"),
    }
}
"""


def found(program, case, instance, folder):
    """The cells of the schedule that a search finds, unit by unit: nothing where it is off, else first what is above the minimum, and the reserve."""
    words = [program, "solve", case, "--cert", folder / "found.cert", "--units", UNITS]
    solved = subprocess.run(words, capture_output=True, text=True)
    if solved.returncode > 1:
        raise SystemExit(solved.stdout + solved.stderr)
    return rolling.schedule_of(instance, solved.stdout).cells


def first_units(made, instance, cells):
    """The system of the first units, which give and hold as much as in the schedule."""
    units, periods = dict(list(made["thermal_generators"].items())[:FIRST]), range(instance.periods)
    rows = [list(zip(instance.thermal, (row[t] for row in cells[:FIRST]))) for t in periods]
    demand = [sum(unit.pmin + cell[0] for unit, cell in row if cell) / MEGA for row in rows]
    reserves = [sum(cell[1] for _, cell in row if cell) / MEGA for row in rows]
    return {**made, "demand": demand, "reserves": reserves, "thermal_generators": units, "renewable_generators": {}}


def measured(timing, folder, made, cells):
    (folder / "instance.json").write_text(json.dumps(made))
    (folder / "commitment").write_text(" ".join("".join("01"[cell is not None] for cell in row) for row in cells))
    begun = search.processor()
    answer, memory = unproved.run(timing, folder)
    took = search.processor() - begun
    pivots = unproved.run(timing, folder, ["pivots"])[0].strip()
    size = f"{len(cells)} units, {made['time_periods']} h"
    return f"{size}: {answer.strip()}, {took:.2f} s, {memory / 2**20:.0f} MB, {pivots} pivots"


def main(program, cases):
    with tempfile.TemporaryDirectory() as name:
        folder = pathlib.Path(name)
        program = search.built(folder) if program == "unproved" else pathlib.Path(program).resolve()
        (folder / "timing").mkdir()
        timing = unproved.build(folder / "timing", LIBRARIES, PROGRAM, checks=False)
        for case in map(pathlib.Path, cases):
            made = json.loads(case.read_text())
            instance = check.instance_of(check.json_of(case.read_bytes()))
            cells = found(program, case, instance, folder)
            print(f"{case.name}, first {measured(timing, folder, first_units(made, instance, cells), cells[:FIRST])}", flush=True)
            print(f"{case.name}, {measured(timing, folder, made, cells)}", flush=True)


if __name__ == "__main__":
    main(sys.argv[1], sys.argv[2:])
