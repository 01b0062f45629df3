#!/usr/bin/env python3
"""Times the dispatch of the commitment with the most on periods, on instance files and on fifteen times their thermal units.

    python3 bench/dispatch.py CASE.json ..   # at the top of the repository, with `rt` on the path

`dispatch_rows` is timed with lent room and rows. In the greater instance each thermal unit stands fifteen times, and demand and reserve are
fifteen times as great; the renewable units are those of the file. Told are the mean of a hundred dispatches in the best of ten
rounds, and what they come to: schedules, or the period, from 0, in which they get stuck. Nothing is proved here, see `unproved.py`.
"""
import json
import pathlib
import sys
import tempfile

import unproved

TIMES, ROUNDS, COPIES = 100, 10, 15

PROGRAM = """#![tactic(auto)]

use dispatch_repair::{Room, Rows, committed, dispatch_rows, most_on};
use instance::read_instance;
use std::alloc::Global;
use std::fs;
use std::io;
use std::time::Instant;
use uc_model::{Instance, Pattern};

// How many of so many dispatches gave a schedule, and the period, from 0, in which the last one got stuck.
fn dispatches(room: &mut Room, instance: &Instance, patterns: &[Pattern], rows: &mut Rows) -> (u64, Option<usize>) {
    let mut schedules = 0_u64;
    let mut stuck = None;
    for _ in 0..TIMES {
        match dispatch_rows(room, instance, patterns, rows) {
            None => schedules += 1,
            Some(found) => stuck = Some(found.period),
        }
    }
    (schedules, stuck)
}

// Tells of each round how many nanoseconds it took, and what the dispatches came to.
fn time_rounds(rt: &HostRuntime, instance: &Instance) -> io::Result<()> {
    let alloc = rt.alloc();
    let room = Room::new(alloc, instance);
    let patterns = most_on(alloc, instance);
    if let (Ok(mut room), Ok(patterns)) = (room, patterns) {
        if let Ok(mut rows) = committed(alloc, instance, &patterns) {
            for _ in 0..ROUNDS {
                let start = Instant::now(rt)?;
                let (schedules, stuck) = dispatches(&mut room, instance, &patterns, &mut rows);
                let time = start.elapsed(rt)?.as_nanos();
                println!(rt; "{time} {schedules} schedules, stuck: {stuck:?}")?;
            }
        }
    }
    Ok(())
}

fn main(rt: HostRuntime) -> io::Result<()> {
    match read_instance(rt.alloc(), &fs::read(&rt, "instance.json")?, false) {
        Ok((instance, _)) => time_rounds(&rt, &instance),
        Err(_) => println!(rt; "no instance"),
    }
}
"""


def copies(made):
    """The instance with each thermal unit so many times, and with as many times its demand and reserve."""
    units = {f"{name} {copy}": unit for copy in range(COPIES) for name, unit in made["thermal_generators"].items()}
    wanted = {name: [COPIES * it for it in made[name]] for name in ("demand", "reserves")}
    return {**made, **wanted, "thermal_generators": units}


def best(program, folder, made):
    (folder / "instance.json").write_text(json.dumps(made))
    rounds = [line.partition(" ") for line in unproved.run(program, folder)[0].splitlines()]
    milliseconds = min(int(time) for time, _, _ in rounds) / TIMES / 1e6
    return f"{len(made['thermal_generators'])} units, {milliseconds:.4f} ms a dispatch; of {TIMES} {rounds[0][2]}"


def main():
    source = PROGRAM.replace("TIMES", str(TIMES)).replace("ROUNDS", str(ROUNDS))
    with tempfile.TemporaryDirectory() as name:
        top = pathlib.Path(name)
        program = unproved.build(top / "timing", ["dispatch_repair", "instance", "uc_model"], source, checks=False)
        for file in map(pathlib.Path, sys.argv[1:]):
            made = json.loads(file.read_text())
            print(f"{file.name}: {best(program, top, made)}")
            print(f"{file.name}, {COPIES} times: {best(program, top, copies(made))}", flush=True)


if __name__ == "__main__":
    main()
