#!/usr/bin/env python3
"""Measures the bounds that steps of prices reach at the root of instance files, and what a step takes.

    python3 bench/ascent.py CASE.json[=DOLLARS] ..     # at the top of the repository, with `rt` on the path

From the table of no prices `step` is asked ten times, each time for the table after the last one. Told are the bounds in dollars after
the first step and after the tenth, the seconds of the first one and of all ten, and, where the best bound that is known is given in
dollars, how far below it the two lie, in parts of it. Nothing is proved here, see `unproved.py`.
"""
import pathlib
import shutil
import sys
import tempfile

import unproved

STEPS = 10
LIBRARIES = "dual_model dual_value instance prices uc_model unit_path".split()

PROGRAM = """#![tactic(auto)]

use dual_model::{Node, Table};
use dual_value::value;
use instance::read_instance;
use prices::{step, zero};
use std::alloc::Global;
use std::fs;
use std::io;
use std::time::Instant;
use uc_model::{Instance, List};
use unit_path::Scratch;

// The root's value at the table.
fn total(alloc: Global, instance: &Instance, root: &Node, table: &Table) -> Option<i128> {
    let mut scratch = Scratch::new(alloc, instance.periods as usize).ok()?;
    Some(value(alloc, &mut scratch, instance, root, table).ok()?.total)
}

// Tells the scale, the value and the microseconds of each step.
fn time_steps(rt: &HostRuntime, instance: &Instance) -> io::Result<()> {
    let alloc = rt.alloc();
    let root = Node { fixings: List::from_vec(Vec::new(alloc)) };
    let Ok(mut table) = zero(alloc, instance) else {
        return Ok(());
    };
    for had in 0..10_u32 {
        let start = Instant::now(rt)?;
        let Ok(next) = step(alloc, instance, &root, &table, None, had) else {
            return Ok(());
        };
        let time = start.elapsed(rt)?.as_micros();
        let k = next.k();
        if let Some(total) = total(alloc, instance, &root, &next) {
            println!(rt; "{k} {total} {time}")?;
        }
        table = next;
    }
    Ok(())
}

fn main(rt: HostRuntime) -> io::Result<()> {
    match read_instance(rt.alloc(), &fs::read(&rt, "instance.json")?, false) {
        Ok((instance, _)) => time_steps(&rt, &instance),
        Err(_) => println!(rt; "refused"),
    }
}
"""


def tell(name, lines, known):
    steps = [tuple(map(int, line.split())) for line in lines]
    if len(steps) != STEPS:
        raise SystemExit(f"{name}: {' '.join(lines)}")
    bounds = [total / scale / 1e6 for scale, total, _ in steps]
    times = [time / 1e6 for _, _, time in steps]
    for count, bound in ((1, bounds[0]), (STEPS, max(bounds))):
        below = f", {(known - bound) / known:.1e} below the best known" if known else ""
        print(f"{name}: {bound:.2f} after {count} in {sum(times[:count]):.3f} s{below}")


def main(cases):
    with tempfile.TemporaryDirectory() as made:
        folder = pathlib.Path(made)
        program = unproved.build(folder, LIBRARIES, PROGRAM, checks=False)
        for case in cases:
            path, _, known = case.partition("=")
            shutil.copy(path, folder / "instance.json")
            printed, _ = unproved.run(program, folder)
            tell(pathlib.Path(path).stem, printed.splitlines(), float(known) if known else None)


if __name__ == "__main__":
    if len(sys.argv) < 2:
        raise SystemExit(__doc__)
    main(sys.argv[1:])
