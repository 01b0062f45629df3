#!/usr/bin/env python3
"""Measures the schedules that repairs of an ascent find on instance files, and what they take.

    python3 bench/repair.py MOVES[:PPM] CASE.json[=DOLLARS] ..     # at the top of the repository, with `rt` on the path

From the table of no prices an ascent of 40 evaluations for up to 500 cells, and of 150 for more, gives prices and shares, and `repair`, the
first of its room, makes so many moves for each unit, or ends before at a cost within so many millionths of the bound. Told are the bound
and the cost in dollars, the seconds of the ascent, of making the room and of the repair, and, where a cost is given in dollars, how far the
cost found lies above it, in parts of it. Nothing is proved here, see `unproved.py`.
"""
import pathlib
import shutil
import sys
import tempfile

import unproved

LIBRARIES = "dual_model dual_value instance prices schedule_repair uc_model unit_path".split()

PROGRAM = """#![tactic(auto)]

use dual_model::{Node, Table};
use dual_value::value;
use instance::read_instance;
use prices::{CutPool, Effort, Values, ascend, zero};
use schedule_repair::{Repair, repair};
use std::alloc::Global;
use std::fs;
use std::io;
use std::time::Instant;
use uc_model::{Instance, List};
use unit_path::Scratch;

// The root's bound at the table.
fn bound(alloc: Global, instance: &Instance, root: &Node, table: &Table) -> Option<i128> {
    let mut scratch = Scratch::new(alloc, instance.periods as usize).ok()?;
    Some(value(alloc, &mut scratch, instance, root, table).ok()?.total / i128::from(table.k().max(1)))
}

// The greatest cost that is within the gap of the bound.
fn enough(bound: i128) -> i64 {
    if GAP < 0 {
        return i64::MIN;
    }
    i64::try_from(bound * 1_000_000 / (1_000_000 - GAP)).unwrap_or(i64::MAX)
}

// Tells the bound, the cost, and the microseconds of the ascent, the room and the repair.
fn time_repair(rt: &HostRuntime, instance: &Instance) -> io::Result<()> {
    let alloc = rt.alloc();
    let root = Node { fixings: List::from_vec(Vec::new(alloc)) };
    let Ok(table) = zero(alloc, instance) else {
        return Ok(());
    };
    let units = instance.thermal.as_slice().len();
    let evaluations = if units * instance.periods as usize <= 500 { 40 } else { 150 };
    let start = Instant::now(rt)?;
    let Ok(ascent) = ascend(alloc, Values { instance, exact: false }, &mut CutPool::closed(alloc), &root, &table, Effort { evaluations, enough: i128::MAX }, 1_000_000) else {
        return Ok(());
    };
    let ascended = start.elapsed(rt)?.as_micros();
    let made = Instant::now(rt)?;
    let Ok(mut room) = Repair::new(alloc, instance) else {
        return Ok(());
    };
    let making = made.elapsed(rt)?.as_micros();
    let Some(bound) = bound(alloc, instance, &root, &ascent.table) else {
        return Ok(());
    };
    let moves = MOVES * units as u32;
    let begun = Instant::now(rt)?;
    let Ok(found) = repair(alloc, &mut room, instance, &ascent.table, &ascent.shares, moves, enough(bound)) else {
        return Ok(());
    };
    let repaired = begun.elapsed(rt)?.as_micros();
    let cost = match found {
        Some((_, cost)) => cost,
        None => 0,
    };
    println!(rt; "{bound} {cost} {ascended} {making} {repaired}")
}

fn main(rt: HostRuntime) -> io::Result<()> {
    match read_instance(rt.alloc(), &fs::read(&rt, "instance.json")?, false) {
        Ok((instance, _)) => time_repair(&rt, &instance),
        Err(_) => println!(rt; "refused"),
    }
}
"""


def tell(name, printed, known):
    words = printed.split()
    if len(words) != 5:
        raise SystemExit(f"{name}: {printed}")
    bound, cost, ascended, making, repaired = (int(it) / 1e6 for it in words)
    gap = f", gap {(cost - bound) / cost:.2e}" if cost else ", none found"
    above = f", {(cost - known) / known:.2e} above the known" if known and cost else ""
    print(f"{name}: bound {bound:.2f}, cost {cost:.2f}{gap}{above}; ascent {ascended:.3f} s, room {making:.3f} s, repair {repaired:.3f} s")


def main(moves, cases):
    moves, _, gap = moves.partition(":")
    with tempfile.TemporaryDirectory() as made:
        folder = pathlib.Path(made)
        source = PROGRAM.replace("MOVES", str(int(moves))).replace("GAP", str(int(gap or -1)))
        program = unproved.build(folder, LIBRARIES, source, checks=False)
        for case in cases:
            path, _, known = case.partition("=")
            shutil.copy(path, folder / "instance.json")
            printed, _ = unproved.run(program, folder)
            tell(pathlib.Path(path).stem, printed, float(known) if known else None)


if __name__ == "__main__":
    if len(sys.argv) < 3:
        raise SystemExit(__doc__)
    main(sys.argv[1], sys.argv[2:])
