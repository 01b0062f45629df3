#!/usr/bin/env python3
"""Measures what a claim and a commit of a book take, with as many claims as a budget can have.

    python3 bench/book.py [CLAIMS]         # at the top of the repository, with `rt` on the path

The nodes of a tree are claimed in their order, a thousand at a time, and then committed: the first half by a split each, the others by `Again`,
all at one table, of one period. Told are the seconds of making the book, the nanoseconds of a claim and of a commit, each the mean over all,
and the greatest resident memory. One million claims take 0.5 GB. Nothing is proved here, see `unproved.py`.
"""
import pathlib
import sys
import tempfile

import unproved

LIBRARIES = "book branch_tree demo_gen dual_model search_machine uc_model".split()

PROGRAM = """#![tactic(auto)]

use book::{Book, Claimed};
use branch_tree::Outcome;
use demo_gen::instance;
use dual_model::{Fixing, Node, Table};
use search_machine::Move;
use std::alloc::Global;
use std::io;
use std::marker::Brand;
use std::time::Instant;
use uc_model::{List, NoMemory};

const PERIODS: u32 = 24;

// The path to a node whose parent has half its number, less one.
fn path(alloc: Global, number: u32) -> Result<Node, NoMemory> {
    let mut bits = Vec::new(alloc);
    let mut reached = number;
    while reached > 0 {
        bits.push(reached % 2 == 0)?;
        reached = (reached - 1) / 2;
    }
    bits.reverse();
    let mut fixings = Vec::new(alloc);
    for depth in 0..bits.len() {
        let cell = depth as u32;
        fixings.push(Fixing { g: cell / PERIODS, t: cell % PERIODS, on: bits[depth] })?;
    }
    Ok(Node { fixings: List::from_vec(fixings) })
}

fn table(alloc: Global) -> Result<Table, NoMemory> {
    Table::new(alloc, 40, 1_000_000, &[0], &[0], &[])
}

fn time_all(rt: &HostRuntime, claims: u32) -> io::Result<()> {
    let alloc = rt.alloc();
    let Ok(instance) = instance(alloc, 0) else {
        return println!(rt; "no memory");
    };
    let start = Instant::now(rt)?;
    let Ok(first) = table(alloc) else {
        return println!(rt; "no memory");
    };
    let Ok(mut book) = Book::<Brand>::new(alloc, &instance, claims, 0, first, 0) else {
        return println!(rt; "no memory");
    };
    let making = start.elapsed(rt)?.as_micros();
    let mut claiming = 0;
    let mut committing = 0;
    let mut made = 0;
    let mut next = 0;
    while next < claims {
        let count = (claims - next).min(if next < 1000 { 1 } else { 1000 });
        let mut paths = Vec::new(alloc);
        let mut tables = Vec::new(alloc);
        for k in 0..count {
            let (Ok(path), Ok(table)) = (path(alloc, next + k), table(alloc)) else {
                return println!(rt; "no memory");
            };
            paths.push(path)?;
            tables.push(table)?;
        }
        tables.reverse();
        let start = Instant::now(rt)?;
        for k in 0..count {
            if let Claimed::Mine { .. } = book.claim(0, next + k) {
                made += 1;
            }
        }
        claiming += start.elapsed(rt)?.as_nanos();
        let start = Instant::now(rt)?;
        for k in 0..count {
            let Some(table) = tables.pop() else {
                return Ok(());
            };
            let depth = paths[k as usize].fixings.as_slice().len() as u32;
            let action = if next + k < claims / 2 {
                Move::Split { g: depth / PERIODS, t: depth % PERIODS }
            } else {
                Move::Again
            };
            if book.commit(0, next + k + 1, &paths[k as usize], table, false, Outcome::Value(0), action) {
                made += 1;
            }
        }
        committing += start.elapsed(rt)?.as_nanos();
        next += count;
    }
    let claims = u128::from(claims);
    println!(rt; "{making} {} {} {made}", claiming / claims, committing / claims)
}

fn main(rt: HostRuntime) -> io::Result<()> {
    time_all(&rt, CLAIMS)
}
"""


def main(claims):
    with tempfile.TemporaryDirectory() as made:
        folder = pathlib.Path(made)
        program = unproved.build(folder, LIBRARIES, PROGRAM.replace("CLAIMS)", f"{claims})"), checks=False)
        printed, memory = unproved.run(program, folder)
    words = printed.split()
    if len(words) != 4:
        raise SystemExit(printed)
    making, claiming, committing, answered = map(int, words)
    if answered != 2 * claims:
        raise SystemExit(f"{answered} of {2 * claims} calls did what they were asked")
    print(f"made in {making / 1e6:.2f} s, a claim takes {claiming} ns, a commit {committing} ns, {memory / 2**20:.0f} MB")


if __name__ == "__main__":
    main(int(sys.argv[1]) if len(sys.argv) > 1 else 1_000_000)
