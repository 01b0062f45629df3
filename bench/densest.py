#!/usr/bin/env python3
"""What the densest texts take of memory: those of whose bytes the most is kept.

    python3 bench/densest.py PROGRAM     # PROGRAM is `crates/uc/out/uc`, or `unproved`

`check` reads instances that are lists of small values, of 4 MB each, and refuses them; `upgrade` reads and writes certificates. Told are the
bytes of resident memory for a byte of the text, beside what the program takes for the smallest instance, and the seconds of the processor.
A certificate of version 2 tells a table by its difference to the one before it, and so are tables kept; `check` rebuilds those it looks at.
"""
import pathlib
import sys
import tempfile

import cert_text
import hostile
import search

SIZE = 4_000_000
DEPTH = 60
PERIODS, TABLES, UNITS = 168, 20_000, 10
# Instances, by a value of which they are a list.
VALUES = {
    "noughts": "0",
    "empty lists": "[]",
    "lists of a nought": "[0]",
    "lists of two": "[0,0]",
    "lists of five": "[0,0,0,0,0]",
    "lists 60 deep": "[" * DEPTH + "]" * DEPTH,
    "objects of a nought": '{"":0}',
    "objects 60 deep": '{"":' * DEPTH + "0" + "}" * DEPTH,
}


def instance(value):
    return ("[" + (value + ",") * (SIZE // (len(value) + 1)) + value + "]").encode()


def equal_tables(units):
    """Tables of which each but the first is told by that nothing changes, with a ramp row for each cell of so many units."""
    rows = "".join(f"ramp {g} {t} 1 1\n" for g in range(1, units + 1) for t in range(1, PERIODS + 1))
    table = f"table 0\npi{' 1' * PERIODS}\nmu{' 0' * PERIODS}\nramps {units * PERIODS}\n{rows}"
    head = f"uc-certificate 2\nsize {PERIODS} {max(units, 1)} 0 {TABLES}\nclaim infeasible\nschedule none\n"
    return (head + table + "next 0 0\n" * (TABLES - 1) + "ray 1\nend\n").encode()


def certificates():
    yield "the shortest tables", cert_text.small_tables(SIZE)
    yield "a chain of splits", cert_text.tree()
    yield "units that are off", cert_text.off_schedule()
    yield f"{TABLES} equal tables of {PERIODS} hours, version 2", equal_tables(0)
    yield f"the same with the ramps of {UNITS} units", equal_tables(UNITS)


def main(program):
    with tempfile.TemporaryDirectory() as made:
        folder = pathlib.Path(made)
        program = search.built(folder) if program == "unproved" else pathlib.Path(program).resolve()
        read, written = folder / "read", folder / "written"

        def measured(text, words):
            read.write_bytes(text)
            return hostile.run([program, *words], folder)

        least = hostile.run([program, "check", hostile.DATA / "base.json", hostile.DATA / "base.cert"], folder).memory
        runs = [(name, instance(value), ["check", read, read]) for name, value in VALUES.items()]
        runs += [(name, text, ["upgrade", read, "--cert", written]) for name, text in certificates()]
        for name, text, words in runs:
            ran = measured(text, words)
            share = (ran.memory - least) / len(text)
            print(f"{name}: {len(text)} bytes, status {ran.status}, {share:.1f} bytes for a byte, {ran.seconds:.2f} s", flush=True)


if __name__ == "__main__":
    if len(sys.argv) != 2:
        raise SystemExit(__doc__)
    main(sys.argv[1])
