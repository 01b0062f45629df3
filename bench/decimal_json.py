#!/usr/bin/env python3
"""Times `decimal_json::read` beside Python's `json.loads` on one instance of some 20 MB.

It makes the instance, copies the repository to a temporary folder, adds a program there that reads the
file and calls `read`, builds it with `rt run`, and prints the seconds of both (the best of five), their
ratio, and the program's greatest memory for a byte of input. Then it times objects of 4,096 to 400,000
keys, which are to take time in proportion. Wanted: a ratio of at most 1.5, and at most 30 bytes a byte.

    python3 bench/decimal_json.py            # at the top of the repository, with `rt` on the path
"""
import json
import pathlib
import random
import shutil
import subprocess
import tempfile
import time

PERIODS = 168
PROGRAM = """#![tactic(auto)]

use decimal_json::{JsonFault, read};
use std::fs;
use std::io;

fn main(rt: HostRuntime) -> io::Result<()> {
    let bytes = fs::read(&rt, "PATH")?;
    match read(rt.alloc(), &bytes) {
        Ok(_) => println!(rt; "ok"),
        Err(JsonFault::At { at, kind }) => println!(rt; "at {at} kind {kind}"),
        Err(JsonFault::NoMemory) => println!(rt; "no memory"),
    }
}
"""


def unit(number):
    """One thermal unit with as many points and start rows as a unit may have."""
    return {
        "must_run": 0,
        "power_output_minimum": round(random.uniform(10, 100), 3),
        "power_output_maximum": 500,
        "ramp_up_limit": 40,
        "ramp_down_limit": 40,
        "ramp_startup_limit": 50,
        "ramp_shutdown_limit": 50,
        "time_up_minimum": 1,
        "time_down_minimum": 1,
        "power_output_t0": 20,
        "unit_on_t0": 1,
        "time_up_t0": 1,
        "time_down_t0": 0,
        "startup": [{"lag": k + 1, "cost": round(random.uniform(100, 5000), 2)} for k in range(16)],
        "piecewise_production": [
            {"mw": round(random.uniform(10, 500), 6), "cost": round(random.uniform(100, 5000), 6)} for _ in range(64)
        ],
        "name": f"unit {number}",
    }


def series(top):
    return [round(random.uniform(0, top), 6) for _ in range(PERIODS)]


def instance():
    """The text of an instance in the pglib-uc format."""
    random.seed(1)
    return json.dumps({
        "time_periods": PERIODS,
        "demand": series(90_000),
        "reserves": series(900),
        "thermal_generators": {f"gen_{i}": unit(i) for i in range(4096)},
        "renewable_generators": {
            f"wind_{i}": {"power_output_minimum": [0] * PERIODS, "power_output_maximum": series(100)} for i in range(2000)
        },
    })


def best(run, count=5):
    seconds = []
    for _ in range(count):
        start = time.perf_counter()
        run()
        seconds.append(time.perf_counter() - start)
    return min(seconds)


def build(folder, data):
    """The path of a program that reads the file and prints what came of it."""
    top = pathlib.Path(__file__).resolve().parent.parent
    copy = folder / "repository"
    shutil.copytree(top, copy, ignore=shutil.ignore_patterns(".git", "out", "*.log"))
    crate = copy / "crates" / "timing"
    (crate / "src").mkdir(parents=True)
    (crate / "src" / "main.rt").write_text(PROGRAM.replace("PATH", str(data)))
    with open(copy / "crates.txt", "a") as crates:
        crates.write("timing: decimal_json\n")
    subprocess.run(["rt", "run"], cwd=crate, check=True, stdout=subprocess.DEVNULL)
    return crate / "out" / "timing"


def main():
    with tempfile.TemporaryDirectory() as name:
        folder = pathlib.Path(name)
        data = folder / "input.json"
        text = instance()
        data.write_text(text)
        program = build(folder, data)

        def run():
            subprocess.run([program], check=True, stdout=subprocess.DEVNULL)

        python, reader = best(lambda: json.loads(text)), best(run)
        print(f"{len(text)} bytes: json.loads {python:.3f} s, read {reader:.3f} s, ratio {reader / python:.2f}")
        one = subprocess.run(["/usr/bin/time", "-f", "%M", program], capture_output=True, text=True)
        memory = int(one.stderr.split()[-1]) * 1024
        print(f"memory: {memory / len(text):.1f} bytes for a byte of input")
        for keys in (4_096, 50_000, 100_000, 200_000, 400_000):
            data.write_text("{" + ",".join(f'"key {i}":{i}' for i in range(keys)) + "}")
            print(f"an object of {keys} keys: {best(run):.4f} s")


if __name__ == "__main__":
    main()
