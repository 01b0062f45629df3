#!/usr/bin/env python3
"""Searches by several workers: many runs on small systems whose best schedules are known, and what runs on a case take.

    python3 bench/workers.py PROGRAM stress [RUNS [SEED]]            # PROGRAM is `crates/uc/out/uc`, or `unproved`
    python3 bench/workers.py PROGRAM UNITS [OPTION ..] CASE.json ..  # options as --gap=0 go to `solve`

With `stress` 2, 4 and 64 workers make a thousand runs each, or RUNS, on three small systems: the two units of `pair.json`, of which one
suffices, and the first instance of `random_repairs.py` with a schedule and the first without one, in whole megawatts, for which one worker
claims a node five times. A run has up to 60 evaluations, drawn by chance, as is its gap. It fails where it doesn't end within a minute; with
a status above 3; where it says that there is no schedule, or a bound above the cost of the best one; where its log isn't as long as its
status says; and where `check` refuses its certificate. Told are, of each system and number of workers, how many runs ended with each
status, how many certificates there were, the seconds of the longest run, and each run that failed. The status is 1 where one did.

Without it each case is solved by 1, 2, 4 and 64 workers with so many evaluations. Told are the seconds by the clock and of all processors,
the evaluations, cost, bound and gap. The certificate has to be accepted.
"""
import collections
import json
import pathlib
import random
import subprocess
import sys
import tempfile
import time

import growth
import random_repairs
import random_runs
import search

PAIR = search.TOP / "crates" / "run_cases" / "data" / "pair.json"
STRESSED = 2, 4, 64
MEASURED = 1, 2, 4, 64
MOST_UNITS = 60
GAPS = "0", "1000", "50000"
CLAIMS = 5
SECONDS = 60

# A system, with the cost of its best schedule in whole megawatts, in micro-dollars, where it has one.
System = collections.namedtuple("System", "name instance best")


def solved(program, case, certificate, workers, units, options):
    """A run of `solve` and its seconds by the clock; no run where it doesn't end."""
    words = [program, "solve", case, "--cert", certificate, "--workers", str(workers), "--units", str(units), *options]
    start = time.perf_counter()
    try:
        ran = subprocess.run(words, capture_output=True, text=True, timeout=SECONDS)
    except subprocess.TimeoutExpired:
        ran = None
    return ran, time.perf_counter() - start


def checked(program, case, certificate, prices=()):
    return subprocess.run([program, "check", case, certificate, *prices], capture_output=True, text=True)


def evaluations(report):
    return int(search.amount(report, "evaluations") or 0)


def drawn(program, chance, has_schedule, folder):
    """The next random instance with a schedule, or without one, for which one worker claims nodes so often, and its best cost."""
    case, certificate = folder / "drawn.json", folder / "drawn.cert"
    while True:
        instance = random_repairs.random_instance(chance)
        best = random_repairs.best_cost(instance)
        if (best is not None) != has_schedule:
            continue
        case.write_text(json.dumps(instance))
        ran, _ = solved(program, case, certificate, 1, MOST_UNITS, ["--gap", "0"])
        if ran and evaluations(ran.stdout) >= CLAIMS:
            return instance, best


def systems(program, chance, folder):
    pair = json.loads(PAIR.read_text())
    yield System("two units", pair, random_repairs.best_cost(pair))
    yield System("a schedule", *drawn(program, chance, True, folder))
    yield System("no schedule", *drawn(program, chance, False, folder))


def fault(ran, check, best, units):
    """What is wrong with a run, if anything."""
    if ran.returncode not in range(4):
        return f"status {ran.returncode}: {ran.stderr.strip()}"
    if check.returncode:
        return f"its certificate is refused: {check.stderr.strip()}"
    bound, made = random_runs.micro_dollars(ran.stdout, "bound"), evaluations(ran.stdout)
    if best is not None and (ran.returncode == 3 or bound > best):
        return f"status {ran.returncode} and bound {bound}, where {best} is enough"
    if made > units or ran.returncode in (1, 2) and made < units:
        return f"status {ran.returncode} by {made} evaluations of {units}"
    return None


def series(program, system, workers, runs, chance, folder):
    """Runs of one system by so many workers, and how many of them failed."""
    case, certificate = folder / "instance.json", folder / "found.cert"
    case.write_text(json.dumps(system.instance))
    statuses, certificates, longest, failed = collections.Counter(), set(), 0.0, 0
    for number in range(runs):
        units, gap = chance.randint(1, MOST_UNITS), chance.choice(GAPS)
        certificate.unlink(missing_ok=True)
        ran, took = solved(program, case, certificate, workers, units, ["--gap", gap])
        wrong = fault(ran, checked(program, case, certificate), system.best, units) if ran else "it doesn't end"
        statuses[f"status {ran.returncode}" if ran else "no end"] += 1
        longest = max(longest, took)
        if certificate.exists():
            certificates.add(certificate.read_bytes())
        if wrong:
            failed += 1
            print(f"FAILED: {system.name}, {workers} workers, run {number}, {units} evaluations, gap {gap}: {wrong}", flush=True)
    ended = ", ".join(f"{status}: {times}" for status, times in sorted(statuses.items()))
    print(f"{system.name}, {workers} workers: {ended}; {len(certificates)} certificates, {longest:.2f} s at most", flush=True)
    return failed


def stress(program, runs, seed, folder):
    """How many runs failed."""
    chance = random.Random(seed)
    drawn_systems = list(systems(program, chance, folder))
    failed = sum(series(program, system, workers, runs, chance, folder) for system in drawn_systems for workers in STRESSED)
    print(f"{failed} runs failed")
    return failed


def measure(program, units, options, case, folder):
    certificate = folder / "found.cert"
    prices = [it for it in options if it.startswith(("--shed", "--spill-reserve"))]
    for workers in MEASURED:
        words = [program, "solve", case, "--cert", certificate, "--workers", str(workers), "--units", units, *options]
        start = time.perf_counter()
        ran, processors = search.timed(words)
        clock = time.perf_counter() - start
        if ran.returncode > 3:
            raise SystemExit(ran.stderr)
        check = checked(program, case, certificate, prices)
        if check.returncode:
            raise SystemExit(check.stderr)
        took = f"{clock:.2f} s by the clock, {processors:.2f} s of processors"
        print(f"{pathlib.Path(case).stem}, workers {workers}: status {ran.returncode}, {took}", end=", ")
        print(f"evaluations {evaluations(ran.stdout)}, {growth.gap(ran.stdout)}", flush=True)


def main(program, task, words):
    with tempfile.TemporaryDirectory() as made:
        folder = pathlib.Path(made)
        program = search.built(folder) if program == "unproved" else pathlib.Path(program).resolve()
        if task == "stress":
            runs, seed = (int(it) for it in (words + ["1000", "1"][len(words):]))
            return stress(program, runs, seed, folder)
        options, cases = ([it for it in words if it.startswith("--") == is_option] for is_option in (True, False))
        for case in cases:
            measure(program, task, options, case, folder)
    return 0


if __name__ == "__main__":
    if len(sys.argv) < 3:
        raise SystemExit(__doc__)
    sys.exit(main(sys.argv[1], sys.argv[2], sys.argv[3:]) > 0)
