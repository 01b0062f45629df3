#!/usr/bin/env python3
"""Whether two programs print the same reports and write the same certificates.

    python3 bench/same_bytes.py OLD NEW [COUNT [SEED]] [units=N] [demos=N] [CASE ..]

Both solve the cases, with 20 evaluations, and COUNT small random instances (those of `random_repairs.py`) with 200, and `demo` runs with
the seeds 0 to 4, or 0 to N - 1 for demos=N. With units=N each has N evaluations, and the instances of these seeds are solved too
(`demos.py`). Told is each run whose status, report or certificate differs, and how many runs there were.
"""
import json
import pathlib
import random
import subprocess
import sys
import tempfile

import demos
import random_repairs


def answer(program, words, certificate):
    ran = subprocess.run([program, *words], capture_output=True)
    written = certificate.read_bytes() if certificate.exists() else b""
    certificate.unlink(missing_ok=True)
    return ran.returncode, ran.stdout, written


def solved(case, units, certificate):
    return ["solve", case, "--cert", certificate, "--units", units]


def runs(count, seed, given, cases, folder):
    """The words of each run, and its certificate."""
    certificate, case = folder / "found.cert", folder / "instance.json"
    for shared in cases:
        yield shared, solved(shared, given.get("units", "20"), certificate), certificate
    chance = random.Random(seed)
    for number in range(count):
        case.write_text(json.dumps(random_repairs.random_instance(chance)))
        yield f"instance {number}", [*solved(case, given.get("units", "200"), certificate), "--gap", "0"], certificate
    for number in range(int(given.get("demos", 5))):
        yield f"demo {number}", ["demo", str(number)], certificate
        if "units" in given:
            case.write_text(json.dumps(demos.instance(number)))
            yield f"the instance of demo {number}", solved(case, given["units"], certificate), certificate


def main(old, new, count, seed, given, cases):
    tried, others = 0, 0
    with tempfile.TemporaryDirectory() as made:
        for name, words, certificate in runs(count, seed, given, cases, pathlib.Path(made)):
            tried += 1
            if answer(old, words, certificate) != answer(new, words, certificate):
                others += 1
                print(f"{name}: the answers differ")
    print(f"{tried} runs, {others} with other bytes")
    return others


if __name__ == "__main__":
    programs, rest = sys.argv[1:3], sys.argv[3:]
    numbers = [int(word) for word in rest if word.isdigit()]
    given = dict(word.split("=") for word in rest if "=" in word)
    cases = [word for word in rest if not word.isdigit() and "=" not in word]
    sys.exit(main(*programs, *(numbers + [0, 1][len(numbers):]), given, cases) > 0)
