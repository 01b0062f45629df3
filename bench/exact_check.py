#!/usr/bin/env python3
"""Times `uc check` of certificates with many leaves by exact values, and of the same ones by plain values, on instance files.

    python3 bench/exact_check.py ./uc 500 CASE.json ..     # at the top of the repository

The tree has so many leaves, and is as flat as can be; the splits of each depth are on a unit and a period drawn at random. Each leaf has a table
of its own, at 0.9 to 1.1 times the prices in order of merit and at drawn prices of reserve, or all have the first one. What is claimed is the
greatest bound that is accepted, which bisection finds first. Told are the status, that bound in dollars and the best of five runs, in seconds of
the wall clock.
"""
import json
import pathlib
import random
import subprocess
import sys
import tempfile

import check
import values

MILLION = 10**6
LARGE = 10**15  # micro-dollars


def drawn_prices(made):
    factor = random.uniform(0.9, 1.1)
    prices = [round(values.SCALE * factor * it) for it in values.merit_prices(made)]
    return prices, [round(values.SCALE * 3 * random.random()) for _ in prices]


def changes(kind, before, now):
    return [f"{kind} {t} {new}\n" for t, (old, new) in enumerate(zip(before, now), 1) if old != new]


def tables(made, count):
    """The text of the tables, the first whole and each later one by its difference to the one before it."""
    before = drawn_prices(made)
    parts = [f"table {values.SCALE}\npi {' '.join(map(str, before[0]))}\nmu {' '.join(map(str, before[1]))}\nramps 0\n"]
    for _ in range(count - 1):
        now = drawn_prices(made)
        rows = changes("p", before[0], now[0]) + changes("m", before[1], now[1])
        parts.append(f"next {values.SCALE} {len(rows)}\n" + "".join(rows))
        before = now
    return "".join(parts)


def tree(cells, word, first, leaves, count):
    """The lines of a tree with so many leaves, whose first one has the table of that number, as far as there are so many tables."""
    if leaves == 1:
        return [f"{word} {min(first, count)}\n"]
    (g, t), *others = cells
    off = leaves // 2
    return [f"split {g} {t}\n", *tree(others, word, first, off, count), *tree(others, word, first + off, leaves - off, count)]


def money(number):
    return f"{'-' if number < 0 else ''}{abs(number) // MILLION}.{abs(number) % MILLION:06}"


def certificate(made, word, leaves, count):
    """The text of the certificate, in which {} stands for the bound that is claimed."""
    units, periods = len(made["thermal_generators"]), made["time_periods"]
    cells = [(g, t) for g in range(1, units + 1) for t in range(1, periods + 1)]
    random.shuffle(cells)
    version = 3 if word == "exact" else 2
    head = f"uc-certificate {version}\nsize {periods} {units} {len(made['renewable_generators'])} {count}\nclaim bound {{}}\nschedule none\n"
    return head + tables(made, count) + "".join(tree(cells, word, 1, leaves, count)) + "end\n"


def greatest(words, path, text):
    """The greatest bound, in micro-dollars, with which the certificate is accepted."""
    low, high = -LARGE, LARGE
    while high - low > 1:
        middle = (low + high) // 2
        path.write_text(text.format(money(middle)))
        code = subprocess.run(words, capture_output=True, check=False).returncode
        low, high = (middle, high) if code == 0 else (low, middle)
    return low


def main():
    program, leaves = str(pathlib.Path(sys.argv[1]).resolve()), int(sys.argv[2])
    with tempfile.TemporaryDirectory() as folder:
        path = pathlib.Path(folder) / "made.cert"
        for file in sys.argv[3:]:
            made = json.loads(pathlib.Path(file).read_text())
            for count in (leaves, 1):
                told = []
                for word in ("exact", "bound"):
                    random.seed(1)
                    words, text = [program, "check", file, str(path)], certificate(made, word, leaves, count)
                    bound = money(greatest(words, path, text))
                    path.write_text(text.format(bound))
                    code, seconds = check.best(words)
                    told.append(f"{word} {code} at {bound} in {seconds:.3f} s")
                print(f"{file}: {leaves} leaves at {count} tables, {', '.join(told)}", flush=True)


if __name__ == "__main__":
    main()
