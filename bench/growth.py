#!/usr/bin/env python3
"""Measures how what a run takes grows with the number of units.

    python3 bench/growth.py PROGRAM[,PROGRAM ..] [ROUNDS] CASE.json[:WORDS] ..

PROGRAM is `crates/uc/out/uc`, or `unproved` as for `search.py`. Of each case three systems are made, with once, twice and four times as many
of each thermal unit as `copies=N` of WORDS says (once where it doesn't); WORDS are those of `variants.py`, parted by commas. The programs solve
them in turn with one evaluation, in so many rounds, 1 where none is given. Told are the seconds of the processor, the least of all
rounds, and how many times those of half the units they are; cost, bound and gap; and whether all programs wrote the same.
"""
import pathlib
import sys
import tempfile

import search
import variants

TIMES = 1, 2, 4


def variant(case, words, times, folder):
    """The path of the system with so many times the units, and how many units it has."""
    given = dict(word.split("=") for word in words)
    copies = int(given.pop("copies", 1)) * times
    options = [f"copies={copies}", *(f"{name}={value}" for name, value in given.items())]
    made = folder / f"{pathlib.Path(case).stem}-{times}.json"
    variants.main(case, made, options)
    return made


def solved(program, case, folder):
    """What a run writes and what it takes."""
    certificate = folder / "found.cert"
    certificate.unlink(missing_ok=True)
    ran, took = search.timed([program, "solve", case, "--cert", certificate, "--units", "1"])
    if ran.returncode > 3:
        raise SystemExit(ran.stderr)
    written = certificate.read_bytes() if certificate.exists() else b""
    return (ran.returncode, ran.stdout, written), took


def gap(report):
    cost, bound = search.amount(report, "cost"), search.amount(report, "bound")
    if cost is None or bound is None:
        return "no schedule"
    return f"cost {cost:.2f}, bound {bound:.2f}, gap {(cost - bound) / abs(cost):.4%}"


def measure(programs, rounds, case, words, folder):
    before = [None] * len(programs)
    for times in TIMES:
        made = variant(case, words, times, folder)
        least, answers = [float("inf")] * len(programs), [None] * len(programs)
        for _ in range(rounds):
            for i, program in enumerate(programs):
                answers[i], took = solved(program, made, folder)
                least[i] = min(least[i], took)
        growth = [f"{took:.2f} s" + (f" ({took / was:.2f} times)" if was else "") for took, was in zip(least, before)]
        same = "" if len(programs) < 2 else "; the same bytes" if len(set(answers)) < 2 else "; OTHER BYTES"
        print(f"{pathlib.Path(case).stem}, {times} times: {', '.join(growth)}{same}")
        for report in dict.fromkeys(answer[1] for answer in answers):
            print(f"    {gap(report)}", flush=True)
        before = least


def main(programs, rounds, cases):
    with tempfile.TemporaryDirectory() as made:
        folder = pathlib.Path(made)
        programs = [search.built(folder) if it == "unproved" else it for it in programs.split(",")]
        for case in cases:
            path, _, words = case.partition(":")
            measure(programs, rounds, path, words.split(",") if words else [], folder)


if __name__ == "__main__":
    if len(sys.argv) < 3:
        raise SystemExit(__doc__)
    numbers = [int(word) for word in sys.argv[2:] if word.isdigit()]
    main(sys.argv[1], (numbers + [1])[0], [word for word in sys.argv[2:] if not word.isdigit()])
