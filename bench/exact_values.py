#!/usr/bin/env python3
"""The exact value E of small units by plain enumeration, from its definition alone.

    python3 bench/exact_values.py [COUNT [SEED]]

A unit has up to 4 MW above its minimum, two convex segments, and up to three hours; outputs and reserves are whole megawatts over a
denominator of 1, 2 or 3. Asked is that the least over each denominator is the one over 1, and, of a unit of 10 to 50 MW at 20 MW that can
fall by 5 MW in an hour, that E at no prices is 150 dollars at the scale of a million, and 10 MW at the ray of too much for a demand of 5; and
numbers of the cases of `crates/run_cases/data/exact`.
"""
import itertools
import random
import sys
from fractions import Fraction
from math import floor


def floored(unit, k, q, p):
    """q*L(p/q): K times the cost at no output, and a slope rounded down for each step of 1/q."""
    slopes = [floor(k * slope) for slope in unit["slopes"]]
    return q * k * unit["cost"] + sum(slopes[y // q] for y in range(p))


def reaches(unit, pattern, q, outputs, reserves):
    """Whether outputs and reserves over q keep M9 to M12, in off hours too."""
    width, before = unit["pmax"] - unit["pmin"], q * (unit["p0"] - unit["pmin"] if unit["on0"] else 0)
    for t, (on, p, r) in enumerate(zip(pattern, outputs, reserves)):
        was = pattern[t - 1] if t else unit["on0"]
        start = on * width - max(unit["pmax"] - unit["su"], 0) * (on and not was)
        falls = t + 1 < len(pattern) and on and not pattern[t + 1]
        stop = on * width - max(unit["pmax"] - unit["sd"], 0) * falls
        if not on and (p or r) or p > q * len(unit["slopes"]) or p + r > q * min(start, stop if t + 1 < len(pattern) else start):
            return False
        if p + r - before > q * unit["ru"] or before - p > q * unit["rd"]:
            return False
        before = p
    return True


def least(unit, k, pi, mu, q):
    """The least value over q of a schedule of the unit's own, or None."""
    hours, most = range(len(pi)), q * (unit["pmax"] - unit["pmin"])
    best = None
    for pattern in itertools.product((False, True), repeat=len(pi)):
        if unit["on0"] and not pattern[0] and unit["p0"] - unit["pmin"] > unit["pmax"] - unit["pmin"] - max(unit["pmax"] - unit["sd"], 0):
            continue
        choices = [[(p, r) for p in range(most + 1) for r in range(most + 1 - p)] if on else [(0, 0)] for on in pattern]
        for cells in itertools.product(*choices):
            if reaches(unit, pattern, q, [p for p, _ in cells], [r for _, r in cells]):
                value = sum(floored(unit, k, q, cells[t][0]) - pi[t] * (cells[t][0] + q * unit["pmin"]) - mu[t] * cells[t][1]
                            for t in hours if pattern[t])
                best = value if best is None else min(best, value)
    return best


def drawn(chance):
    pmin, width = chance.randint(0, 2), chance.randint(1, 2)
    first = chance.randint(-4, 4)
    slopes = sorted((Fraction(first, 3), Fraction(first, 3) + Fraction(chance.randint(0, 3), 2)))
    return {"pmin": pmin, "pmax": pmin + width, "ru": chance.randint(0, 2), "rd": chance.randint(0, 2), "on0": chance.random() < 0.5,
            "su": pmin + chance.randint(0, 2), "sd": pmin + chance.randint(0, 2), "p0": pmin + chance.randint(0, width),
            "cost": chance.randint(-3, 3), "slopes": [slopes[0]] + [slopes[1]] * (width - 1)}


def main(count, seed):
    base = {"pmin": 10, "pmax": 50, "ru": 40, "rd": 5, "su": 50, "sd": 50, "p0": 20, "on0": True, "cost": 100, "slopes": [10] * 40}
    million = 1_000_000
    # in megawatts a price of one micro-dollar for a watt is a dollar
    assert least(base, million, [0], [0], 1) * million == 150_000_000_000_000
    assert least(base, 0, [-1], [0], 1) - 5 == 10
    # at $8 a MWh, besides at $1 a MW of reserve, and where it rises by 12 MW; with points up to 12 MW it has no schedule
    assert [least(base, 1, [8], [reserve], 1) for reserve in (0, 1)] == [30, -5]
    assert least(dict(base, ru=12), 1, [8], [1], 1) == 13
    assert least(dict(base, slopes=[10] * 2), 1, [0], [0], 1) is None
    # a slope of 10 dollars for 3 MW at the scale 1, and a unit that is at 13 MW or more
    thin = dict(base, rd=7, slopes=[Fraction(10, 3)] * 3)
    assert least(thin, 1, [0], [0], 1) == 109
    # two hours, of a unit up to 20 MW: 15 MW in the first, and off in the second
    small = dict(base, pmax=20, su=20, sd=20, ru=10, slopes=[10] * 10)
    assert least(small, 1, [0, 0], [0, 0], 1) == 150
    chance, wrong = random.Random(seed), 0
    for number in range(count):
        unit, hours = drawn(chance), chance.randint(1, 2)
        k = chance.randint(0, 3)
        pi, mu = [chance.randint(-4, 4) for _ in range(hours)], [chance.randint(0, 3) for _ in range(hours)]
        own = least(unit, k, pi, mu, 1)
        for q in (2, 3):
            other = least(unit, k, pi, mu, q)
            if (own is None) != (other is None) or own is not None and other < q * own:
                wrong += 1
                print(f"unit {number}: {own} in whole megawatts, and {other} over {q}")
    print(f"{count} units, {wrong} with a lower value over another denominator")
    return wrong


if __name__ == "__main__":
    numbers = [int(word) for word in sys.argv[1:]]
    sys.exit(main(*(numbers + [300, 1][len(numbers):])) > 0)
