#!/usr/bin/env python3
"""Searches with `--pivot` of small random systems, whose least costs are found by enumeration, and how many claims they take.

    python3 bench/pivot_search.py PROGRAM [COUNT [SEED]] [plain]     # PROGRAM is `crates/uc/out/uc`, or `unproved`

A system has at most 12 cells, whole megawatts and dollars, units as in `random_repairs.py` and regular start rows; some have ramps,
reserves or a renewable unit. One in four has no schedule, and for half of all one worker without the option makes at least five claims.
The budget is 2^(cells + 1), and the gap the least at which the tolerance of each schedule's cost is 2*cells + 2*hours + 1 micro-dollars.
Each is solved by 1, 2 and 4 workers with the option and without it, and one in four also with `--exact-units`. A run fails where it
doesn't end within ten minutes; with the option where it ends with another status than 0 and 3; where it says that there is no schedule,
or prints one, and it isn't so; where a cost is below the least one, a bound above it, or both further apart than the gap; and where
`check` or `examples/check.py` refuses its certificate. A run that ends with 1 or 2 is told apart where the exact dispatch of some
commitment is Wide, as a program of `pivot.py` says, which is built when it is needed first. Told are how many runs ended in which way,
the claims and their share of the budget, with and without the option, and the system of each run that failed. The status is 1 where one
did. With `plain` all runs are without the option, and no status of them is a failure.
"""
import collections
import itertools
import json
import pathlib
import random
import statistics
import subprocess
import sys
import tempfile

import least_cost
import pivot
import random_repairs
import random_runs
import search
import unproved
import workers

sys.path.insert(0, str(search.TOP / "examples"))
import check  # noqa: E402

PIVOT, EXACT = "--pivot", "--exact-units"
WORKERS = 1, 2, 4
CLAIMS, SECONDS, MILLION = 5, 600, 10**6
# Units and hours.
SHAPES = [(1, 6), (1, 10), (2, 3), (2, 4), (2, 5), (2, 6), (3, 2), (3, 3), (3, 4), (4, 2), (4, 3), (6, 2)]

System = collections.namedtuple("System", "instance best units gap")
Setting = collections.namedtuple("Setting", "exact workers options")
Run = collections.namedtuple("Run", "end claims share denominator")

ALONE = Setting((), 1, ())


def regular_rows(chance, down):
    """Start rows of which neither lags nor costs decrease, and whose first lag is at most the minimum down time."""
    lag, cost, rows = chance.randint(1, down), chance.randint(0, 60), []
    for _ in range(chance.randint(1, 3)):
        rows.append({"lag": lag, "cost": cost})
        lag, cost = lag + chance.randint(0, 2), cost + chance.choice([0, chance.randint(1, 60)])
    return rows


def drawn_unit(chance, has_ramps):
    unit = random_repairs.random_unit(chance, False)
    unit["startup"] = regular_rows(chance, unit["time_down_minimum"])
    if not has_ramps:
        for name in ("ramp_up_limit", "ramp_down_limit", "ramp_startup_limit", "ramp_shutdown_limit"):
            unit[name] = unit["power_output_maximum"]
    return unit


def drawn_instance(chance):
    units, periods = chance.choice(SHAPES)
    has_ramps = chance.random() < 0.6
    thermal = {f"g{g}": drawn_unit(chance, has_ramps) for g in range(units)}
    most = sum(it["power_output_maximum"] for it in thermal.values())
    renewable, reserves = {}, [0] * periods
    if chance.random() < 0.4:
        ends = [sorted(chance.randint(0, 3) for _ in range(2)) for _ in range(periods)]
        renewable["w"] = {f"power_output_{end}": [it[n] for it in ends] for n, end in enumerate(("minimum", "maximum"))}
    if chance.random() < 0.6:
        reserves = [chance.choice([0, 1, 1, 2]) for _ in range(periods)]
    return {
        "time_periods": periods, "demand": random_repairs.random_demand(chance, thermal, periods, most), "reserves": reserves,
        "thermal_generators": thermal, "renewable_generators": renewable,
    }


def system_of(instance, best):
    """The system with its budget and the least gap."""
    hours = instance["time_periods"]
    cells = hours * len(instance["thermal_generators"])
    tolerance = 2 * cells + 2 * hours + 1
    return System(instance, best, 2 ** (cells + 1), 1 if best is None else int(-(-tolerance * MILLION // best)))


def solved(program, case, certificate, system, setting):
    """A run of `solve`; no run where it doesn't end."""
    words = [program, "solve", case, "--cert", certificate, "--workers", str(setting.workers), *setting.options]
    try:
        return subprocess.run([*words, *limits(system)], capture_output=True, text=True, timeout=SECONDS)
    except subprocess.TimeoutExpired:
        return None


def limits(system):
    return ["--units", str(system.units), "--gap", str(system.gap)]


def drawn(program, chance, has_schedule, claims, folder):
    """The next system with a schedule, which costs a dollar or more, or without one, for which one worker makes so many claims."""
    case = folder / "drawn.json"
    while True:
        instance = drawn_instance(chance)
        best = least_cost.least_cost(instance)
        if (best is not None) != has_schedule or has_schedule and best < MILLION:
            continue
        system = system_of(instance, best)
        case.write_text(json.dumps(instance))
        ran = solved(program, case, folder / "drawn.cert", system, ALONE)
        if not ran or workers.evaluations(ran.stdout) >= claims:
            return system


class Wides:
    """Whether the exact dispatch of some commitment of a system is Wide."""

    def __init__(self, folder):
        self.folder, self.program = folder, None

    def is_any(self, instance):
        if not self.program:
            (self.folder / "asking").mkdir()
            self.program = unproved.build(self.folder / "asking", pivot.LIBRARIES, pivot.PROGRAM, checks=False)
        (self.folder / "instance.json").write_text(json.dumps(instance))
        hours = instance["time_periods"]
        for commitment in itertools.product(*(least_cost.patterns(it, hours) for it in instance["thermal_generators"].values())):
            (self.folder / "commitment").write_text(" ".join("".join("01"[on] for on in row) for row in commitment))
            if unproved.run(self.program, self.folder)[0].startswith("wide"):
                return True
        return False


def refusal(case, certificate):
    """Why `examples/check.py` refuses a certificate, if it does."""
    try:
        check.verdict([str(case), str(certificate)])
    except check.Refused as refused:
        return str(refused)
    return None


def fault(system, ran, checked, case, certificate):
    """What is untrue of what a run says, if anything."""
    status, cost, bound = ran.returncode, *(random_runs.micro_dollars(ran.stdout, name) for name in ("cost", "bound"))
    if status not in range(4):
        return f"status {status}: {ran.stderr.strip()}"
    refused = checked.stderr.strip() if checked.returncode else refusal(case, certificate)
    if refused:
        return f"its certificate is refused: {refused}"
    if system.best is None:
        return None if status != 0 and cost is None else f"status {status} and cost {cost}, and there is no schedule"
    if status == 3 or bound > system.best or cost is not None and cost < system.best:
        return f"status {status}, cost {cost} and bound {bound}, where the least is {system.best}"
    if status == 0 and cost - bound > cost * system.gap // MILLION:
        return f"status 0 with cost {cost} and bound {bound}"
    return None


class Trial:
    """The runs of the program by their settings, and how many of them failed."""

    def __init__(self, program, folder):
        self.program, self.case, self.certificate = program, folder / "system.json", folder / "found.cert"
        self.wides, self.runs, self.failed = Wides(folder), collections.defaultdict(list), 0

    def run(self, system, setting):
        """How a run ended, and what is wrong with it, if anything."""
        self.certificate.unlink(missing_ok=True)
        ran = solved(self.program, self.case, self.certificate, system, setting)
        if not ran:
            return Run("no end", 0, 0, 1), "it doesn't end"
        claims, end = workers.evaluations(ran.stdout), f"status {ran.returncode}"
        checked = workers.checked(self.program, self.case, self.certificate)
        wrong = fault(system, ran, checked, self.case, self.certificate)
        if not wrong and PIVOT in setting.options and ran.returncode in (1, 2):
            is_wide = self.wides.is_any(system.instance)
            end, wrong = ("wide", None) if is_wide else (end, f"{end} by {claims} claims")
        return Run(end, claims, claims / system.units, int(search.amount(ran.stdout, "denominator") or 1)), wrong

    def solve(self, system, settings):
        self.case.write_text(json.dumps(system.instance))
        for setting in settings:
            made, wrong = self.run(system, setting)
            self.runs[setting].append(made)
            if wrong:
                self.failed += 1
                words = " ".join([*setting.options, "--workers", str(setting.workers), *limits(system)])
                print(f"FAILED: {words}: {wrong}: {json.dumps(system.instance)}", flush=True)


def settings_of(has_exact, has_pivot):
    """How a system is solved: each number of workers, without the option and with it, and the same with exact units."""
    return [Setting(exact, count, exact + pivot) for exact in ((), (EXACT,))[:1 + has_exact] for count in WORKERS
            for pivot in ((), (PIVOT,))[:1 + has_pivot]]


def tell(runs):
    for setting, made in sorted(runs.items()):
        ends = ", ".join(f"{end}: {times}" for end, times in sorted(collections.Counter(it.end for it in made).items()))
        claims, over = [it.claims for it in made], sum(it.denominator > 1 for it in made)
        print(f"{setting.workers} workers {' '.join(setting.options) or 'alone'}: {ends}", end="; ")
        print(f"{sum(it > 1 for it in claims)} made more than one claim, {over} end over a denominator", end="; ")
        print(f"claims: median {statistics.median(claims):g}, at most {max(claims)}, and {max(it.share for it in made):.3f} of the budget")


def main(program, count, seed, has_pivot):
    chance = random.Random(seed)
    with tempfile.TemporaryDirectory() as made:
        folder = pathlib.Path(made)
        program = search.built(folder) if program == "unproved" else pathlib.Path(program).resolve()
        trial = Trial(program, folder)
        for number in range(count):
            system = drawn(program, chance, number % 4 > 0, CLAIMS * (number // 4 % 2), folder)
            trial.solve(system, settings_of(chance.random() < 0.25, has_pivot))
    tell(trial.runs)
    print(f"{count} systems, {sum(map(len, trial.runs.values()))} runs, {trial.failed} failed")
    return trial.failed


if __name__ == "__main__":
    words = [it for it in sys.argv[1:] if it != "plain"]
    if not 1 <= len(words) <= 3:
        raise SystemExit(__doc__)
    numbers = (int(it) for it in (words[1:] + ["1000", "1"][len(words) - 1:]))
    sys.exit(main(words[0], *numbers, "plain" not in sys.argv[1:]) > 0)
