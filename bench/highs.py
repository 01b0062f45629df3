#!/usr/bin/env python3
"""Measures what HiGHS, a mixed-integer solver in floating point, finds on the model of the instance files as it stands.

    python3 bench/highs.py SECONDS [--shed=PRICE] [--spill-reserve=PRICE] CASE.json ..     # with scipy 1.9 or later

The model is M1 to M17 of docs/MODEL.md, one variable for each of its symbols, in megawatts and dollars, without cuts or bounds of our own.
HiGHS gets one processor, the gap of a thousandth, at which `uc` closes too, and so many seconds. Told are its cost, its bound, the gap
between them and the seconds of the processor, those of making the model left out.
"""
import json
import pathlib
import sys
import time

import numpy
import scipy.optimize
import scipy.sparse

GAP = 1e-3


class Model:
    """Variables with bounds and costs, and rows of a linear program with some whole variables."""

    def __init__(self):
        self.low, self.high, self.whole, self.cost = [], [], [], []
        self.entries, self.least, self.most = [], [], []

    def variable(self, low=0.0, high=numpy.inf, whole=False, cost=0.0):
        self.low.append(low)
        self.high.append(high)
        self.whole.append(int(whole))
        self.cost.append(cost)
        return len(self.low) - 1

    def row(self, terms, least=-numpy.inf, most=numpy.inf):
        self.entries += [(len(self.least), variable, factor) for variable, factor in terms]
        self.least.append(least)
        self.most.append(most)

    def solve(self, seconds):
        rows, columns, factors = zip(*self.entries)
        shape = (len(self.least), len(self.low))
        matrix = scipy.sparse.csr_matrix((factors, (rows, columns)), shape=shape)
        return scipy.optimize.milp(
            numpy.array(self.cost),
            integrality=numpy.array(self.whole),
            bounds=scipy.optimize.Bounds(self.low, self.high),
            constraints=scipy.optimize.LinearConstraint(matrix, self.least, self.most),
            options={"time_limit": seconds, "mip_rel_gap": GAP},
        )


class Unit:
    """The variables and rows of a thermal unit; periods count from 1, and what was before is a number."""

    def __init__(self, model, fields, periods):
        self.model, self.fields, self.periods = model, fields, range(1, periods + 1)
        self.least = fields["power_output_minimum"]
        self.span = fields["power_output_maximum"] - self.least
        self.was_on = fields["unit_on_t0"]
        self.on = {t: model.variable(0, 1, True) for t in self.periods}
        self.start = {t: model.variable(0, 1, True) for t in self.periods}
        self.stop = {t: model.variable(0, 1, True) for t in self.periods}
        self.output = {t: model.variable() for t in self.periods}
        self.reserve = {t: model.variable() for t in self.periods}
        self.commitment()
        self.categories()
        self.production()
        self.ramps()

    def fix(self, variable, value):
        self.model.low[variable] = self.model.high[variable] = value

    def commitment(self):
        fields, model, last = self.fields, self.model, self.periods[-1]
        up, down = max(fields["time_up_minimum"], 1), max(fields["time_down_minimum"], 1)
        for t in self.periods:
            terms = [(self.on[t], 1), (self.start[t], -1), (self.stop[t], 1)]
            before = 0 if t > 1 else self.was_on
            model.row(terms + ([(self.on[t - 1], -1)] if t > 1 else []), before, before)
            if fields["must_run"]:
                self.fix(self.on[t], 1)
            if t >= min(up, last):
                recent = range(t - min(up, last) + 1, t + 1)
                model.row([(self.start[i], 1) for i in recent] + [(self.on[t], -1)], most=0)
            if t >= min(down, last):
                recent = range(t - min(down, last) + 1, t + 1)
                model.row([(self.stop[i], 1) for i in recent] + [(self.on[t], 1)], most=1)
        held = up - fields["time_up_t0"] if self.was_on else down - fields["time_down_t0"]
        for t in self.periods[: max(held, 0)]:
            self.fix(self.on[t], self.was_on)

    def categories(self):
        rows, off = self.fields["startup"], self.fields["time_down_t0"]
        for t in self.periods:
            chosen = [self.model.variable(0, 1, True, row["cost"]) for row in rows]
            self.model.row([(it, 1) for it in chosen] + [(self.start[t], -1)], 0, 0)
            for variable, row, colder in zip(chosen, rows, rows[1:]):
                if t >= colder["lag"]:
                    stops = [(self.stop[t - i], -1) for i in range(row["lag"], colder["lag"])]
                    self.model.row([(variable, 1)] + stops, most=0)
                elif t >= max(1, colder["lag"] - off + 1):
                    self.fix(variable, 0)

    def production(self):
        points, model = self.fields["piecewise_production"], self.model
        above_start = max(self.fields["power_output_maximum"] - self.fields["ramp_startup_limit"], 0)
        above_stop = max(self.fields["power_output_maximum"] - self.fields["ramp_shutdown_limit"], 0)
        self.initial = self.was_on * (self.fields["power_output_t0"] - self.least)
        if self.was_on:
            model.row([(self.stop[1], above_stop)], most=self.span - self.initial)
        for t in self.periods:
            weights = [model.variable(0, 1, False, point["cost"]) for point in points]
            model.row([(it, 1) for it in weights] + [(self.on[t], -1)], 0, 0)
            steps = [(it, point["mw"] - points[0]["mw"]) for it, point in zip(weights, points)]
            model.row(steps + [(self.output[t], -1)], 0, 0)
            used = [(self.output[t], 1), (self.reserve[t], 1), (self.on[t], -self.span)]
            model.row(used + [(self.start[t], above_start)], most=0)
            if t + 1 in self.stop:
                model.row(used + [(self.stop[t + 1], above_stop)], most=0)

    def ramps(self):
        for t in self.periods:
            before = [(self.output[t - 1], -1)] if t > 1 else []
            first = self.initial if t == 1 else 0
            rise = [(self.output[t], 1), (self.reserve[t], 1)] + before
            self.model.row(rise, most=self.fields["ramp_up_limit"] + first)
            fall = [(self.output[t], 1)] + before
            self.model.row(fall, least=first - self.fields["ramp_down_limit"])


def model_of(instance, shed=0, spill_reserve=0):
    model, periods = Model(), instance["time_periods"]
    units = [Unit(model, fields, periods) for fields in instance["thermal_generators"].values()]
    for t in range(1, periods + 1):
        given = [(unit.output[t], 1) for unit in units] + [(unit.on[t], unit.least) for unit in units]
        for fields in instance["renewable_generators"].values():
            low, high = (fields[f"power_output_{end}"][t - 1] for end in ("minimum", "maximum"))
            given.append((model.variable(max(low, 0), high), 1))
        demand, need = instance["demand"][t - 1], instance["reserves"][t - 1]
        model.row(given + short(model, demand, shed), demand, demand)
        model.row([(unit.reserve[t], 1) for unit in units] + short(model, need, spill_reserve), least=need)
    return model


def short(model, most, price):
    """What may be short of demand or of reserve, where that has a price."""
    return [(model.variable(0, max(most, 0), False, price), 1)] if price else []


def main(seconds, words):
    cases = [it for it in words if not it.startswith("--")]
    options = dict(it[2:].split("=") for it in words if it.startswith("--"))
    prices = {name.replace("-", "_"): int(price) for name, price in options.items()}
    for case in cases:
        model = model_of(json.loads(pathlib.Path(case).read_text()), **prices)
        start = time.process_time()
        found = model.solve(seconds)
        took = time.process_time() - start
        if found.x is None:
            print(f"{pathlib.Path(case).stem}: no schedule in {took:.1f} s")
            continue
        gap = (found.fun - found.mip_dual_bound) / abs(found.fun)
        print(f"{pathlib.Path(case).stem}: cost {found.fun:.2f}, bound {found.mip_dual_bound:.2f}, gap {gap:.4%} in {took:.1f} s", flush=True)


if __name__ == "__main__":
    if len(sys.argv) < 3:
        raise SystemExit(__doc__)
    main(float(sys.argv[1]), sys.argv[2:])
