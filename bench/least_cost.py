"""The least cost of a small system over all rational schedules, found by enumeration of its commitments.

Each commitment is dispatched by a linear program of its own, see `simplex.py`, or hour by hour in order of merit where its ramps bind
nowhere. Those whose hours alone, each unit kept to what its own ramps reach, cost no less than the best so far are left out. The patterns,
caps and start costs are those of `random_repairs.py`; powers are whole megawatts, and the least cost is a fraction of a micro-dollar.
"""
import itertools
from fractions import Fraction
from types import SimpleNamespace as Record

import random_repairs
import simplex

MEGA = 1_000_000


def segments(unit):
    """The lower hull of a unit's points of rising outputs: the cost at the first, and length and dollars for a megawatt of each segment."""
    points = [(it["mw"], it["cost"]) for it in unit["piecewise_production"]]
    at, made = points[0], []
    while at[0] < points[-1][0]:
        slope, mw = min((Fraction(cost - at[1], mw - at[0]), -mw) for mw, cost in points if mw > at[0])
        made.append((-mw - at[0], slope))
        at = -mw, at[1] + slope * (-mw - at[0])
    return points[0][1], made


def course(unit, on, periods):
    """A unit's pattern with what its own ramps reach in each period; nothing where they reach no output."""
    first, lengths = segments(unit)
    made = Record(on=on, caps=random_repairs.caps(unit, on, periods), pmin=unit["power_output_minimum"], segments=lengths,
                  up=unit["ramp_up_limit"], down=unit["ramp_down_limit"], lows=[], highs=[], tops=[])
    made.cost = MEGA * first * sum(on) + random_repairs.start_cost(unit, on, periods)
    made.p0 = (unit["power_output_t0"] - made.pmin) * unit["unit_on_t0"]
    width, low, high = sum(length for length, _ in lengths), made.p0, made.p0
    for cap in made.caps:
        top = min(cap, high + made.up)
        low, high = max(low - made.down, 0), min(top, width)
        if low > high:
            return None
        for row, it in ((made.lows, low), (made.highs, high), (made.tops, top)):
            row.append(it)
    return made


def patterns(unit, periods):
    """All allowed patterns."""
    rows = [on for on in itertools.product((0, 1), repeat=periods) if random_repairs.is_allowed(unit, on, periods)]
    return [on for on in rows if min(random_repairs.caps(unit, on, periods)) >= 0]


def courses(unit, periods):
    """The courses of all allowed patterns by which the unit's own ramps reach some output."""
    made = [course(unit, on, periods) for on in patterns(unit, periods)]
    return [it for it in made if it]


def rises(made, t):
    """Whether the ramp up into period t may bind; into the first period it is in what the ramps reach."""
    return t > 0 and made.caps[t] > made.up + made.lows[t - 1]


def falls(made, t):
    return t > 0 and made.highs[t - 1] > made.down + made.lows[t]


def hour_of(instance, t):
    """Demand and reserve of a period, and the least and the most of its renewable units."""
    outputs = [[max(it[f"power_output_{end}"][t], 0) for end in ("minimum", "maximum")] for it in instance["renewable_generators"].values()]
    return instance["demand"][t], instance["reserves"][t], *map(sum, zip((0, 0), *outputs))


def merit_cost(hour, made, t):
    """What is above the first points in a period costs at least so much, in dollars; None where it can't be."""
    demand, reserve, least, most = hour
    left = demand - sum(it.pmin for it in made if it.on[t])
    low = max(left - most, sum(it.lows[t] for it in made))
    high = min(left - least, sum(it.highs[t] for it in made))
    if reserve > 0:
        high = min(high, sum(it.tops[t] for it in made) - reserve)
    if low > high:
        return None
    cost, given, steps = Fraction(0), 0, []
    for it in made:
        place = 0
        for length, slope in it.segments:
            must, may = (min(max(end - place, 0), length) for end in (it.lows[t], it.highs[t]))
            cost, given, place = cost + must * slope, given + must, place + length
            steps.append((slope, may - must))
    for slope, length in sorted(steps):
        taken = min(length, (high if slope < 0 else max(low, given)) - given)
        cost, given = cost + taken * slope, given + taken
    return cost


def bound_of(instance, hours, made):
    """No dispatch of these courses costs less, in micro-dollars; None where there is none."""
    total = sum(it.cost for it in made)
    for t, hour in enumerate(hours):
        cost = merit_cost(hour, made, t)
        if cost is None:
            return None
        total += MEGA * cost
    return total


class Program:
    """The linear program of a dispatch, in megawatts; its variables are segments' lengths, reserves and renewable outputs."""

    def __init__(self):
        self.costs, self.rows = [], []

    def variable(self, cost=0, most=None):
        self.costs.append(cost)
        if most is not None:
            self.row({len(self.costs) - 1: 1}, most)
        return len(self.costs) - 1

    def row(self, factors, limit):
        self.rows.append((factors, limit))

    def least(self):
        scale = 1
        for it in self.costs:
            scale *= Fraction(it * scale).denominator
        rows = [([factors.get(j, 0) for j in range(len(self.costs))], limit) for factors, limit in self.rows]
        found = simplex.least([int(it * scale) for it in self.costs], rows)
        return None if found is None else found / scale


def add_unit(program, made, hours):
    """The variables and rows of a course: what its output adds in each period, and its reserve there."""
    outputs, reserves = [], []
    for t, (_, reserve, *_) in enumerate(hours):
        output = {program.variable(slope, length): 1 for length, slope in made.segments} if made.on[t] else {}
        spare = {program.variable(): 1} if made.on[t] and reserve > 0 else {}
        program.row({**output, **spare}, made.tops[t] if t == 0 else made.caps[t])
        before = outputs[-1] if outputs else {}
        if t == 0:
            program.row({j: -1 for j in output}, made.down - made.p0)
        if rises(made, t):
            program.row({**output, **spare, **{j: -1 for j in before}}, made.up)
        if falls(made, t):
            program.row({**before, **{j: -1 for j in output}}, made.down)
        outputs.append(output)
        reserves.append(spare)
    return outputs, reserves


def dispatch_cost(hours, made):
    """The least cost of a dispatch of these courses, in micro-dollars; None where there is none."""
    program = Program()
    rows = [add_unit(program, it, hours) for it in made]
    for t, (demand, reserve, least, most) in enumerate(hours):
        given = {program.variable(most=most - least): 1} if most > least else {}
        for outputs, _ in rows:
            given.update(outputs[t])
        left = demand - least - sum(it.pmin for it in made if it.on[t])
        program.row(given, left)
        program.row({j: -1 for j in given}, -left)
        if reserve > 0:
            program.row({j: -1 for _, reserves in rows for j in reserves[t]}, -reserve)
    found = program.least()
    return None if found is None else sum(it.cost for it in made) + MEGA * found


def least_cost(instance):
    """The least cost of a schedule in micro-dollars; None where there is none."""
    periods, units = instance["time_periods"], instance["thermal_generators"].values()
    hours, bounded = [hour_of(instance, t) for t in range(periods)], []
    for number, made in enumerate(itertools.product(*(courses(it, periods) for it in units))):
        bound = bound_of(instance, hours, made)
        if bound is not None:
            bounded.append((bound, number, made))
    best = None
    for bound, _, made in sorted(bounded, key=lambda it: it[:2]):
        if best is not None and bound >= best:
            break
        binds = any(rises(it, t) or falls(it, t) for it in made for t in range(periods))
        cost = dispatch_cost(hours, made) if binds else bound
        if cost is not None and (best is None or cost < best):
            best = cost
    return best
