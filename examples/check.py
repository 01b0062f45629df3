#!/usr/bin/env python3
"""Checks a certificate of `uc` as docs/CHECKER.md tells it, and shares no code with the program.

    examples/check.py [--shed PRICE] [--spill-reserve PRICE] INSTANCE CERTIFICATE

The prices are those of unserved demand and of missing reserve that `uc solve` was given. Prints the claim and ends with 0 where the
certificate holds. Else it says why on the error output, by the line and the status of `uc check`; of bytes that are no JSON it tells no
place. It needs Python 3.8 or later and nothing else. Numbers are whole: watts, micro-dollars, hours. Units, periods, tables and nodes
count from 1.
"""
import argparse
import bisect
import json
import re
import sys
from math import inf
from types import SimpleNamespace as Record

MILLION = 10**6
USAGE = "usage: check.py [--shed PRICE] [--spill-reserve PRICE] INSTANCE CERTIFICATE"


class Refused(Exception):
    def __init__(self, status, line):
        super().__init__(line)
        self.status = status


class Words(argparse.ArgumentParser):
    def error(self, _):
        raise Refused(5, USAGE)


def price_of(text):
    """A price of what is short, in dollars a megawatt-hour, which are micro-dollars for a watt and an hour."""
    if not re.fullmatch("[0-9]{1,7}", text) or not 1 <= int(text) <= MILLION:
        raise ValueError(text)
    return int(text)


def words_of(words):
    parser = Words(add_help=False, allow_abbrev=False)
    for option in ("--shed", "--spill-reserve"):
        parser.add_argument(option, type=price_of, default=0)
    for name in ("instance", "certificate"):
        parser.add_argument(name)
    return parser.parse_args(words)


# The instance: FORMATS.md, "Numbers" and "The instance"


class Number(str):
    """A number as the file has it, with all its digits."""


def scaled(number):
    """The number in millionths, half of one away from zero; of one that is past all limits the last digits alone are right."""
    head, _, exponent = number.lower().partition("e")
    whole, _, fraction = head.lstrip("-").partition(".")
    digits = (whole + fraction).lstrip("0")
    power_of_ten = int((exponent.lstrip("+-").lstrip("0") or "0")[:12]) * (-1 if exponent.startswith("-") else 1)
    kept = len(digits) - len(fraction) + 6 + power_of_ten
    if not digits or kept < 0:
        return 0
    front = digits[:kept] + "0" * min(kept - len(digits), 50)
    front = front if len(front) <= 40 else "1" + front[-40:]
    size = int(front or "0") + (digits[kept:kept + 1] >= "5")
    return -size if head.startswith("-") else size


def refuse_instance(code, place):
    raise Refused(4, f"instance: {code} {place}".rstrip())


def of_kind(kind, value, place):
    return value if isinstance(value, kind) else refuse_instance("I2", place)


def number(value, place, *ranges, is_whole=False):
    """The number that stands there; each range is a code, and the least and the greatest number that it lets pass."""
    amount = scaled(of_kind(Number, value, place))
    if is_whole and amount % MILLION:
        refuse_instance("I3", place)
    amount = amount // MILLION if is_whole else amount
    for code, least, most in ranges:
        if not least <= amount <= most:
            refuse_instance(code, place)
    return amount


def power(value, place, least=-inf):
    return number(value, place, ("I4", -10**13, 10**13), ("I5", least, inf))


def cost(value, place):
    return number(value, place, ("I4", -5 * 10**12, 5 * 10**12))


def hours(value, place):
    return number(value, place, ("I4", 0, MILLION), is_whole=True)


def flag(value, place):
    return number(value, place, ("I5", 0, 1), is_whole=True)


def quoted(name):
    return '"' + "".join("\\" + it if it in '"\\' else f"\\u{ord(it):04x}" if it < " " else it for it in name) + '"'


class Fields:
    """An object of the file; the text of a field's place is its name between two others."""

    def __init__(self, value, own_place, before="", after=""):
        self.values, self.before, self.after = of_kind(dict, value, own_place), before, after

    def at(self, name):
        return self.before + name + self.after

    def value(self, name):
        return self.values[name] if name in self.values else refuse_instance("I1", self.at(name))

    def read(self, kind, name, *rest):
        return kind(self.value(name), self.at(name), *rest)

    def array(self, name, least, most, code):
        values = of_kind(list, self.value(name), self.at(name))
        if not least <= len(values) <= most:
            refuse_instance(code if len(values) < least else "I7", self.at(name))
        return values

    def powers(self, name, periods, least=()):
        values = self.array(name, periods, inf, "I6")[:periods]
        return [power(it, f"{self.at(name)} {n + 1}", *least[n:n + 1]) for n, it in enumerate(values)]

    def rows(self, name, most):
        for n, it in enumerate(self.array(name, 1, most, "I5"), 1):
            yield Fields(it, f"{self.at(name)} {n}", f"{self.at(name)}.", f" {n}")

    def units(self, name, word, make):
        units = of_kind(dict, self.value(name), self.at(name))
        if len(units) > 4096:
            refuse_instance("I7", self.at(name))
        return [make(Fields(it, f"{word} {quoted(key)}", f"{word} {quoted(key)} ")) for key, it in units.items()]


def points_of(fields):
    """The points as output above the first one, and cost."""
    points, last = [], -inf
    for row in fields.rows("piecewise_production", 64):
        last = row.read(power, "mw", last)
        points.append((last, row.read(cost, "cost")))
    return [(mw - points[0][0], amount) for mw, amount in points]


def thermal_of(fields):
    read = fields.read
    unit = Record(must_run=read(flag, "must_run"), pmin=read(power, "power_output_minimum", 0))
    pmax = read(power, "power_output_maximum", unit.pmin)
    unit.span = pmax - unit.pmin
    unit.ramp_up, unit.ramp_down = read(power, "ramp_up_limit", 0), read(power, "ramp_down_limit", 0)
    unit.start_cap = unit.span - max(pmax - read(power, "ramp_startup_limit", 0), 0)
    unit.stop_cap = unit.span - max(pmax - read(power, "ramp_shutdown_limit", 0), 0)
    unit.up, unit.down = max(read(hours, "time_up_minimum"), 1), max(read(hours, "time_down_minimum"), 1)
    output = read(power, "power_output_t0")
    unit.on0 = read(flag, "unit_on_t0")
    unit.p0 = output - unit.pmin if unit.on0 else 0
    unit.up0, unit.down0 = read(hours, "time_up_t0"), read(hours, "time_down_t0")
    unit.startup = [(row.read(hours, "lag"), row.read(cost, "cost")) for row in fields.rows("startup", 16)]
    points = points_of(fields)
    unit.width, unit.hull = points[-1][0], lower_hull(points)
    return unit


def instance_of(value):
    top = Fields(value, "")
    periods = number(top.value("time_periods"), "time_periods", ("I5", 1, inf), ("I7", -inf, 168), is_whole=True)

    def renewable_of(fields):
        least = [max(it, 0) for it in fields.powers("power_output_minimum", periods)]
        return Record(least=least, most=fields.powers("power_output_maximum", periods, least))

    return Record(
        periods=periods, demand=top.powers("demand", periods), reserves=top.powers("reserves", periods),
        thermal=top.units("thermal_generators", "thermal", thermal_of),
        renewable=top.units("renewable_generators", "renewable", renewable_of))


def penalize(instance, shed, spill_reserve):
    """Sets the prices of unserved demand and of missing reserve, 0 where there is none, and the most of each that a period may have."""
    instance.prices = shed, spill_reserve
    instance.most_short = [max(it, 0) for it in instance.demand], [max(it, 0) for it in instance.reserves]
    if sum(it * sum(most) for it, most in zip(instance.prices, instance.most_short)) > 2 * 10**18:
        refuse_instance("I9", "")


def json_of(data):
    """The JSON value of the bytes: UTF-8, at most 64 levels, no key twice, no surrogate by itself."""
    def object_of(pairs):
        values = dict(pairs)
        if len(values) < len(pairs):
            raise ValueError("a key twice")
        "".join(values).encode()
        return values

    def refuse_constant(word):
        raise ValueError(word)

    hooks = {"object_pairs_hook": object_of, "parse_int": Number, "parse_float": Number, "parse_constant": refuse_constant}
    try:
        value = json.loads(data.decode(), **hooks)
        layer, level = [value], 0
        while layer:
            "".join(it for it in layer if isinstance(it, str)).encode()
            inner = [list(it.values()) if isinstance(it, dict) else it for it in layer if isinstance(it, (dict, list))]
            layer, level = [it for values in inner for it in values], level + bool(inner)
        if level > 64:
            raise ValueError("too deep")
    except (ValueError, RecursionError):
        raise Refused(4, "instance: no JSON text within the limits") from None
    return value


# The certificate's lines: FORMATS.md, "The certificate"

WHOLE = "(?:0|[1-9][0-9]{0,17})"
SIGNED = "(?:0|-?[1-9][0-9]{0,17})"
WATT = "(?:0|-?[1-9][0-9]{0,14})"
MONEY = r"(?!-0\.000000)-?(?:0|[1-9][0-9]{0,31})\.[0-9]{6}"
CELL = f"(?:-|{WATT}:{WATT}:{WHOLE})"


class Lines:
    """The lines of a certificate, of which some are taken."""

    def __init__(self, data):
        self.lines, self.taken = data.split(b"\n"), 0

    def refuse(self, number, what):
        raise Refused(9, f"certificate: line {number}: {what}")

    def take(self, pattern, fits=lambda *words: True):
        """The words of the next line, which has to match and to fit; whole numbers come as such."""
        if self.taken + 1 == len(self.lines):
            self.refuse(self.taken + 1, "cut short")
        line = self.lines[self.taken].decode("latin-1")
        self.taken += 1
        words = [int(it) if re.fullmatch(SIGNED, it) else it for it in line.split(" ")]
        if not re.fullmatch(pattern, line) or not fits(*words):
            self.refuse(self.taken, "form")
        return words

    def end(self):
        self.take("end")
        if self.taken + 1 < len(self.lines) or self.lines[-1]:
            self.refuse(self.taken + 1, "bytes after the end")


def micro_dollars(text):
    return int(text.replace(".", ""))


def cells_of(lines, periods):
    """A unit's row: nothing for a cell that is off, else output above the minimum, reserve and category."""
    def are_categories(_, *cells):
        return all(int(it.split(":")[2]) <= 255 for it in cells if it != "-")

    _, *cells = lines.take(f"t(?: {CELL}){{{periods}}}", are_categories)
    return [None if it == "-" else tuple(map(int, it.split(":"))) for it in cells]


def watts_of(lines, word, periods):
    return lines.take(f"{word}(?: {WATT}){{{periods}}}")[1:]


def prices_of(lines, version):
    """The prices, 0 where there is no such line, and the words of the line behind."""
    def may_stand(word, *rest):
        return max(rest) <= MILLION and any(rest) if word == "penalty" else len(rest) == 1 or 2 <= rest[2] <= 99

    schedule = f"schedule (?:none|{MONEY}{f'(?: over {WHOLE})?' if version == 3 else ''})"
    words = lines.take(f"penalty {WHOLE} {WHOLE}|{schedule}", may_stand)
    return ((0, 0), words) if words[0] == "schedule" else (tuple(words[1:]), lines.take(schedule, may_stand))


def table_of(lines, units, periods):
    _, scale = lines.take(f"table {WHOLE}")
    _, *pi = lines.take(f"pi(?: {SIGNED}){{{periods}}}")
    _, *mu = lines.take(f"mu(?: {SIGNED}){{{periods}}}")
    _, count = lines.take(f"ramps {WHOLE}")
    ramps, last = {}, (0, 0)
    for _ in range(count):
        _, g, t, up, down = lines.take(
            f"ramp {WHOLE} {WHOLE} {SIGNED} {SIGNED}",
            lambda _, g, t, up, down: last < (g, t) and 1 <= g <= units and 1 <= t <= periods and (up or down))
        ramps[g, t], last = (up, down), (g, t)
    return Record(scale=scale, pi=pi, mu=mu, ramps=ramps)


def next_table_of(lines, units, periods, before):
    """The table that is told by its difference to the one before it: numbers that are others, in the order p, m, r."""
    _, scale, count = lines.take(f"next {WHOLE} {WHOLE}")
    table = Record(scale=scale, pi=before.pi[:], mu=before.mu[:], ramps=dict(before.ramps))
    last = ()

    def place_of(word, *numbers):
        return ("pmr".index(word), *numbers[:-2 if word == "r" else -1])

    def is_change(word, *numbers):
        place = place_of(word, *numbers)
        is_within = 1 <= place[-1] <= periods and (word != "r" or 1 <= place[1] <= units)
        return is_within and last < place and numbers[len(place) - 1:] != old_of(place)

    def old_of(place):
        return table.ramps.get(place[1:], (0, 0)) if place[0] == 2 else ((table.pi, table.mu)[place[0]][place[1] - 1],)

    for _ in range(count):
        word, *numbers = lines.take(f"[pm] {WHOLE} {SIGNED}|r {WHOLE} {WHOLE} {SIGNED} {SIGNED}", is_change)
        last = place_of(word, *numbers)
        if word == "r":
            table.ramps[last[1:]] = tuple(numbers[2:])
        else:
            (table.pi, table.mu)[last[0]][last[1] - 1] = numbers[1]
    table.ramps = {place: row for place, row in table.ramps.items() if any(row)}
    return table


def tables_of(lines, version, units, periods, count):
    """The tables: in versions 2 and 3 each but the first by its difference to the one before it."""
    tables = []
    for _ in range(count):
        is_whole = version == 1 or not tables
        tables.append(table_of(lines, units, periods) if is_whole else next_table_of(lines, units, periods, tables[-1]))
    return tables


# What each leaf says, and whether by the exact value VE.
LEAVES = {
    "bound": ("bound", False), "ray": ("ray", False), "empty": ("empty", False),
    "exact": ("bound", True), "exact-ray": ("ray", True), "exact-empty": ("empty", True),
}


def nodes_of(lines, version, units, periods, tables):
    """The tree's nodes in the order of their lines, each as its words."""
    leaves = "|".join(word for word, (_, is_exact) in LEAVES.items() if version == 3 or not is_exact)

    def may_stand(word, number, period=1):
        is_of_unit = word in ("split", "empty", "exact-empty")
        return 1 <= number <= (units if is_of_unit else tables) and 1 <= period <= periods

    nodes, owed = [], 1
    while owed:
        nodes.append(lines.take(f"(?:{leaves}) {WHOLE}|split {WHOLE} {WHOLE}", may_stand))
        owed += 1 if nodes[-1][0] == "split" else -1
    return nodes


def certificate_of(data):
    lines = Lines(data)
    _, version = lines.take("uc-certificate [123]")
    _, periods, units, renewables, tables = lines.take(
        f"size(?: {WHOLE}){{4}}", lambda _, t, g, w, n: 1 <= t <= 168 and g <= 4096 and w <= 4096 and n < 2**32)
    read = Record(size=(periods, units, renewables), cost=None)
    claim = lines.take(f"claim bound {MONEY}|claim infeasible")
    read.bound = micro_dollars(claim[2]) if claim[1] == "bound" else None
    read.prices, (_, written, *over) = prices_of(lines, version)
    read.denominator = over[1] if over else 1
    if written != "none":
        read.cost = micro_dollars(written)
        read.cells = [cells_of(lines, periods) for _ in range(units)]
        read.outputs = [watts_of(lines, "w", periods) for _ in range(renewables)]
        read.shortages = [watts_of(lines, word, periods) if any(read.prices) else [0] * periods for word in "de"]
    read.tables = tables_of(lines, version, units, periods, tables)
    read.nodes = nodes_of(lines, version, units, periods, tables)
    lines.end()
    return read


# Rules and costs: MODEL.md


def lower_hull(points):
    """The corners of the lower convex hull, from left to right."""
    corners = []
    for p, amount in sorted(points):
        while len(corners) > 1:
            (p0, c0), (p1, c1) = corners[-2:]
            if (c1 - c0) * (p - p1) < (amount - c1) * (p1 - p0):
                break
            corners.pop()
        if not corners or corners[-1][0] < p:
            corners.append((p, amount))
    return corners


def segment_at(hull, p):
    """The ends of the first segment that holds the output."""
    return next(ends for ends in zip(hull, hull[1:]) if p <= ends[1][0])


def cost_at(hull, p):
    """The hull's value there, rounded up to a micro-dollar."""
    if p == 0:
        return hull[0][1]
    (p0, c0), (p1, c1) = segment_at(hull, p)
    return -((c0 * (p - p1) + c1 * (p0 - p)) // (p1 - p0))


def over(unit, d):
    """The unit with its powers as numerators over a denominator."""
    powers = {it: d * getattr(unit, it) for it in ("pmin", "span", "width", "ramp_up", "ramp_down", "start_cap", "stop_cap", "p0")}
    return Record(**{**vars(unit), **powers, "hull": [(d * p, amount) for p, amount in unit.hull]})


def is_barred(unit, later_lag, t):
    """Whether the hours off before the first period bar the category in front of the one with this lag."""
    return max(1, later_lag - unit.down0 + 1) <= t <= later_lag - 1


def least_start_cost(unit, last_stop, t):
    """By the last stop alone, which is 0 where there is none or where it is long ago."""
    costs = [unit.startup[-1][1]]
    for (lag, amount), (later_lag, _) in zip(unit.startup, unit.startup[1:]):
        is_recent = lag < later_lag and last_stop and t - last_stop <= later_lag - 1
        if is_recent if t >= later_lag else not is_barred(unit, later_lag, t):
            costs.append(amount)
    return min(costs)


class Course:
    """A thermal unit's row of a schedule, with the state before the first period at 0."""

    def __init__(self, unit, cells):
        self.unit, self.end = unit, len(cells)
        self.u = [unit.on0] + [int(it is not None) for it in cells]
        self.p, self.r, self.category = ([first] + [it[n] if it else 0 for it in cells] for n, first in enumerate((unit.p0, 0, 0)))
        self.v = [0] + [int(now > was) for was, now in zip(self.u, self.u[1:])]
        self.w = [0] + [int(now < was) for was, now in zip(self.u, self.u[1:])]

    def recent(self, switches, hours, t):
        """How many switches stand in so many periods up to this one; it isn't asked before the first such run is whole."""
        hours = min(hours, self.end)
        return sum(switches[t - hours + 1:t + 1]) if t >= hours else 0

    def has_category(self, t):
        """One that is allowed at a start, and none elsewhere."""
        s, rows = self.category[t], self.unit.startup
        if not self.v[t] or not 1 <= s < len(rows):
            return s == (len(rows) if self.v[t] else 0)
        lag, later_lag = rows[s - 1][0], rows[s][0]
        if t < later_lag:
            return not is_barred(self.unit, later_lag, t)
        return any(self.w[t - i] for i in range(lag, later_lag))


THERMAL_RULES = {
    "M1": lambda c, g, t: c.u[t] or not g.must_run,
    "M2": lambda c, g, t: c.u[t] or not g.on0 or t > g.up - g.up0,
    "M3": lambda c, g, t: not c.u[t] or g.on0 or t > g.down - g.down0,
    "M4": lambda c, g, t: c.recent(c.v, g.up, t) <= c.u[t],
    "M5": lambda c, g, t: c.recent(c.w, g.down, t) <= 1 - c.u[t],
    "M6": lambda c, g, t: c.has_category(t),
    "M7": lambda c, g, t: t > 1 or c.p[0] <= (g.stop_cap if c.w[1] else g.span * g.on0),
    "M8": lambda c, g, t: 0 <= c.p[t] <= g.width * c.u[t] and c.r[t] >= 0,
    "M9": lambda c, g, t: c.p[t] + c.r[t] <= (g.start_cap if c.v[t] else g.span * c.u[t]),
    "M10": lambda c, g, t: t == c.end or c.p[t] + c.r[t] <= (g.stop_cap if c.w[t + 1] else g.span * c.u[t]),
    "M11": lambda c, g, t: c.p[t] + c.r[t] - c.p[t - 1] <= g.ramp_up,
    "M12": lambda c, g, t: c.p[t - 1] - c.p[t] <= g.ramp_down,
}


def broken_rules(instance, certificate, courses):
    """The rules that the schedule breaks, with their places: by rules, then by units, then by periods."""
    periods, d = range(1, instance.periods + 1), certificate.denominator
    for rule, holds in THERMAL_RULES.items():
        for n, course in enumerate(courses, 1):
            yield from (f"{rule} thermal {n} period {t}" for t in periods if not holds(course, course.unit, t))
    for n, (unit, outputs) in enumerate(zip(instance.renewable, certificate.outputs), 1):
        ranges = zip(periods, unit.least, outputs, unit.most)
        yield from (f"M13 renewable {n} period {t}" for t, least, output, most in ranges if not d * least <= output <= d * most)
    shed, short = certificate.shortages
    for t in periods:
        output = sum(it.p[t] + it.unit.pmin * it.u[t] for it in courses) + sum(it[t - 1] for it in certificate.outputs)
        if output + shed[t - 1] != d * instance.demand[t - 1]:
            yield f"M14 period {t}"
    yield from (f"M15 period {t}" for t in periods if sum(it.r[t] for it in courses) + short[t - 1] < d * instance.reserves[t - 1])
    for rule, price, shortage, most in zip(("M16", "M17"), instance.prices, certificate.shortages, instance.most_short):
        limits = most if price else [0] * instance.periods
        yield from (f"{rule} period {t}" for t, amount, limit in zip(periods, shortage, limits) if not 0 <= amount <= d * limit)


def printed_cost(course):
    started = sum(course.unit.startup[it - 1][1] for it in course.category if it)
    return started + sum(cost_at(course.unit.hull, p) for p, u in zip(course.p[1:], course.u[1:]) if u)


# The value of a node: BOUND.md


def term(hull, scale, a, b, cap):
    """The greatest whole number that is at most the priced cost of the cell, whatever its weights and reserve."""
    least = min(scale * amount + a * p + min(b, 0) * (cap - p) for p, amount in hull if p <= cap)
    if cap < hull[-1][0]:
        (p0, c0), (p1, c1) = segment_at(hull, cap)
        least = min(least, a * cap + scale * (c0 * (p1 - cap) + c1 * (cap - p0)) // (p1 - p0))
    return least


class PricedUnit:
    """A unit at a table: what its cells cost, what its ramp rules add, and the least value of its patterns.

    A pattern is walked along from period to period. Its state is whether the unit is on, and the period of its last switch: 0 before
    the first switch, and None once that is so long ago that it counts no more.
    """

    def __init__(self, unit, g, table):
        self.unit, self.table, self.periods, self.cells = unit, table, len(table.pi), {}
        up, down = zip(*(table.ramps.get((g, t), (0, 0)) for t in range(1, self.periods + 2)))
        self.a = [-pi + up[t] - up[t + 1] - down[t] + down[t + 1] for t, pi in enumerate(table.pi)]
        self.b = [up[t] - mu for t, mu in enumerate(table.mu)]
        self.floored = floored_hull(unit.hull, table.scale)
        self.constant = -sum(up) * unit.ramp_up - sum(down) * unit.ramp_down + (down[0] - up[0]) * unit.p0

    def cell(self, t, starts, stops):
        """The value of an on cell, with or without a start there and a stop in the next period; None where its cap is below 0."""
        unit = self.unit
        cap = min(unit.span, unit.start_cap if starts else unit.span, unit.stop_cap if stops else unit.span)
        if cap >= 0 and (t, cap) not in self.cells:
            least = term(unit.hull, self.table.scale, self.a[t - 1], self.b[t - 1], cap)
            self.cells[t, cap] = least - self.table.pi[t - 1] * unit.pmin
        return self.cells.get((t, cap))

    def hours(self, on, since, t):
        """For how many hours the state has lasted before period t."""
        return inf if since is None else t - since if since else (self.unit.up0 if on else self.unit.down0) + t - 1

    def may_be(self, t, on, since, now):
        """Whether the unit may be on or off in period t."""
        unit = self.unit
        if now != on and self.hours(on, since, t) < (unit.up if on else unit.down) or unit.must_run and not now:
            return False
        return t > 1 or unit.p0 <= (unit.stop_cap if on > now else unit.span * on)

    def step(self, t, on, since, now):
        """What it adds that the unit is on or off in period t, with the cell of the period before; None where that is barred."""
        if not self.may_be(t, on, since, now):
            return None
        if on:
            return self.cell(t - 1, since == t - 1, not now) if t > 1 else 0
        return self.table.scale * least_start_cost(self.unit, since, t) if now else 0

    def next_since(self, t, on, since, now):
        if now != on:
            return t
        longest = self.unit.up if on else max(self.unit.down, *(lag for lag, _ in self.unit.startup))
        return None if self.hours(on, since, t + 1) >= longest else since

    def least(self, decided):
        """The least value of the patterns that have these bits in these periods, with the constant; None where there is none."""
        states = {(self.unit.on0, 0): 0}
        for t in range(1, self.periods + 1):
            after = {}
            for (on, since), value in states.items():
                for now in (decided[t],) if t in decided else (0, 1):
                    added = self.step(t, on, since, now)
                    if added is not None:
                        state = now, self.next_since(t, on, since, now)
                        after[state] = min(value + added, after.get(state, inf))
            states = after
        t = self.periods
        ends = [(value, self.cell(t, since == t, False) if on else 0) for (on, since), value in states.items()]
        return min((value + last + self.constant for value, last in ends if last is not None), default=None)


# The exact value of a node: BOUND.md, "Exact values"


def value_at(corners, x):
    """The value there of a function that is told by its corners; its slopes are whole."""
    n = bisect.bisect_left(corners, (x,))
    (x0, v0), (x1, v1) = corners[max(n - 1, 0)], corners[n]
    return v1 if x == x1 else v1 + (v1 - v0) // (x1 - x0) * (x - x1)


def between(corners, low, high):
    """The function from one place to another, as far as it goes; nothing where that is nowhere."""
    low, high = max(low, corners[0][0]), min(high, corners[-1][0])
    places = {low, high, *(x for x, _ in corners if low < x < high)} if low <= high else ()
    return [(x, value_at(corners, x)) for x in sorted(places)]


def floored_hull(hull, scale):
    """L: the corners of the scale times the hull, each slope being rounded down to a whole number."""
    corners = [(0, scale * hull[0][1])]
    for (p0, c0), (p1, c1) in zip(hull, hull[1:]):
        corners.append((p1, corners[-1][1] + scale * (c1 - c0) // (p1 - p0) * (p1 - p0)))
    return corners


class ExactUnit(PricedUnit):
    """A unit at a table, with the least value of the schedules of its own in whole watts, which keep the ramps.

    They are walked along as patterns are. Beside a state stands the least value of what was before its last cell, by the output there: the
    corners of a convex function with whole slopes. It is convex of one run alone, so runs that begin in several periods stay apart.
    """

    def with_cell(self, t, starts, stops, before):
        """The values by the output of period t, from those by the output before it; none where no output is possible."""
        unit, pi, mu = self.unit, self.table.pi[t - 1], self.table.mu[t - 1]
        cap = min(unit.span, unit.start_cap if starts else unit.span, unit.stop_cap if stops else unit.span)
        # Behind an output x the best reserve beside p is the lesser of cap and x + ramp_up, less p.
        bend = cap - unit.ramp_up
        parts = between(before, -inf, bend), between(before, bend, inf)
        priced = [(x, value - mu * min(cap, x + unit.ramp_up)) for part in parts for x, value in part]
        # Of the outputs from p - ramp_up to p + ramp_down the best one counts, so what falls moves left and what rises moves right.
        least = min(value for _, value in priced)
        lows = [x for x, value in priced if value == least]
        moved = [(x - unit.ramp_down, value) for x, value in priced if x <= lows[0]]
        moved += [(x + unit.ramp_up, value) for x, value in priced if x >= lows[-1]]
        moved = between(moved, 0, min(cap, unit.width))
        outputs = {p for p, _ in moved} | {p for p, _ in self.floored if moved and moved[0][0] < p < moved[-1][0]}
        return [(p, value_at(moved, p) + value_at(self.floored, p) + (mu - pi) * p - pi * unit.pmin) for p in sorted(outputs)]

    def next_values(self, t, on, since, now, before):
        """The values where the unit is on or off in period t; none where that can't be."""
        if not self.may_be(t, on, since, now):
            return []
        if not on:
            return [(0, before[0][1] + (self.table.scale * least_start_cost(self.unit, since, t) if now else 0))]
        values = self.with_cell(t - 1, since == t - 1, not now, before) if t > 1 else before
        if not now and values:
            ends = between(values, -self.unit.ramp_up, self.unit.ramp_down)
            values = [(0, min(value for _, value in ends))] if ends else []
        return values

    def exact(self, decided):
        """The least value of the schedules of the unit's own that have these bits in these periods; None where there is none."""
        states = {(self.unit.on0, 0): [(self.unit.p0, 0)]}
        for t in range(1, self.periods + 1):
            after = {}
            for (on, since), before in states.items():
                for now in (decided[t],) if t in decided else (0, 1):
                    values = self.next_values(t, on, since, now, before)
                    state = now, since if on and now else self.next_since(t, on, since, now)
                    if values:
                        after[state] = min(values, after.get(state, values))
            states = after
        last = self.periods
        ends = (self.with_cell(last, since == last, False, values) if on else values for (on, since), values in states.items())
        return min((value for values in ends for _, value in values), default=None)


class PricedInstance:
    """An instance at a table, with the values of units that were asked for, plain or exact."""

    def __init__(self, instance, table):
        self.units, self.kept = [ExactUnit(unit, g, table) for g, unit in enumerate(instance.thermal, 1)], {}
        self.rest = sum(pi * d + mu * r for pi, mu, d, r in zip(table.pi, table.mu, instance.demand, instance.reserves))
        for price, multipliers, most in zip(instance.prices, (table.pi, table.mu), instance.most_short):
            if price:
                self.rest += sum(min(0, table.scale * price - it) * limit for it, limit in zip(multipliers, most))
        for it in instance.renewable:
            self.rest -= sum(pi * (most if pi > 0 else least) for pi, least, most in zip(table.pi, it.least, it.most))

    def unit_value(self, g, decided, is_exact):
        """What the unit adds to V, or to VE; None where it has no pattern, or no schedule of its own."""
        key = g, tuple(decided.items()), is_exact
        if key not in self.kept:
            values = [self.units[g - 1].least(decided), *([self.units[g - 1].exact(decided)] if is_exact else [])]
            self.kept[key] = None if None in values else max(values)
        return self.kept[key]

    def value(self, decided, is_exact):
        """V, or VE, where this is decided of each unit; None where one has no pattern, or no schedule of its own."""
        values = [self.unit_value(g, decided.get(g, {}), is_exact) for g in range(1, len(self.units) + 1)]
        return None if None in values else self.rest + sum(values)


# The check: CHECKER.md, and the codes of FORMATS.md


def refuse(code, text=""):
    raise Refused(9, f"certificate: {code} {text}".rstrip())


def money(amount):
    return f"{'-' if amount < 0 else ''}{abs(amount) // MILLION}.{abs(amount) % MILLION:06}"


def check_tables(tables):
    for n, table in enumerate(tables, 1):
        multipliers = table.mu + [it for row in table.ramps.values() for it in row]
        if table.scale > 10**9 or min(multipliers) < 0 or max(map(abs, table.pi + multipliers)) > 10**14:
            refuse("C1", f"table {n}")


def check_schedule(instance, certificate):
    d = certificate.denominator
    courses = [Course(over(unit, d), cells) for unit, cells in zip(instance.thermal, certificate.cells)]
    broken = next(broken_rules(instance, certificate, courses), None)
    if broken:
        refuse("C2", broken)
    computed = sum(map(printed_cost, courses))
    computed += sum(-(-price * it // d) for price, amounts in zip(instance.prices, certificate.shortages) for it in amounts)
    if computed != certificate.cost:
        refuse("C3", f"written {money(certificate.cost)} computed {money(computed)}")


class Leaves:
    """Whether leaves are as they say; the instance at the table of the last one is kept."""

    def __init__(self, instance, certificate):
        self.instance, self.certificate, self.loaded = instance, certificate, None
        nothing = [0] * instance.periods
        self.unpriced = PricedInstance(instance, Record(scale=0, pi=nothing, mu=nothing, ramps={}))

    def is_sound(self, kind, is_exact, number, decided):
        if kind == "empty":
            return self.unpriced.unit_value(number, decided.get(number, {}), is_exact) is None
        table = self.certificate.tables[number - 1]
        if (table.scale == 0) != (kind == "ray"):
            return False
        if self.loaded != number:
            self.loaded, self.priced = number, PricedInstance(self.instance, table)
        value = self.priced.value(decided, is_exact)
        return value is None or (value > 0 if kind == "ray" else value // table.scale >= self.certificate.bound)


def check_tree(instance, certificate):
    leaves, path = Leaves(instance, certificate), []
    for n, (word, number, *period) in enumerate(certificate.nodes, 1):
        decided = {}
        for g, t, on in path:
            decided.setdefault(g, {})[t] = on
        if word == "split":
            if period[0] in decided.get(number, {}):
                refuse("C7", f"node {n}")
            path.append((number, period[0], 0))
            continue
        kind, is_exact = LEAVES[word]
        if not leaves.is_sound(kind, is_exact, number, decided):
            refuse({"empty": "C6", "ray": "C5", "bound": "C4"}[kind], f"node {n}")
        while path and path[-1][2]:
            path.pop()
        if path:
            g, t, _ = path.pop()
            path.append((g, t, 1))


def check(instance, certificate):
    """The lines of a yes."""
    if certificate.size != (instance.periods, len(instance.thermal), len(instance.renewable)):
        refuse("C9")
    if certificate.prices != instance.prices:
        refuse("C10")
    check_tables(certificate.tables)
    if certificate.cost is not None:
        check_schedule(instance, certificate)
    is_infeasible, has_bounds = certificate.bound is None, any(word in ("bound", "exact") for word, *_ in certificate.nodes)
    if is_infeasible == has_bounds or is_infeasible and certificate.cost is not None:
        refuse("C8")
    check_tree(instance, certificate)
    if is_infeasible:
        return ["accepted", "infeasible"]
    cost_line = [] if certificate.cost is None else [f"cost {money(certificate.cost)}"]
    return ["accepted", *cost_line, f"bound {money(certificate.bound)}"]


def bytes_of(name, what):
    try:
        with open(name, "rb") as file:
            return file.read()
    except OSError:
        raise Refused(6, f"read failed: {what}") from None


def verdict(words):
    given = words_of(words)
    data = bytes_of(given.instance, "instance")
    if len(data) > 2**26:
        raise Refused(4, f"instance: more than {2**26} bytes")
    instance = instance_of(json_of(data))
    penalize(instance, given.shed, given.spill_reserve)
    return check(instance, certificate_of(bytes_of(given.certificate, "certificate")))


def main():
    try:
        lines, output, status = verdict(sys.argv[1:]), sys.stdout, 0
    except Refused as refused:
        lines, output, status = [str(refused)], sys.stderr, refused.status
    output.buffer.write("".join(f"{line}\n" for line in lines).encode())
    return status


if __name__ == "__main__":
    sys.exit(main())
