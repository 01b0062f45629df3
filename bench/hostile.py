#!/usr/bin/env python3
"""Runs on certificates and instances that are changed by chance, as a hostile writer might change them.

    python3 bench/hostile.py PROGRAM [COUNT [SEED]]     # PROGRAM is `crates/uc/out/uc`, or `unproved`; 20,000 runs where no count is given

An instance is one of `random_repairs.py`, of `checkers.py`, or of the cases of `run_cases`, with a certificate that `solve` wrote or that
stands there. Fields, words, lines and bytes are changed, cut and repeated, up to some megabytes; counts are made huge, texts long, and
brackets and trees deep. Most runs are of `check`, some of `upgrade` and `uplift`, and of `solve` with three evaluations on a small file. A
run fails where it

- ends by a signal, or by a status or a line that isn't one of its command, or not within 10 seconds of a processor or 60 by the clock;
- takes more memory than 40 bytes for each byte of input beside what the greatest of the unchanged ones takes;
- accepts a claim that `examples/check.py` doesn't accept, or that enumeration refutes: that there is no schedule, or a bound, where there is
  a schedule of less cost among all commitments with outputs in whole steps, where these are few.

Told are how many runs of each command ended with each status, how many accepted claims were enumerated, the greatest memory and time, and
each run that failed, with a folder that has its files. The status is 1 where one did.
"""
import collections
import contextlib
import itertools
import json
import os
import pathlib
import random
import re
import signal
import subprocess
import sys
import tempfile
from fractions import Fraction
from math import gcd

import checkers
import random_repairs
import search

check = checkers.check
DATA = search.TOP / "crates" / "run_cases" / "data"
PAIRS = (
    ("base.json", "base.cert"), ("base.json", "split.cert"), ("base.json", "tables.cert"), ("base.json", "changes.cert"),
    ("system.json", "lines.cert"), ("off.json", "infeasible.cert"), ("base.json", "shed.cert"), ("base.json", "free.cert"),
)
SOLVED = "pair.json", "kazarlis.json", "week.json", "renewable.json", "system.json", "off.json"
RUNS_OF_ONE = 20
STATUSES = {"check": {0, 4, 9}, "upgrade": {0, 9}, "uplift": {0, 4, 9}, "solve": {0, 1, 2, 3, 4}}
LINES = {4: r"instance: [^\n]+\n", 9: r"certificate: [^\n]+\n"}
BYTES_FOR_A_BYTE = 40
SECONDS, CLOCK = 10, 60
# The resident memory of one run and of the next differs by as much.
WAVER = 512 * 1024
STEPS = 200_000
HUGE = (
    "4294967295 4294967296 999999999 1000000001 999999999999999999 1000000000000000000 9223372036854775807 18446744073709551616 -1 0 "
    "-999999999999999999 99999999999999999999999999999999.999999 1e99999999999 1e-99999999999 169 168 4096 4097"
).split()
COUNTS = 2, 3, 64, 65, 1000, 20_000, 200_000
LONGEST = 4_000_000

# What a run is given: its options, and the bytes of both files.
Given = collections.namedtuple("Given", "options instance certificate")
# What a run did: its status, what it wrote to its outputs, and the bytes of memory and seconds of the processor that it took.
Ran = collections.namedtuple("Ran", "status out err memory seconds")


# Changes


def number_in(chance, text, new):
    """The text with another number in place of one of its numbers."""
    places = list(re.finditer(rb"-?[0-9]+", text))
    if not places:
        return text
    it = chance.choice(places)
    return text[:it.start()] + new + text[it.end():]


def with_bytes(chance, text):
    for _ in range(chance.randint(1, 4)):
        at = chance.randrange(len(text) + 1)
        new = bytes(chance.choice([*b' \n\t\r\0-:.,"{}[]0195eE\\', chance.randrange(256)]) for _ in range(chance.randint(0, 3)))
        text = text[:at] + new + text[at + chance.randint(0, 3):]
    return text


def cut(chance, text):
    return text[:chance.randrange(len(text) + 1)]


def repeated(chance, text):
    """A piece of it, mostly a line, stands there so often."""
    if chance.random() < 0.7:
        lines = text.splitlines(True) or [b""]
        n = chance.randrange(len(lines))
        start, end = sum(map(len, lines[:n])), sum(map(len, lines[:n + 1]))
    else:
        start, end = sorted(chance.randrange(len(text) + 1) for _ in range(2))
    piece = text[start:end]
    return text[:start] + piece * min(chance.choice(COUNTS), LONGEST // max(len(piece), 1)) + text[end:]


def huge(chance, text):
    return number_in(chance, text, chance.choice(HUGE).encode())


def long_number(chance, text):
    digits = chance.choice([b"1", b"9", b"0", b"0."]) * 1 + chance.choice([b"0", b"7"]) * chance.choice(COUNTS)
    return number_in(chance, text, digits)


def joined(chance, text):
    """The text with a part of itself at another place."""
    start, end = sorted(chance.randrange(len(text) + 1) for _ in range(2))
    at = chance.randrange(len(text) + 1)
    return text[:at] + text[start:end] + text[at:]


ANY = with_bytes, cut, repeated, huge, long_number, joined


def as_text(change):
    def changed(chance, text):
        try:
            return change(chance, text.decode()).encode()
        except (UnicodeDecodeError, IndexError, ValueError):
            return text
    return changed


def deep_tree(chance, text):
    """Splits below a leaf, of one cell or of several, with their leaves or without."""
    lines = text.splitlines(True)
    places = [n for n, line in enumerate(lines) if line.split(b" ")[0] in (b"bound", b"ray", b"empty")]
    if not places:
        return text
    n, count = chance.choice(places), chance.choice(COUNTS)
    leaf = lines[n]
    cells = [b"split %d %d\n" % (chance.randint(1, 3), chance.randint(1, 4)) for _ in range(min(count, 50))]
    splits = [cells[it % len(cells)] for it in range(count)]
    if chance.random() < 0.5:
        lines[n] = b"".join(splits) + leaf * chance.choice([count + 1, count, 1])
    else:
        lines[n] = b"".join(it + leaf for it in splits) + leaf
    return b"".join(lines)


def lower_claim(chance, text):
    """A claim that is more cautious, or a little less."""
    found = re.search(rb"claim bound (-?[0-9]{1,4000})", text)
    if not found:
        return text
    bound = int(found.group(1)) + chance.choice([-1, -1, -10, -1000, -10**6, 1, 10])
    return text[:found.start(1)] + b"%d" % bound + text[found.end(1):]


def moved_prices(chance, text):
    """Prices that are others, below a claim that is lowered with them."""
    for _ in range(chance.randint(1, 3)):
        places = list(re.finditer(rb"^(?:pi|mu|p|m|r|ramp) .*$", text, re.M))
        if places:
            it = chance.choice(places)
            text = text[:it.start()] + number_in(chance, it.group(), b"%d" % chance.randint(-10**7, 10**8)) + text[it.end():]
    return lower_claim(chance, text)


def deep_value(chance, text):
    """Brackets in place of a number, or beside the first field."""
    count, opening, closing = chance.choice(COUNTS), *chance.choice([(b"[", b"]"), (b'{"a":', b"}"), (b"[[],", b"]")])
    value = opening * count + b"0" + closing * chance.choice([count, count, 0])
    return number_in(chance, text, value) if chance.random() < 0.5 else text.replace(b"{", b'{"x":' + value + b",", 1)


def many_keys(chance, text):
    """Fields that aren't known, of different names, or of one name twice, or long ones."""
    count, kind = chance.choice(COUNTS), chance.random()
    if kind < 0.4:
        fields = b"".join(b'"k%d":%d,' % (n, n) for n in range(count))
    elif kind < 0.5:
        fields = b"".join(b'"k%d":0,' % (n % max(count - 1, 1)) for n in range(count))
    else:
        fields = b'"%s":"%s",' % (b"k" * count, chance.choice([b"v", b"\\u0041", b"\\ud83d\\ude00", "é".encode()]) * min(count, 20_000))
    return text.replace(b"{", b"{" + fields, 1)


def as_fields(change):
    """A change of the JSON value; none where it has another form."""
    def changed(chance, text):
        try:
            made = json.loads(text)
            change(chance, made)
            return json.dumps(made).encode()
        except (ValueError, LookupError, TypeError, AttributeError, RecursionError):
            return text
    return changed


def more_units(chance, made):
    """More units of one kind, or more rows, or more entries."""
    kind, count = chance.random(), chance.choice([2, 16, 17, 64, 65, 300, 4096, 4097])
    thermal = made["thermal_generators"]
    one = chance.choice(list(thermal.values()))
    if kind < 0.4:
        thermal.update({f"h{n}": one for n in range(count)})
    elif kind < 0.6:
        made["renewable_generators"].update({f"v{n}": {"power_output_minimum": [0] * 168, "power_output_maximum": [1] * 168} for n in range(count)})
    elif kind < 0.8:
        name = chance.choice(["startup", "piecewise_production"])
        one[name] = [dict(chance.choice(one[name])) for _ in range(count)]
        one[name].sort(key=lambda row: row.get("mw", 0))
    else:
        made["time_periods"] = chance.choice([168, 24, 169])
        for name in ("demand", "reserves"):
            made[name] = (made[name] * 169)[:169]


def other_field(chance, made):
    """A field that is missing, or has the value of another one, or one of another kind."""
    place = made
    while True:
        keys = list(place) if isinstance(place, dict) else list(range(len(place)))
        key = chance.choice(keys)
        if not isinstance(place[key], (dict, list)) or not place[key] or chance.random() < 0.2:
            break
        place = place[key]
    if chance.random() < 0.2:
        del place[key]
    else:
        place[key] = chance.choice([None, True, "1", [], {}, -1, 0, 0.5, 1e7, 10**7 + 1, 168, 30.0000005, place[chance.choice(keys)]])


OF_CERTIFICATES = (*ANY, *[as_text(checkers.changed_certificate)] * 4, deep_tree, deep_tree, *[lower_claim] * 2, *[moved_prices] * 4)
OF_INSTANCES = (*ANY, *[as_text(checkers.changed_instance)] * 4, deep_value, many_keys, as_fields(more_units), *[as_fields(other_field)] * 3)


def changed(chance, given):
    options, instance, certificate = given
    for _ in range(chance.choice([1, 1, 1, 2, 3])):
        if chance.random() < 0.65:
            certificate = chance.choice(OF_CERTIFICATES)(chance, certificate)[:LONGEST]
        else:
            instance = chance.choice(OF_INSTANCES)(chance, instance)[:LONGEST]
    if chance.random() < 0.03:
        options = checkers.random_prices(chance)
    return Given(options, instance, certificate)


# Runs


def run(words, folder):
    """A run, or nothing where it doesn't end."""
    measured = folder / "measured"
    timed = ["/usr/bin/time", "-q", "-o", measured, "-f", "%M %U %S", *words]
    with subprocess.Popen(timed, stdout=subprocess.PIPE, stderr=subprocess.PIPE, stdin=subprocess.DEVNULL, start_new_session=True) as begun:
        try:
            out, err = begun.communicate(timeout=CLOCK)
        except subprocess.TimeoutExpired:
            os.killpg(begun.pid, signal.SIGKILL)
            return None
    kilobytes, user, system = measured.read_text().split()[-3:]
    return Ran(begun.returncode, out, err, int(kilobytes) * 1024, float(user) + float(system))


def words_of(program, command, given, folder):
    """The words of a run on these files, which are written."""
    instance, certificate = folder / "in.json", folder / "in.cert"
    instance.write_bytes(given.instance)
    certificate.write_bytes(given.certificate)
    return [program, *{
        "check": ["check", instance, certificate, *given.options],
        "upgrade": ["upgrade", certificate, "--cert", folder / "out.cert"],
        "uplift": ["uplift", instance, certificate, *given.options],
        "solve": ["solve", instance, "--cert", folder / "out.cert", "--units", "3", *given.options],
    }[command]]


# Enumeration


def lines_of(course, rules):
    return all(check.THERMAL_RULES[rule](course, course.unit, t) for rule in rules for t in range(1, course.end + 1))


def start_cost(course):
    """The cost of the cheapest category of each start that is allowed there."""
    total = 0
    for t in range(1, course.end + 1):
        if course.v[t]:
            costs = []
            for category, (_, cost) in enumerate(course.unit.startup, 1):
                course.category[t] = category
                costs += [cost] if course.has_category(t) else []
            total += min(costs)
    return total


def rows_of(unit, periods):
    """The unit's allowed patterns, each with the most that its cells may give, None where it is off, and the cost of its starts."""
    rows = []
    for bits in itertools.product((0, 1), repeat=periods):
        course = check.Course(unit, [(0, 0, 0) if it else None for it in bits])
        if lines_of(course, ("M1", "M2", "M3", "M4", "M5", "M7", "M9", "M10")):
            caps = [
                min(unit.span, unit.start_cap if course.v[t] else unit.span, unit.stop_cap if t < periods and course.w[t + 1] else unit.span)
                if course.u[t] else None for t in range(1, periods + 1)
            ]
            rows.append((caps, start_cost(course)))
    return rows


def step_of(instance):
    """The greatest step that all powers are whole numbers of."""
    powers = [*instance.demand, *instance.reserves]
    for it in instance.renewable:
        powers += [*it.least, *it.most]
    for it in instance.thermal:
        powers += [it.pmin, it.span, it.ramp_up, it.ramp_down, it.start_cap, it.stop_cap, it.p0, it.width, *(p for p, _ in it.hull)]
    return gcd(*powers)


def hull_cost(hull, p):
    for (p0, c0), (p1, c1) in zip(hull, hull[1:]):
        if p0 <= p <= p1:
            return c0 + Fraction(c1 - c0, p1 - p0) * (p - p0)
    return Fraction(hull[0][1])


def short_cost(instance, kind, t, amount):
    """What it costs that so much is missing; None where it may not be."""
    if amount <= 0:
        return 0
    price = instance.prices[kind]
    return price * amount if price and amount <= instance.most_short[kind][t] else None


def next_states(instance, commitment, t, states, choices):
    """The least cost of outputs up to this period, by those in it."""
    found = {}
    least, most = (sum(getattr(it, name)[t] for it in instance.renewable) for name in ("least", "most"))
    for powers in itertools.product(*choices):
        given = sum(p + unit.pmin for p, unit, (caps, _) in zip(powers, instance.thermal, commitment) if caps[t] is not None)
        shed = short_cost(instance, 0, t, instance.demand[t] - given - most)
        if given + least > instance.demand[t] or shed is None:
            continue
        cost = shed + sum(hull_cost(unit.hull, p) for p, unit, (caps, _) in zip(powers, instance.thermal, commitment) if caps[t] is not None)
        for before, so_far in states.items():
            reserve = 0
            for p, last, unit, (caps, _) in zip(powers, before, instance.thermal, commitment):
                head = min(caps[t] or 0, last + unit.ramp_up)
                if p > head or last - p > unit.ramp_down:
                    break
                reserve += head - p
            else:
                short = short_cost(instance, 1, t, instance.reserves[t] - reserve)
                if short is not None and (powers not in found or so_far + cost + short < found[powers]):
                    found[powers] = so_far + cost + short
    return found


def enumerated(instance):
    """Whether there are few enough schedules in whole steps, and the least cost of one, if there is any."""
    step, units, periods = step_of(instance), instance.thermal, instance.periods
    widths = [min(it.span, it.width) // step + 1 if step else 1 for it in units]
    points = 1
    for it in widths:
        points *= it
    if periods > 6 or len(units) * periods > 12 or 2 ** (len(units) * periods) * points**2 * periods > STEPS * 50:
        return False, None
    best = None
    for commitment in itertools.product(*(rows_of(it, periods) for it in units)):
        states = {tuple(it.p0 for it in units): sum(starts for _, starts in commitment)}
        for t in range(periods):
            ranges = [(0,) if caps[t] is None else range(0, min(caps[t], unit.width) + 1, step or 1) for unit, (caps, _) in zip(units, commitment)]
            states = next_states(instance, commitment, t, states, ranges)
        least = min(states.values(), default=None)
        best = least if best is None or least is not None and least < best else best
    return True, best


class Judge:
    """Judges accepted claims; what was enumerated is kept."""

    def __init__(self):
        self.kept, self.enumerated = {}, 0

    def least(self, given):
        key = tuple(given.options), given.instance
        if key not in self.kept:
            prices = [next((int(it.split("=")[1]) for it in given.options if it.startswith(f"--{name}=")), 0) for name in ("shed", "spill-reserve")]
            instance = check.instance_of(check.json_of(given.instance))
            check.penalize(instance, *prices)
            self.kept[key] = enumerated(instance)
        return self.kept[key]

    def fault(self, given, lines, folder):
        """What is wrong with a claim, if anything."""
        status, own = checkers.answer_of_checker(given.options, str(folder / "in.json"), str(folder / "in.cert"))
        if (status, own) != (0, lines):
            return f"examples/check.py: {status} {own}"
        is_whole, best = self.least(given)
        self.enumerated += is_whole
        bound = next((check.micro_dollars(it.split(" ")[1]) for it in lines if it.startswith("bound ")), None)
        if is_whole and best is not None and (bound is None or best < bound):
            return f"there is a schedule of {best} micro-dollars"
        return None


def fault(judge, command, given, ran, most, folder):
    """What is wrong with a run, if anything."""
    if ran is None:
        return "it doesn't end"
    if ran.status not in STATUSES[command]:
        return f"status {ran.status}: {ran.err[-200:]}"
    if not re.fullmatch(LINES.get(ran.status, ""), ran.err.decode(errors="replace")) or ran.out and ran.status in LINES:
        return f"status {ran.status} with {ran.err[-200:]}"
    if ran.seconds > SECONDS:
        return f"{ran.seconds} seconds"
    if ran.memory > most:
        return f"{ran.memory} bytes of memory, where {most} are allowed"
    if command == "check" and ran.status == 0:
        return judge.fault(given, ran.out.decode().splitlines(), folder)
    return None


# Instances with certificates


def solved(program, instance, options, units, folder):
    """The instance with the certificate that is found."""
    case, certificate = folder / "case.json", folder / "case.cert"
    case.write_bytes(instance)
    certificate.unlink(missing_ok=True)
    subprocess.run([program, "solve", case, "--cert", certificate, "--units", units, "--gap", "0", *options], capture_output=True)
    return Given(options, instance, certificate.read_bytes()) if certificate.exists() else None


def drawn(program, chance, folder):
    kind, units = chance.random(), chance.choice(["1", "5", "40"])
    if kind < 0.15:
        instance, certificate = chance.choice(PAIRS)
        return Given(["--shed=100"] if certificate == "shed.cert" else [], (DATA / instance).read_bytes(), (DATA / certificate).read_bytes())
    if kind < 0.3:
        return solved(program, (DATA / chance.choice(SOLVED)).read_bytes(), checkers.random_prices(chance), units, folder)
    made = random_repairs.random_instance(chance) if kind < 0.75 else checkers.random_instance(chance)
    return solved(program, json.dumps(made).encode(), checkers.random_prices(chance), units, folder)


def room(program, folder):
    """The most memory that `check` or `solve` takes for an unchanged case of `run_cases`."""
    most = 0
    for name in SOLVED:
        given = solved(program, (DATA / name).read_bytes(), [], "3", folder)
        most = max(most, *(run(words_of(program, command, given, folder), folder).memory for command in STATUSES))
    return most


class Told:
    """What is told of all runs."""

    def __init__(self):
        self.statuses, self.failed, self.slowest, self.most, self.share = collections.Counter(), 0, 0.0, 0, 0.0

    def add(self, command, given, ran, most, wrong, folder):
        self.statuses[f"{command} {ran.status if ran else 'without an end'}"] += 1
        if ran:
            size = len(given.instance) + len(given.certificate)
            self.slowest, self.most = max(self.slowest, ran.seconds), max(self.most, ran.memory)
            self.share = max(self.share, (ran.memory - most) / size)
        if wrong:
            self.failed += 1
            kept = pathlib.Path(tempfile.mkdtemp(prefix="hostile-"))
            for name in ("in.json", "in.cert"):
                (kept / name).write_bytes((folder / name).read_bytes())
            print(f"FAILED: {command} {' '.join(given.options)} {kept}: {wrong}", flush=True)


def command_of(chance, given):
    command = chance.choices(list(STATUSES), [80, 8, 6, 6])[0]
    return "check" if command == "solve" and len(given.instance) > 20_000 else command


def main(program, count, seed):
    chance, judge, told, base = random.Random(seed), Judge(), Told(), None
    with contextlib.ExitStack() as stack:
        folder = pathlib.Path(stack.enter_context(tempfile.TemporaryDirectory()))
        program = search.built(folder) if program == "unproved" else pathlib.Path(program).resolve()
        least = room(program, folder) + WAVER
        for number in range(count):
            while base is None or number % RUNS_OF_ONE == 0:
                base = drawn(program, chance, folder)
                if base is not None:
                    break
            given = changed(chance, base)
            command = command_of(chance, given)
            ran = run(words_of(program, command, given, folder), folder)
            most = least + BYTES_FOR_A_BYTE * (len(given.instance) + len(given.certificate))
            told.add(command, given, ran, least, fault(judge, command, given, ran, most, folder), folder)
    print(", ".join(f"{kind}: {times}" for kind, times in sorted(told.statuses.items())))
    print(f"{judge.enumerated} of the accepted claims were enumerated; at most {told.slowest:.2f} s, {told.most / 1e6:.1f} MB, and "
          f"{told.share:.1f} bytes for a byte of input beside {least / 1e6:.1f} MB; {told.failed} of {count} runs failed")
    return told.failed > 0


if __name__ == "__main__":
    if not 2 <= len(sys.argv) <= 4:
        raise SystemExit(__doc__)
    sys.exit(main(sys.argv[1], *(int(it) for it in (sys.argv[2:] + ["20000", "1"][len(sys.argv) - 2:]))))
