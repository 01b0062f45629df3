"""Tests `uc-look`: each check with an instance that it finds and one close by that it leaves alone."""
from __future__ import annotations

import contextlib
import copy
import io
import json
import pathlib
import re
import sys
import tempfile
import unittest
from typing import Any, Dict, List, Tuple

sys.dont_write_bytecode = True
HERE = pathlib.Path(__file__).resolve().parent
TOP = HERE.parent
sys.path.insert(0, str(HERE))

from instance_check import command, reach, texts, units  # noqa: E402


def thermal(least: int, most: int, cost: int, **changes: object) -> Dict[str, Any]:
    """A unit that was on at its minimum for long enough, with three points at a cost that rises from one to the next."""
    middle = (least + most) // 2
    points = [(least, 0), (middle, 1), (most, 3)]
    unit = {
        "must_run": 0,
        "power_output_minimum": least,
        "power_output_maximum": most,
        "ramp_up_limit": most - least,
        "ramp_down_limit": most - least,
        "ramp_startup_limit": least,
        "ramp_shutdown_limit": least,
        "time_up_minimum": 2,
        "time_down_minimum": 3,
        "power_output_t0": least,
        "unit_on_t0": 1,
        "time_up_t0": 5,
        "time_down_t0": 0,
        "startup": [{"lag": 3, "cost": 100}, {"lag": 6, "cost": 200}],
        "piecewise_production": [{"mw": mw, "cost": cost * mw + extra} for mw, extra in points],
    }
    return {**unit, **changes}


def off(**changes: object) -> Dict[str, object]:
    """The fields of a unit that was off for long enough."""
    return {"power_output_t0": 0, "unit_on_t0": 0, "time_up_t0": 0, "time_down_t0": 5, **changes}


BASE = {
    "time_periods": 4,
    "demand": [100, 120, 140, 110],
    "reserves": [10, 10, 10, 10],
    "thermal_generators": {"a": thermal(20, 100, 10), "b": thermal(10, 50, 20), "c": thermal(10, 40, 30, **off())},
    "renewable_generators": {"w": {"power_output_minimum": [0, 0, 0, 0], "power_output_maximum": [30, 20, 10, 0]}},
}
A, B, C, W = ("thermal_generators", "a"), ("thermal_generators", "b"), ("thermal_generators", "c"), ("renewable_generators", "w")
POINTS, STARTUP = "piecewise_production", "startup"

Edit = Tuple[Tuple[object, ...], object]


def fields(*path: object, **changes: object) -> List[Edit]:
    """Edits of fields of one record."""
    return [((*path, name), value) for name, value in changes.items()]


def points(*pairs: Tuple[float, float]) -> List[Dict[str, float]]:
    return [{"mw": mw, "cost": cost} for mw, cost in pairs]


def lags(*pairs: Tuple[float, float]) -> List[Dict[str, float]]:
    return [{"lag": lag, "cost": cost} for lag, cost in pairs]


def a_points(*pairs: Tuple[float, float]) -> List[Edit]:
    return fields(*A, piecewise_production=points(*pairs))


def c_startup(*pairs: Tuple[float, float]) -> List[Edit]:
    return fields(*C, startup=lags(*pairs))


def c_off(**changes: object) -> List[Edit]:
    return fields(*C, **changes)


def large_c(most: int) -> List[Edit]:
    """The last unit with such a maximum, and a demand that isn't far below it."""
    changes = {
        "power_output_maximum": most,
        "ramp_up_limit": most,
        "ramp_down_limit": most,
        "piecewise_production": points((10, 300), (most, 40 * most)),
    }
    return [*fields(*C, **changes), (("demand", 3), 1100)]


NEVER = "; no schedule exists"
# the edits of an instance that is found, its one line, and the edits of one that is left alone
CHECKS = {
    "first point below": (
        a_points((0, 0), (60, 700), (100, 1500)),
        'thermal "a" piecewise_production 1: the first point is at 0 MW, the minimum at 20 MW; points count from the first one, so each '
        "output costs what the file has 20 MW below it",
        a_points((20, 0), (60, 700), (100, 1500)),
    ),
    "last point short": (
        a_points((20, 200), (60, 600), (90, 950)),
        'thermal "a" piecewise_production 3: the points span 70 MW, the minimum and the maximum are 80 MW apart; the unit gives at most 90 '
        "MW, and above that only reserve",
        a_points((20, 200), (60, 600), (100, 1050)),
    ),
    "one point": (
        fields(*C, piecewise_production=points((10, 300))),
        'thermal "c" piecewise_production 1: the points span 0 MW, the minimum and the maximum are 30 MW apart; the unit gives at most 10 '
        "MW, and above that only reserve",
        fields(*C, piecewise_production=points((10, 300)), power_output_maximum=10, ramp_startup_limit=10),
    ),
    "last point past": (
        a_points((20, 200), (60, 600), (110, 1150)),
        'thermal "a" piecewise_production 3: the last point is at 110 MW, the maximum at 100 MW; output ends at the maximum, and costs below '
        "it may lie on the line to this point",
        a_points((20, 200), (60, 600), (100, 1150)),
    ),
    "dropped point": (
        a_points((20, 200), (60, 640), (100, 1050)),
        'thermal "a" piecewise_production 2: $640 at 60 MW is above the lower convex hull of the points; the hull drops the point: this '
        "output costs $625, which is $15 less",
        a_points((20, 200), (60, 625), (100, 1050)),
    ),
    "dropped by rounding alone": (
        a_points((20, 200), (60, 625.01), (100, 1050)),
        'thermal "a" piecewise_production 2: $625.01 at 60 MW is above the lower convex hull of the points; the hull drops the point: this '
        "output costs $625, which is $0.01 less",
        a_points((20, 200), (60, 625.009999), (100, 1050)),
    ),
    "two points at an output": (
        a_points((20, 200), (60, 600), (60, 610), (100, 1050)),
        'thermal "a" piecewise_production 3: $610 at 60 MW is above the lower convex hull of the points; the hull drops the point: this '
        "output costs $600, which is $10 less",
        a_points((20, 200), (60, 600), (60, 600), (100, 1050)),
    ),
    "falling costs": (
        a_points((20, 700), (60, 600), (100, 1050)),
        'thermal "a" piecewise_production 2: costs fall from $700 at 20 MW to $600 at 60 MW; more output lowers the cost there',
        a_points((20, 600), (60, 600), (100, 1050)),
    ),
    "negative cost": (
        a_points((20, -1), (60, 600), (100, 1250)),
        'thermal "a" piecewise_production 1: a cost of -$1; an hour at that output lowers the cost of the schedule',
        a_points((20, 0), (60, 600), (100, 1250)),
    ),
    "far below the minimum at t0": (
        fields(*A, power_output_t0=-50, ramp_up_limit=60),
        'thermal "a" power_output_t0: on at t0 with -50 MW, below the minimum, 20 MW; no schedule exists, on or off: the ramp up of 60 MW (M11) '
        "doesn't reach the minimum in hour 1",
        fields(*A, power_output_t0=20, ramp_up_limit=60),
    ),
    "below the minimum at t0": (
        fields(*A, power_output_t0=19),
        'thermal "a" power_output_t0: on at t0 with 19 MW, below the minimum, 20 MW; the ramp up counts from there, so output and reserve are '
        "at most 99 MW in hour 1",
        fields(*A, power_output_t0=20),
    ),
    "below the minimum at t0 with large ramps": (
        fields(*A, power_output_t0=19, ramp_up_limit=81),
        'thermal "a" power_output_t0: on at t0 with 19 MW, below the minimum, 20 MW; it counts as it stands, and no limit of hour 1 hangs on it',
        fields(*A, power_output_t0=20, ramp_up_limit=81),
    ),
    "above the maximum at t0": (
        fields(*A, power_output_t0=101),
        'thermal "a" power_output_t0: on at t0 with 101 MW, above the maximum, 100 MW; no schedule exists, on or off: M7 limits the output at t0',
        fields(*A, power_output_t0=100),
    ),
    "output at t0 while off": (
        c_off(power_output_t0=10),
        'thermal "c" power_output_t0: off at t0 with 10 MW; the output isn\'t looked at, and ramps begin at 0',
        c_off(power_output_t0=0),
    ),
    "must run while held off": (
        c_off(must_run=1, time_down_t0=1),
        'thermal "c" must_run: must run, and its minimum down time keeps it off in hours 1 to 2; no schedule exists: M1 and M3 contradict each '
        "other",
        c_off(must_run=1, time_down_t0=3),
    ),
    "on for 0 hours": (
        fields(*A, time_up_t0=0),
        'thermal "a" time_up_t0: on at t0 for 0 hours; its whole minimum up time is left, and it stays on in hours 1 to 2',
        fields(*A, time_up_t0=1),
    ),
    "off for 0 hours": (
        c_off(time_down_t0=0, time_down_minimum=9, startup=lags((9, 1))),
        'thermal "c" time_down_t0: off at t0 for 0 hours; its whole minimum down time is left, and it stays off in hours 1 to 4',
        c_off(time_down_t0=1, time_down_minimum=9, startup=lags((9, 1))),
    ),
    "on, and hours off": (
        fields(*A, time_down_t0=4),
        'thermal "a" time_down_t0: on at t0, and 4 hours of the other state; start categories count them as hours up to t0: a start in hours 3 '
        "to 4 may not have category 1",
        fields(*A, time_down_t0=0),
    ),
    "on, and hours off that count for nothing": (
        fields(*A, time_down_t0=1),
        'thermal "a" time_down_t0: on at t0, and 1 hour of the other state; no start hangs on them',
        fields(*A, time_down_t0=0),
    ),
    "off, and hours on": (
        c_off(time_up_t0=2),
        'thermal "c" time_up_t0: off at t0, and 2 hours of the other state; they aren\'t looked at',
        c_off(time_up_t0=0),
    ),
    "no start": (
        c_off(ramp_startup_limit=9),
        'thermal "c" ramp_startup_limit: 9 MW, below the minimum, 10 MW; the unit never starts',
        c_off(ramp_startup_limit=10),
    ),
    "no start of a unit that must": (
        c_off(ramp_startup_limit=9, must_run=1),
        'thermal "c" ramp_startup_limit: 9 MW, below the minimum, 10 MW; the unit never starts, and must run: no schedule exists',
        c_off(ramp_startup_limit=10, must_run=1),
    ),
    "no stop": (
        fields(*A, ramp_shutdown_limit=19),
        'thermal "a" ramp_shutdown_limit: 19 MW, below the minimum, 20 MW; the unit never stops',
        fields(*A, ramp_shutdown_limit=20),
    ),
    "no rise": (
        fields(*B, ramp_up_limit=0),
        'thermal "b" ramp_up_limit: 0 MW an hour; 0 is no rise, and not no limit: output and reserve never pass the output of the hour before, '
        "and start at the minimum",
        fields(*B, ramp_up_limit=2),
    ),
    "no fall": (
        fields(*A, ramp_down_limit=0),
        'thermal "a" ramp_down_limit: 0 MW an hour; 0 is no fall, and not no limit: output never falls, and above its minimum the unit never '
        "stops",
        fields(*A, ramp_down_limit=4),
    ),
    "slow ramp": (
        fields(*B, ramp_up_limit=1.6),
        'thermal "b" ramp_up_limit: 1.6 MW an hour, where the minimum and the maximum are 40 MW apart; from one to the other takes 25 hours; a '
        "limit by the minute would be 60 times as much",
        fields(*B, ramp_up_limit=2, power_output_maximum=58, piecewise_production=points((10, 200), (58, 1170))),
    ),
    "long minimum time": (
        fields(*A, time_up_minimum=169, time_up_t0=200),
        'thermal "a" time_up_minimum: 169 hours; after a start the unit stays on to the end of all 4 hours; times aren\'t in minutes',
        fields(*A, time_up_minimum=168, time_up_t0=200),
    ),
    "first lag too long": (
        c_startup((4, 100), (6, 200)),
        'thermal "c" startup 1 lag: the first lag is 4 hours, the minimum down time 3 hours; a stop 3 hours before a start allows the last '
        "category alone, which costs $200",
        c_startup((4, 100)),
    ),
    "lags that don't rise": (
        c_startup((3, 100), (6, 150), (6, 200)),
        'thermal "c" startup 3 lag: 6 hours, where category 2 before it has 6 hours; no stop allows category 2, and a start in hour 6 or later '
        "doesn't have it",
        c_startup((3, 100), (6, 150), (7, 200)),
    ),
    "lag within the minimum down time": (
        c_startup((1, 100), (3, 200)),
        'thermal "c" startup 2 lag: category 1 ends at 3 hours, and the minimum down time is 3 hours; no start has category 1',
        c_startup((1, 100), (4, 200)),
    ),
    "category above the last": (
        c_startup((3, 100), (6, 99)),
        'thermal "c" startup 1 cost: $100, where the last category costs $99; the last one is always allowed, so a cheapest schedule never '
        "pays category 1",
        c_startup((3, 100), (6, 100)),
    ),
    "category above the next": (
        c_startup((3, 100), (6, 99), (9, 200)),
        'thermal "c" startup 1 cost: $100, where category 2 costs $99; a start is cheaper after more hours off',
        c_startup((3, 100), (6, 100), (9, 200)),
    ),
    "negative start cost": (
        c_startup((3, -1), (6, 200)),
        'thermal "c" startup 1 cost: a cost of -$1; such a start lowers the cost of the schedule',
        c_startup((3, 0), (6, 200)),
    ),
    # at most 100 + 50 in hour 1, with c from its minimum to its start-up limit besides, and wind of 30
    "demand above all": (
        [(("demand", 0), 191)],
        "demand 1: 191 MW, where the units can't give more than 190 MW in this hour" + NEVER + "; with --shed at least 1 MW stay unserved",
        [(("demand", 0), 180)],
    ),
    "demand and reserve above all": (
        [(("demand", 0), 181)],
        "reserves 1: 191 MW with reserve, where the units have room for 190 MW in this hour" + NEVER + "; with --shed or --spill-reserve at "
        "least 1 MW are short",
        [(("demand", 0), 180)],
    ),
    "demand above the ramps": (
        [*fields(*A, ramp_up_limit=5), *[(("demand", t), demand) for t, demand in enumerate((96, 100, 100, 121))]],
        "reserves 4: 131 MW with reserve, where the units have room for 130 MW in this hour" + NEVER + "; with --shed or --spill-reserve at "
        "least 1 MW are short",
        [*fields(*A, ramp_up_limit=5), *[(("demand", t), demand) for t, demand in enumerate((95, 100, 100, 120))]],
    ),
    "demand below what stays on": (
        [*fields(*A, time_up_t0=1), (("demand", 0), 19)],
        "demand 1: 19 MW, where the units can't give less than 20 MW in this hour" + NEVER + ", with --shed neither",
        [*fields(*A, time_up_t0=1), (("demand", 0), 20)],
    ),
    "demand below what falls": (
        [*fields(*A, power_output_t0=100, ramp_down_limit=15), (("demand", 1), 69)],
        "demand 2: 69 MW, where the units can't give less than 70 MW in this hour" + NEVER + ", with --shed neither",
        [*fields(*A, power_output_t0=100, ramp_down_limit=15), (("demand", 1), 70)],
    ),
    "a unit in kilowatts": (
        large_c(30_000),
        'thermal "c" power_output_maximum: 30,000 MW, where the median unit\'s is 100 MW; power is in MW: a number in kW counts a thousandfold',
        large_c(29_999),
    ),
    "a unit in gigawatts": (
        fields(*C, power_output_minimum=0, power_output_maximum=0.166, piecewise_production=points((0, 0), (0.166, 5))),
        'thermal "c" power_output_maximum: 0.166 MW, where the median unit\'s is 50 MW; power is in MW: a number in GW counts a thousandth',
        fields(*C, power_output_minimum=0, power_output_maximum=0.167, piecewise_production=points((0, 0), (0.167, 5))),
    ),
    "an hour in gigawatts": (
        [(("demand", 2), 0.35), (("reserves", 2), 0)],
        "demand 3: 0.35 MW, where the median hour's is 105 MW; power is in MW: a number in GW counts a thousandth",
        [(("demand", 2), 0.36), (("reserves", 2), 0)],
    ),
    "demand in gigawatts": (
        [("demand", [0.1, 0.12, 0.14, 0.11]), ("reserves", [0, 0, 0, 0])],
        "demand: all units give 220 MW, and the greatest demand is 0.14 MW; power is in MW: units in kW, or demand in GW, make demand a trifle",
        [("demand", [7, 8, 7, 7]), ("reserves", [0, 0, 0, 0])],
    ),
    "costs of a megawatt-hour": (
        fields(*A, piecewise_production=points((20, 10), (100, 10)))
        + fields(*B, piecewise_production=points((10, 20), (50, 20)))
        + fields(*C, piecewise_production=points((10, 30), (40, 30))),
        "thermal: the median unit's last point costs $0.4 a MWh; a point's cost is for the whole hour at its output, not for a MWh",
        fields(*A, piecewise_production=points((20, 10), (100, 10)))
        + fields(*B, piecewise_production=points((10, 20), (50, 25)))
        + fields(*C, piecewise_production=points((10, 30), (40, 30))),
    ),
    "a cost in cents": (
        fields(*C, piecewise_production=points((10, 60_000), (40, 241_000))),
        'thermal "c" piecewise_production 2 cost: $6,025 a MWh, where the median unit\'s last point has $20.06; a cost is in dollars for the '
        "hour: the unit runs last",
        fields(*C, piecewise_production=points((10, 60_000), (40, 240_000))),
    ),
    "reserve below 0": (
        [(("reserves", 2), -1)],
        "reserves 3: -1 MW; it asks for nothing, as 0 does",
        [(("reserves", 2), 0)],
    ),
    "reserve above demand": (
        [(("demand", 3), 50), (("reserves", 3), 51)],
        "reserves 4: 51 MW, above the demand of the hour, 50 MW; so much room is kept free beside the output",
        [(("demand", 3), 50), (("reserves", 3), 50)],
    ),
    "more digits": (
        [(("demand", 1), 120.0000005), (("demand", 2), 139.9999994)],
        "demand 2: 120.0000005 has more than six decimals, and 1 more numbers of demand; it is rounded to 120.000001; every claim is of "
        "rounded numbers, and --exact refuses the file",
        [(("demand", 1), 120.000001), (("demand", 2), 139.999999)],
    ),
    "a field of the top": ([("reserve", [1])], "reserve: no field of the format; it is skipped", []),
    "a field of units": (
        fields(*A, fuel="coal") + fields(*C, fuel="gas"),
        'thermal fuel: no field of the format; 2 have it, first thermal "a"; it is skipped',
        [],
    ),
    "a field of a row": (
        [((*B, STARTUP, 1, "mw"), 3)],
        'thermal "b" startup 2 mw: no field of the format; it is skipped',
        [((*B, STARTUP, 1, "lag"), 7)],
    ),
    "a field of a renewable unit": ([((*W, "cost"), 3)], 'renewable "w" cost: no field of the format; it is skipped', []),
    "entries past the end": (
        [("time_periods", 3)],
        "demand: 4 entries, where time_periods is 3, and 3 more arrays are longer too; what follows entry 3 isn't looked at",
        [],
    ),
    "a minimum below 0": (
        [((*W, "power_output_minimum", 1), -3)],
        'renewable "w" power_output_minimum 2: -3 MW; a minimum below 0 counts as 0',
        [((*W, "power_output_minimum", 1), 3)],
    ),
    "a name with a blank": (
        [(("thermal_generators", "unit d"), thermal(10, 40, 30))],
        'thermal "unit d": a name with blanks; who parts a report at blanks finds other words',
        [(("thermal_generators", "unit_d"), thermal(10, 40, 30))],
    ),
    "no name": (
        [(("thermal_generators", ""), thermal(10, 40, 30))],
        'thermal "": an empty name; who parts a report at blanks finds other words',
        [(("thermal_generators", "0"), thermal(10, 40, 30))],
    ),
    "a name that is escaped": (
        [(("thermal_generators", "d\\e"), thermal(10, 40, 30))],
        'thermal "d\\e": a name with quotes, backslashes or what can\'t be seen; reports write it with escapes',
        [(("thermal_generators", "d/é"), thermal(10, 40, 30))],
    ),
    "a name twice": (
        [(("thermal_generators", "w"), thermal(10, 40, 30))],
        'renewable "w": a thermal unit has this name too; they are two units',
        [(("thermal_generators", "v"), thermal(10, 40, 30))],
    ),
    "names that are nearly one": (
        [(("thermal_generators", "B"), thermal(10, 40, 30))],
        'thermal "B": thermal "b" has nearly the same name; they are two units',
        [(("thermal_generators", "b1"), thermal(10, 40, 30))],
    ),
}
# what other findings come with: the edits, and the place and effect of each finding
TOGETHER = (
    (
        fields(*A, power_output_t0=-40, ramp_up_limit=60),
        (("power_output_t0", "the ramp up counts from there, so output and reserve are at most 20 MW in hour 1"),),
    ),
    (
        fields(*A, power_output_t0=100, piecewise_production=points((20, 200), (60, 600)), ramp_down_limit=39),
        (("power_output_t0", "no schedule exists, on or off: the ramp down of 39 MW (M12) doesn't reach the points in hour 1"),),
    ),
    (
        fields(*A, power_output_t0=100, piecewise_production=points((20, 200), (60, 600)), ramp_down_limit=40),
        (("power_output_t0", "no hour can keep it, as output ends at the last point"),),
    ),
    (
        fields(*A, power_output_t0=10, ramp_shutdown_limit=15),
        (("ramp_shutdown_limit", "the unit never stops after hour 1"),),
    ),
    (c_startup((1, 100), (0, 200)), (("startup 2 lag", "no start has category 1"),)),
)


def edited(edits: List[Edit]) -> Dict[str, Any]:
    """The instance with other values at these places."""
    value = copy.deepcopy(BASE)
    for path, new in edits:
        path = path if isinstance(path, tuple) else (path,)
        inner: Any = value
        for key in path[:-1]:
            inner = inner[key]
        inner[path[-1]] = new
    return value


class LookTest(unittest.TestCase):
    """Looks at files of a folder."""

    def setUp(self) -> None:
        folder = tempfile.TemporaryDirectory()
        self.addCleanup(folder.cleanup)
        self.folder = pathlib.Path(folder.name)

    def put(self, name: str, value: object) -> pathlib.Path:
        path = self.folder / name
        path.write_text(value if isinstance(value, str) else json.dumps(value), encoding="utf-8")
        return path

    def look(self, *files: pathlib.Path) -> Tuple[int, List[str]]:
        """The status, and the lines of what is found, without the files' folder."""
        status, lines = self.look_at_all(*files)
        return status, [line for line in lines if ": ramps: " not in line]

    def look_at_all(self, *files: pathlib.Path) -> Tuple[int, List[str]]:
        """The same with the lines of ramps."""
        out = io.StringIO()
        with contextlib.redirect_stdout(out):
            status = command.main([str(path) for path in files])
        return status, [line.replace(f"{self.folder}/", "") for line in out.getvalue().splitlines()]


class Checks(LookTest):
    def test_nothing_is_found_in_sound_data(self) -> None:
        self.assertEqual(self.look(self.put("i", BASE)), (0, []))
        self.assertEqual(self.look(*sorted((TOP / "examples").glob("*.json"))), (0, []))

    def test_each_check_finds_and_leaves_alone(self) -> None:
        for name, (found, line, left) in CHECKS.items():
            with self.subTest(name):
                self.assertEqual(self.look(self.put("i", edited(found))), (1, [f"i: {line}"]))
                self.assertEqual(self.look(self.put("i", edited(left))), (0, []))

    def test_findings_beside_others(self) -> None:
        for edits, wanted in TOGETHER:
            status, lines = self.look(self.put("i", edited(edits)))
            self.assertEqual(status, 1)
            for place, effect in wanted:
                self.assertTrue(any(f"{place}: " in line and line.endswith(f"; {effect}") for line in lines), (effect, lines))

    def test_every_rounded_number_is_seen(self) -> None:
        text, count = re.subn(r"(?<=[:\[ ])(\d+)(?=[,\]}])", r"\1.0000001", json.dumps(BASE))
        system = units.read_system("i", text.encode())
        self.assertEqual([system.instance.rounded, len(list(texts.numbers(system)))], [count, count])


class RampsTest(LookTest):
    """The line of the ramps. Above their minima units a, b and c have 80, 40 and 30 MW."""

    def assert_ramps(self, edits: List[Edit], *wanted: Tuple[int, int, str]) -> None:
        """The percent that are told, and the advice; nothing else is found."""
        lines = [
            f"i: ramps: {slow} % of the capacity above the minima is of units with ramps below half of theirs, and reserve is up to {reserve} % "
            f"of all ramps up; --exact-units {advice}"
            for slow, reserve, advice in wanted
        ]
        self.assertEqual(self.look_at_all(self.put("i", edited(edits))), (0, lines))

    def test_no_ramp_can_bind(self) -> None:
        self.assert_ramps([])

    def test_slow_ramps(self) -> None:
        self.assert_ramps(fields(*B, ramp_up_limit=19), (26, 7, "is worth trying"))
        self.assert_ramps(fields(*B, ramp_down_limit=19), (26, 6, "is worth trying"))
        self.assert_ramps(fields(*B, ramp_up_limit=20), (0, 7, "hardly helps"))
        for most, told in ((16, (4, 8, "hardly helps")), (17, (5, 8, "is worth trying"))):
            changes = {"power_output_maximum": most, POINTS: points((10, 300), (most, 30 * most + 3))}
            self.assert_ramps(fields(*C, ramp_up_limit=2, **changes), told)

    def test_ramps_that_reserve_takes(self) -> None:
        for reserve, told in ((22, (0, 14, "hardly helps")), (23, (0, 15, "is worth trying"))):
            self.assert_ramps([*fields(*A, ramp_up_limit=79), (("reserves", 1), reserve)], told)

    def test_no_rise_at_all(self) -> None:
        still = [edit for unit in (A, B, C) for edit in fields(*unit, ramp_up_limit=0)]
        _, lines = self.look_at_all(self.put("i", edited(still)))
        told = "i: ramps: 100 % of the capacity above the minima is of units with ramps below half of theirs, and reserve is up to 100 % of all ramps up"
        self.assertEqual(lines[-1], f"{told}; --exact-units is worth trying")


class Files(LookTest):
    def test_a_refused_file_is_pointed_to(self) -> None:
        self.put("no.json", edited(fields(*A, power_output_maximum=10)))
        self.put("cut.json", "{")
        refused = "`uc` refuses the file (codes I1 to I8, docs/FORMATS.md)"
        status, lines = self.look(self.folder / "no.json", self.put("i", BASE), self.folder / "cut.json")
        self.assertEqual(status, 1)
        self.assertEqual(lines[0], f'no.json: thermal "a" power_output_maximum: below the minimum; {refused}')
        self.assertEqual(lines[1:], [f"cut.json: line 1 column 2: no JSON; {refused}"])

    def test_lines_of_several_files_name_them(self) -> None:
        files = [self.put(f"{k}.json", edited([("x", 1), ("y", 2)][:k])) for k in range(3)]
        status, lines = self.look(*files)
        self.assertEqual((status, [line.split(":")[:2] for line in lines]), (1, [["1.json", " x"], ["2.json", " x"], ["2.json", " y"]]))

    def test_words(self) -> None:
        with contextlib.redirect_stderr(io.StringIO()), self.assertRaises(SystemExit) as ended:
            command.main([])
        self.assertEqual(ended.exception.code, 2)


class Reaches(unittest.TestCase):
    """What a unit can give by each hour, worked out by hand."""

    def reach(self, periods: int, **changes: object) -> reach.Reach:
        value = edited([*fields(*A, **changes), ("time_periods", periods), ("demand", [0] * periods), ("reserves", [0] * periods)])
        value["renewable_generators"] = {}
        read = units.read_system("i", json.dumps(value).encode())
        return reach.reach_of(read.units[0], periods)

    def in_megawatts(self, *lists: List[int]) -> List[List[float]]:
        return [[watts / 10**6 for watts in those] for those in lists]

    def assert_reach(self, found: reach.Reach, *wanted: List[float]) -> None:
        self.assertEqual(self.in_megawatts(found.output, found.with_reserve, found.least), list(wanted))

    def test_a_unit_that_is_on(self) -> None:
        self.assert_reach(self.reach(3, ramp_up_limit=30), [50, 80, 100], [50, 80, 100], [0, 0, 0])
        short = points((20, 200), (60, 600))
        self.assert_reach(self.reach(3, ramp_up_limit=30, piecewise_production=short), [50, 60, 60], [50, 80, 90], [0, 0, 0])

    def test_a_unit_that_starts(self) -> None:
        changes = off(ramp_up_limit=30, ramp_startup_limit=35, time_down_t0=2)
        self.assert_reach(self.reach(4, **changes), [0, 35, 65, 95], [0, 35, 65, 95], [0] * 4)
        self.assert_reach(self.reach(4, **{**changes, "ramp_startup_limit": 100}), [0, 50, 80, 100], [0, 50, 80, 100], [0] * 4)
        self.assert_reach(self.reach(4, **{**changes, "ramp_startup_limit": 19}), [0] * 4, [0] * 4, [0] * 4)

    def test_a_unit_that_stays_on(self) -> None:
        full = [100.0] * 4
        for changes, least in (
            ({"time_up_minimum": 7}, [20, 20, 0, 0]),
            ({"must_run": 1}, [20, 20, 20, 20]),
            ({"power_output_t0": 50}, [20, 0, 0, 0]),
            ({"power_output_t0": 100, "ramp_down_limit": 40}, [60, 20, 0, 0]),
            ({"power_output_t0": 100, "ramp_down_limit": 30}, [70, 40, 20, 0]),
            ({"power_output_t0": 100, "ramp_down_limit": 30, "ramp_shutdown_limit": 100}, [70, 40, 0, 0]),
            ({"ramp_shutdown_limit": 19}, [20, 20, 20, 20]),
            ({"power_output_t0": 15, "ramp_shutdown_limit": 15, "ramp_up_limit": 85}, [0, 0, 0, 0]),
        ):
            with self.subTest(changes):
                self.assert_reach(self.reach(4, **changes), full, full, least)


if __name__ == "__main__":
    unittest.main()
