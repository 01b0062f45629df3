"""Tests `uc-why` on small instances that no schedule serves, each with a certificate written by hand that `examples/check.py` accepts."""
from __future__ import annotations

import contextlib
import copy
import html
import io
import json
import pathlib
import re
import sys
import tempfile
import unittest
import unittest.mock
from typing import Any, Dict, List, Tuple

sys.dont_write_bytecode = True
HERE = pathlib.Path(__file__).resolve().parent
sys.path.insert(0, str(HERE))

from reasons import command  # noqa: E402
from reasons.hours import hour_list, times  # noqa: E402
from reasons.rules import rule_words, rules_in_the_way  # noqa: E402
from reasons.system import System, check  # noqa: E402
from schedule_view import command as view_command  # noqa: E402

OFF = {"unit_on_t0": 0, "power_output_t0": 0, "time_up_t0": 0, "time_down_t0": 3}


def unit(low: int, high: int, ramp: int, limit: int, hours: int, output: int) -> Dict[str, Any]:
    """A unit of one ramp, one limit of starts and stops and one minimum time, on for five hours where it has an output."""
    made = {
        "must_run": 0, "power_output_minimum": low, "power_output_maximum": high, "ramp_up_limit": ramp, "ramp_down_limit": ramp,
        "ramp_startup_limit": limit, "ramp_shutdown_limit": limit, "time_up_minimum": hours, "time_down_minimum": hours,
        "power_output_t0": output, "unit_on_t0": 1, "time_up_t0": 5, "time_down_t0": 0, "startup": [{"lag": 1, "cost": 50}],
        "piecewise_production": [{"mw": low, "cost": 20 * low}, {"mw": high, "cost": 20 * high}],
    }
    return made if output else {**made, **OFF}


BASE: Dict[str, Any] = {
    "time_periods": 3, "demand": [80, 90, 85], "reserves": [5, 5, 5],
    "thermal_generators": {"coal": unit(20, 100, 30, 60, 2, 60), "gas": unit(10, 40, 40, 40, 1, 0)},
    "renewable_generators": {"wind": {"power_output_minimum": [0, 0, 0], "power_output_maximum": [10, 10, 10]}},
}
MUST = {"must_run": 1}


def ray(pi: str, mu: str = "0 0 0", *ramps: str) -> str:
    """The lines of a ray."""
    return "\n".join(["table 0", f"pi {pi}", f"mu {mu}", f"ramps {len(ramps)}", *ramps]) + "\n"


# its name, what is changed of the base and of its units, the tables and the tree, and what the lines say behind the first
CASES: Tuple[Tuple[str, Dict[str, Any], Dict[str, Any], List[str], str, Tuple[str, ...]], ...] = (
    ("demand in one hour", {"demand": [80, 900, 85]}, {}, [ray("0 1 0")], "ray 1", (
        "Hour 2: demand is 900 MW; all units at their most give 150 MW.",
        "  Beside it demand is 80 MW in hour 1 and 85 MW in hour 3. Hour 2 has 10.5 times as much: is entry 2 of `demand` as it should be?",
        '  By unit, in MW: "coal" 100, "gas" 40, "wind" 10.',
    )),
    ("weights of any size", {"demand": [80, 151, 85]}, {}, [ray("0 7000000 3", "0 2 0")], "ray 1", (
        "Hour 2: demand is 151 MW; all units at their most give 150 MW.",
        "  Beside it demand is 80 MW in hour 1 and 85 MW in hour 3.",
    )),
    ("demand and reserve", {"reserves": [80, 5, 5]}, {}, [ray("1 0 0", "1 0 0")], "ray 1", (
        "Hour 1: demand is 80 MW and reserve 80 MW; all units at their most give 150 MW.",
        "  Beside it demand is 90 MW in hour 2.",
        "  Beside it reserve is 5 MW in hour 2. Hour 1 has 16 times as much: is entry 1 of `reserves` as it should be?",
    )),
    ("reserve", {"reserves": [5, 5, 300]}, {}, [ray("0 0 0", "0 0 1")], "ray 1", (
        "Hour 3: reserve is 300 MW; all units have room for 110 MW at most.",
        "  Beside it reserve is 5 MW in hour 2. Hour 3 has 60 times as much: is entry 3 of `reserves` as it should be?",
        '  By unit, in MW: "coal" 80, "gas" 30.',
    )),
    ("a unit that must run", {"demand": [80, 15, 85]}, {"coal": MUST}, [ray("0 -1 0")], "ray 1", (
        "Hour 2: demand is 15 MW; all units at their least give 20 MW.",
        "  Beside it demand is 80 MW in hour 1 and 85 MW in hour 3. Hour 2 has 1/5 of that: is entry 2 of `demand` as it should be?",
        '  By unit, in MW: "coal" 20.',
        "  2 of 3 units give nothing to it.",
    )),
    ("a rise in the first hour", {"demand": [145, 90, 85]}, {}, [ray("1 0 0", "0 0 0", "ramp 1 1 1 0")], "ray 1", (
        "Hour 1: demand is 145 MW; all units at their most, with the ramps and times that lead there, give 140 MW.",
        '  By unit, in MW: "coal" 90, "gas" 40, "wind" 10.',
    )),
    ("a fall in the first hour", {"demand": [25, 90, 85]}, {"coal": MUST}, [ray("-1 0 0", "0 0 0", "ramp 1 1 0 1")], "ray 1", (
        "Hour 1: demand is 25 MW; all units at their least, with the ramps and times that lead there, give 30 MW.",
    )),
    ("below the minimum", {}, {"coal": {"power_output_t0": -30}}, [ray("0 0 0", "0 0 0", "ramp 1 1 1 0")], "ray 1", (
        'Hour 1: "coal" starts 20 MW below what its ramp of 30 MW an hour can reach (-30 MW before hour 1, 50 MW below its minimum).',
    )),
    ("minimum times", {}, {"gas": {**MUST, "time_down_minimum": 5}}, [], "empty 2", (
        'Unit "gas" has no commitment: it must run in every hour (M1) and it was off for 3 hours of at least 5 before hour 1, and so is off in '
        "hours 1 and 2 (M3).",
    )),
    ("above the maximum", {}, {"coal": {"power_output_t0": 120}}, [], "empty 1", (
        'Unit "coal" has no commitment: its output before hour 1 is 120 MW, above its maximum of 100 MW (M7).',
    )),
    ("a limit of starts", {}, {"gas": {**MUST, "ramp_startup_limit": 5}}, [], "empty 2", (
        'Unit "gas" has no commitment: it must run in every hour (M1) and it never starts: its limit there is 5 MW, below its minimum of 10 MW (M9).',
    )),
    ("ramps of a unit", {}, {"coal": {"power_output_t0": 100, "ramp_down_limit": 5, "piecewise_production": [{"mw": 20, "cost": 1}, {"mw": 60, "cost": 2}]}},
     [], "exact-empty 1", (
        'Unit "coal" has no outputs of its own: its points reach 40 MW above its minimum (M8) and it falls by at most 5 MW an hour from the 100 MW '
        "before hour 1 (M12).",
    )),
    ("a rise between two hours", {"demand": [60, 145, 85]}, {}, [ray("-1 1 0")], "exact-ray 1", (
        "Demand rises by 85 MW from hour 1 to hour 2, from 60 MW to 145 MW; all units, each by its ramps and times, can rise by 80 MW at most.",
        '  By unit, in MW: "gas" 40, "coal" 30, "wind" 10.',
    )),
    ("a rise with reserve", {"demand": [60, 120, 85], "reserves": [0, 30, 0]}, {}, [ray("-10 11 0", "0 9 0")], "exact-ray 1", (
        "Demand goes from 60 MW in hour 1 to 120 MW in hour 2, with 30 MW of reserve in hour 2, a rise with room for reserve of 90 MW together; "
        "all units, each by its ramps and times, can 80 MW at most.",
    )),
    ("several hours", {"demand": [140, 62, 140], "reserves": [0, 0, 0]}, {"gas": {"time_down_minimum": 2}}, [ray("10 -10 11", "0 1 0")], "exact-ray 1", (
        "Demand of hours 1 and 3, less demand of hour 2: that is 218 MW; all units, each by its ramps and times, give at most 210 MW of it.",
        '  By unit, in MW: "coal" 120, "gas" 70, "wind" 20.',
    )),
    ("a price of what is short", {"demand": [80, 15, 85]}, {"coal": MUST}, [ray("0 -1 0")], "penalty 7 0|ray 1", (
        "Hour 2: demand is 15 MW; all units at their least give 20 MW.",
    )),
    ("a tree", {"demand": [80, 5, 85]}, {"coal": {"power_output_t0": 100}, "gas": MUST}, [ray("0 1 0"), ray("0 -1 0")],
     "split 1 1|empty 1|split 2 2|empty 2|ray 2", (
        "One reason serves all 3 leaves of the tree, and holds without its splits:",
        "Hour 2: demand is 5 MW; all units at their least give 10 MW.",
    )),
    ("a tree of units", {"demand": [80, 5, 85], "renewable_generators": {}}, {"coal": OFF}, [ray("0 1 0"), ray("0 -1 0")],
     "split 1 2|split 2 2|ray 1|ray 2|ray 2", (
        "The tree has 3 leaves: what is decided on the way to each of them leaves no schedule there.",
        "",
        '2 of 3 leaves, with the numbers of the first one, where "coal" is off in hour 2; "gas" is on in hour 2:',
        "Hour 2: demand is 5 MW; all units at their least give 10 MW.",
        "  Beside it demand is 80 MW in hour 1 and 85 MW in hour 3. Hour 2 has 1/16 of that",
        '  By unit, in MW: "gas" 10.',
        "  1 of 2 units gives nothing to it.",
        "",
        'Where "coal" is off in hour 2; "gas" is off in hour 2:',
        "Hour 2: demand is 5 MW; all units at their most give 0 MW.",
    )),
    ("a decision", {"demand": [80, 900, 85]}, {"coal": {"power_output_t0": 100}}, [ray("0 1 0")], "split 1 1|empty 1|exact-ray 1", (
        "One reason serves all 2 leaves of the tree, and holds without its splits:",
    )),
    ("a unit without a commitment below a split", {}, {"gas": {**MUST, "time_down_minimum": 5}}, [], "split 2 1|empty 2|empty 2", (
        "One reason serves all 2 leaves of the tree, and holds without its splits:",
        'Unit "gas" has no commitment: it must run in every hour (M1)',
    )),
)


def changed(fields: Dict[str, Any], units: Dict[str, Any]) -> Dict[str, Any]:
    """The base with changes."""
    made = copy.deepcopy(BASE)
    made.update(fields)
    for name, changes in units.items():
        made["thermal_generators"][name].update(changes)
    return made


def certificate(made: Dict[str, Any], tables: List[str], tree: str) -> str:
    """A certificate of version 1, or 3 where a leaf is by exact values."""
    penalty, _, nodes = tree.partition("|") if tree.startswith("penalty") else ("", "", tree)
    version = 3 if "exact" in nodes else 1
    sizes = f"size {made['time_periods']} {len(made['thermal_generators'])} {len(made['renewable_generators'])} {len(tables)}"
    assert version == 1 or len(tables) < 2, "the second table would be told by its changes"
    lines = [f"uc-certificate {version}", sizes, "claim infeasible", *([penalty] if penalty else []), "schedule none"]
    return "\n".join(lines) + "\n" + "".join(tables) + nodes.replace("|", "\n") + "\nend\n"


class WhyTest(unittest.TestCase):
    """Runs the command in a folder of its own."""

    def setUp(self) -> None:
        folder = tempfile.TemporaryDirectory()
        self.addCleanup(folder.cleanup)
        self.folder = pathlib.Path(folder.name)

    def put(self, name: str, text: str) -> str:
        """A file of the folder."""
        path = self.folder / name
        path.write_text(text, encoding="utf-8")
        return str(path)

    def run_why(self, *words: str) -> Tuple[int, str, str]:
        """The status, and what is said on both outputs."""
        out, err = io.StringIO(), io.StringIO()
        with contextlib.redirect_stdout(out), contextlib.redirect_stderr(err):
            status = command.main(list(words))
        return status, out.getvalue(), err.getvalue()

    def files(self, case: Any) -> Tuple[str, str]:
        """The instance and the certificate of a case."""
        _, fields, units, tables, tree, _ = case
        made = changed(fields, units)
        return self.put("in.json", json.dumps(made)), self.put("in.cert", certificate(made, tables, tree))


class Reasons(WhyTest):
    def test_each_kind_is_told(self) -> None:
        for case in CASES:
            with self.subTest(case[0]):
                status, out, err = self.run_why(*self.files(case))
                self.assertEqual((status, err), (0, ""))
                lines, wanted = out.splitlines(), case[-1]
                self.assertIn("`uc check` tells whether it holds", lines[0])
                self.assertEqual(lines[1], "")
                for line, start in zip(lines[2:], wanted):
                    self.assertTrue(line.startswith(start) if start else not line, f"{line!r} for {start!r}")
                self.assertGreaterEqual(len(lines), len(wanted) + 2)

    def test_the_certificates_hold(self) -> None:
        for case in CASES:
            with self.subTest(case[0]):
                path, cert = self.files(case)
                instance = check.instance_of(check.json_of(pathlib.Path(path).read_bytes()))
                read = check.certificate_of(pathlib.Path(cert).read_bytes())
                check.penalize(instance, *read.prices)
                self.assertEqual(check.check(instance, read), ["accepted", "infeasible"])

    def test_leaves_that_are_not_as_they_say(self) -> None:
        for tree, place in (("ray 1", "node 1"), ("empty 1", "node 1"), ("exact-empty 2", "node 1"), ("split 1 1|ray 1|ray 1", "node 3")):
            with self.subTest(tree):
                path, cert = self.files(("", {}, {}, [ray("0 1 0")], tree, ()))
                status, out, err = self.run_why(path, cert)
                self.assertEqual((status, out), (1, ""))
                self.assertTrue(err.startswith(f"uc-why: {cert}: {place}: the instance doesn't bear out "), err)

    def test_tables_past_their_limits(self) -> None:
        path, cert = self.files(("", {}, {}, [ray("0 1 0", "0 -1 0")], "ray 1", ()))
        self.assertIn(f"{cert}: certificate: C1 table 1; `uc check` refuses", self.run_why(path, cert)[2])

    def test_few_reasons_of_many(self) -> None:
        case = next(case for case in CASES if case[0] == "a tree of units")
        with unittest.mock.patch.object(command, "TOLD", 1):
            files = self.files(case)
            self.assertTrue(self.run_why(*files)[1].endswith("\n\nOf 1 leaf `uc-why --all` tells another reason.\n"))
            self.assertNotIn("--all", self.run_why(*files, "--all")[1])

    def test_rules_in_words(self) -> None:
        system = System("in.json", json.dumps(changed({}, {"coal": {"time_up_t0": 1}})).encode(), (0, 0))
        for rule, words in (
            ("M2", "it was on for 1 hour of at least 2 before hour 1, and so is on in hour 1"),
            ("M4", "once started it stays on for at least 2 hours"),
            ("M8", "its points reach 80 MW above its minimum"),
            ("M9", "it gives at most 60 MW in the hour of a start"),
            ("M10", "it gives at most 60 MW in the hour before a stop"),
            ("M11", "it rises by at most 30 MW an hour from the 60 MW before hour 1"),
            ("M12", "it falls by at most 30 MW an hour from the 60 MW before hour 1"),
        ):
            self.assertEqual(rule_words(system, 1, rule, {}), f"{words} ({rule})")

    def test_files_of_other_claims(self) -> None:
        path, cert = self.files(CASES[0])
        bound = (HERE / "tests/coast.cert").read_text()
        coast = str(HERE / "tests/coast.json")
        for words, said in (
            ((coast, str(HERE / "tests/coast.cert")), "line 3: claims a bound"),
            ((coast, cert), "line 2: the sizes aren't those of the instance"),
            ((path, self.put("cut", bound[:-1])), "line 13: cut short"),
            ((path, str(self.folder / "no")), "can't be read"),
            ((coast, str(HERE / "tests/coast.report")), "line 2: the report has no reason"),
            ((path, self.put("none", "periods 3 thermal 2 renewable 1 rounded 0\ninfeasible\nevaluations 0\n")), "line 2: no schedule exists, and"),
        ):
            with self.subTest(said):
                status, out, err = self.run_why(*words)
                self.assertEqual((status, out, err.count("\n")), (1, "", 1))
                self.assertIn(f"{words[1]}: {said}", err)

    def test_decisions_are_among_the_rules(self) -> None:
        gas = {**MUST, "time_down_minimum": 5}
        system = System("in.json", json.dumps(changed({}, {"gas": gas})).encode(), (0, 0))
        for on, rules, words in ((0, ["D", "M1"], "it is off in hour 1 at this leaf"), (1, ["D", "M3"], "it is on in hour 1 at this leaf")):
            self.assertEqual(rules_in_the_way(system, 2, {1: on}, False), rules)
            self.assertEqual(rule_words(system, 2, "D", {1: on}), words)
        self.assertEqual(rules_in_the_way(system, 1, {}, True), [])
        self.assertEqual(rules_in_the_way(system, 1, {1: 0, 2: 1}, False), ["D", "M5"])
        self.assertEqual(rules_in_the_way(system, 1, {1: 0}, True), ["D", "M12"])
        self.assertEqual(rule_words(system, 1, "M5", {}), "once stopped it stays off for at least 2 hours (M5)")

    def test_hours_in_words(self) -> None:
        self.assertEqual(hour_list([2]), "hour 2")
        self.assertEqual(hour_list([1, 2, 5, 6, 7, 9]), "hours 1, 2, 5 to 7 and 9")
        self.assertEqual(times(1), "1 hour")


class Hints(WhyTest):
    def test_each_hint_is_told(self) -> None:
        path = self.put("in.json", json.dumps(BASE))
        for why, said in (
            ("least output 300.000000 above demand 90.000000", "with all these units on, their least outputs are 300 MW together, more than the demand of 90 MW"),
            ("most output 80.500000 below demand 90.000000", "even at their most these units give 80.5 MW, less than the demand of 90 MW"),
            ("reserve 3.000000 below need 5.000000", "what demand leaves free is 3 MW of reserve, less than the 5 MW that are needed"),
            ('thermal "gas" breaks M3', 'unit "gas" breaks rule M3: a unit has to stay off for what is left of its minimum time off'),
            ('thermal "gas" needs at least 20.000000 and at most 10.000000 above its minimum', 'unit "gas" can fall no lower than 20 MW above'),
        ):
            with self.subTest(why):
                hint = f"most-on commitment stuck in period 2: {why}\n"
                head = "periods 3 thermal 2 renewable 1 rounded 0\nbudget spent, no schedule found\nbound 0.000000\nevaluations 9\n"
                status, out, err = self.run_why(path, self.put("report", head + hint))
                self.assertEqual((status, err), (0, ""))
                self.assertIn(f"In hour 2 {said}", out)
                self.assertIn("no proof that there is no schedule", out)


class Pages(WhyTest):
    def drawn(self, *words: str) -> str:
        """The page of `uc-view`."""
        page = self.folder / "out.html"
        self.assertEqual(view_command.main([*words, "-o", str(page)]), 0)
        return html.unescape(re.sub("<[^>]*>", "", page.read_text(encoding="utf-8")))

    def test_a_page_begins_with_the_reason(self) -> None:
        for case in CASES:
            with self.subTest(case[0]):
                path, cert = self.files(case)
                renewable = len(json.loads(pathlib.Path(path).read_text())["renewable_generators"])
                report = self.put("report", f"periods 3 thermal 2 renewable {renewable} rounded 0\ninfeasible\nevaluations 0\n")
                page = self.drawn(path, report, cert)
                self.assertIn(case[-1][0].replace("`", ""), page)
                self.assertIn("The certificate's reason: ", page)
                self.assertNotIn("bear this out", page)
        self.assertIn("Draw it with its certificate to see why.", self.drawn(path, report))

    def test_a_reason_that_does_not_hold(self) -> None:
        path, cert = self.files(("", {}, {}, [ray("0 1 0")], "ray 1", ()))
        report = self.put("report", "periods 3 thermal 2 renewable 1 rounded 0\ninfeasible\nevaluations 0\n")
        self.assertIn("The instance doesn't bear this out: uc check refuses such a certificate.", self.drawn(path, report, cert))

    def test_what_a_hint_means(self) -> None:
        hint = "most-on commitment stuck in period 2: reserve 3.000000 below need 5.000000\n"
        head = "periods 3 thermal 2 renewable 1 rounded 0\nbudget spent, no schedule found\nbound 0.000000\nevaluations 9\n"
        page = self.drawn(self.put("in.json", json.dumps(BASE)), self.put("report", head + hint))
        self.assertIn("In hour 2 what demand leaves free is 3 MW of reserve, less than the 5 MW that are needed.", page)
        self.assertIn("no proof that there is no schedule", page)


if __name__ == "__main__":
    unittest.main()
