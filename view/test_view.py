#!/usr/bin/env python3
"""Tests `uc-view` on stored reports: what is drawn adds up, and what doesn't fit is refused with a line that says where.

    python3 view/test_view.py            # at the top of the repository; the tests of the commands beside it are run too
"""
from __future__ import annotations

import contextlib
import html.parser
import io
import json
import pathlib
import re
import sys
import tempfile
import unittest
from decimal import Decimal
from fractions import Fraction
from typing import Dict, List, Optional, Tuple

sys.dont_write_bytecode = True
HERE = pathlib.Path(__file__).resolve().parent
TOP, STORED = HERE.parent, HERE / "tests"
sys.path.insert(0, str(HERE))

from schedule_view import amounts, command, costs, fit, instance, page, report  # noqa: E402
from schedule_view.refusal import Refusal  # noqa: E402

ROW1 = TOP / "crates/uc/data/row1.json"
KAZARLIS = TOP / "examples/kazarlis10.json"
MUST_RUN = TOP / "examples/kazarlis10_must_run.json"
COAST = STORED / "coast.json"
COAST_FILES = COAST, STORED / "coast.report", STORED / "coast.cert"
# the same with more demand than all units give, at prices of 500 and 50 dollars
SHORT_FILES = STORED / "coast_short.json", STORED / "coast_short.report", STORED / "coast_short.cert"
SHORT_WORDS = "--shed", "500", "--spill-reserve", "50"
SHORT_UPLIFT, KAZARLIS_UPLIFT = STORED / "coast_short.uplift", STORED / "kazarlis10.uplift"

ROW1_REPORT = """periods 1 thermal 1 renewable 0 rounded 0
closed
cost 300.000000
bound 300.000000
evaluations 0
thermal "g1" 30.000000+5.000000
"""
ROW1_CERTIFICATE = """uc-certificate 1
size 1 1 0 1
claim bound 300.000000
schedule 300.000000
t 20000000:5000000:0
table 1000000
pi 10000000
mu 0
ramps 0
bound 1
end
"""
MUST_RUN_REPORT = """periods 24 thermal 10 renewable 0 rounded 0
budget spent, no schedule found
bound 168126.600000
evaluations 1
"""
# row1 with a demand of 5 and no reserve, and with a demand of 60
STUCK = "most-on commitment stuck in period 1: least output 10.000000 above demand 5.000000"
STUCK_REPORT = f"""periods 1 thermal 1 renewable 0 rounded 0
budget spent, no schedule found
bound 0.000000
evaluations 1
{STUCK}
"""
INFEASIBLE_REPORT = """periods 1 thermal 1 renewable 0 rounded 0
infeasible
evaluations 0
"""
INFEASIBLE_CERTIFICATE = """uc-certificate 1
size 1 1 0 1
claim infeasible
schedule none
table 0
pi 1
mu 0
ramps 0
ray 1
end
"""

# an edit of coast.report, and what the refusal says after the file's name
BROKEN_REPORTS = (
    ("evaluations 1\n", "evaluations 1\ndenominator 4\n", "line 7: period 1: output 10.000000 below the unit's minimum, 20.000000"),
    ("evaluations 1\n", "evaluations 1\ndenominator 1\n", 'line 6: "denominator 1" is no denominator from 2 to 99'),
    ("evaluations 1\n", "evaluations 1\ndenominator 02\n", 'line 6: "denominator 02" is no denominator from 2 to 99'),
    ("thermal 2", "thermal 3", 'line 8: "renewable "wind'),
    ("thermal 2 renewable 1", "thermal 1 renewable 2", 'line 7: "thermal "peak'),
    ("rounded 1", "rounded 0", "line 1: 0 rounded numbers, where the instance has 1"),
    ("periods 4", "periods 04", "line 1: not the line of sizes that a report begins with"),
    ("budget spent", "budget  spent", 'line 2: "budget  spent" is no outcome'),
    ("cost 5046.666668", "cost 5046.66666", 'line 3: "5046.66666" is no amount of money'),
    ("cost 5046.666668", "cost 4046.666668", "line 4: the bound is above the cost, 4046.666668"),
    ("cost 5046.666668", "cost 5046.666667", "line 3: the schedule costs 5046.666668"),
    ("evaluations 1", "evaluations +1", 'line 5: "+1" is no number of evaluations'),
    ('"base \\"1\\""', '"base 1"', 'line 6: unit "base 1", where the instance has "base "1""'),
    (" 40.000000+5.000000\n", "\n", "line 6: 3 cells for 4 periods"),
    ("70.000000+5.000000", "70.00000+5.000000", 'line 6: period 2: "70.00000+5.000000" is no cell'),
    ("70.000000+5.000000", "70.000000", 'line 6: period 2: "70.000000" is no cell'),
    ("70.000000+5.000000", "15.000000+5.000000", "line 6: period 2: output 15.000000 below the unit's minimum, 20.000000"),
    ("80.000000+0.000000", "81.000000+0.000000", "line 6: period 3: output 81.000000 above the unit's greatest, 80.000000"),
    ("80.000000+0.000000", "80.000000+0.000001", "line 6: period 3: output and reserve above the unit's maximum, 80.000000"),
    ("70.000000+5.000000", "70.000000+5.000000*1", "line 6: period 2: a start of a unit that is on the hour before"),
    ("+0.000000*2", "+0.000000", "line 7: period 2: a start without a category"),
    ("+0.000000*2", "+0.000000*3", "line 7: period 2: start category 3 of a unit that has 2"),
    ('thermal "peak', 'renewable "peak', 'line 7: "renewable "peak <2>" - 10.'),
    (" 10.500000 ", " 10.500001 ", "line 8: period 2: output 10.500001 not from 0.000000 to 10.500000"),
    (" 30.000000 0.000000", " 30.000000  0.000000", 'line 8: "renewable "wind'),
    (" 30.000000 0.000000", " 30.000000 0.000000 0.000000", "line 8: 5 cells for 4 periods"),
    ("30.000000 0", "29.000000 0", "period 3: outputs add up to 119.000000, where demand is 120.000000"),
    ("10.000000+10.000000", "10.000000+9.999999", "period 3: reserves add up to 9.999999, where 10.000000 is needed"),
    ("30.000000 0.000000\n", "30.000000 0.000000\n\n", "line 9: bytes after the end"),
)
# what `uc roll` prints in place of the lines of coast.report behind the first one and before the schedule, and of all of them
SOLVED_LINES = "budget spent\ncost 5046.666668\nbound 4793.333330\nevaluations 1\n"
ROLLED_LINES = "rolled 2 windows\ncost 5046.666668\n"
STOPPED_REPORT = """periods 4 thermal 2 renewable 1 rounded 1
window 2 periods 2 to 4: infeasible
"""
# an edit of a report of `uc roll`, likewise
BROKEN_ROLLS = (
    ("rolled 2", "rolled 02", 'line 2: "rolled 02 windows" where the number of windows is due'),
    ("rolled 2", "rolled 0", "line 2: 0 windows, where the instance has 4 periods"),
    ("rolled 2", "rolled 5", "line 2: 5 windows, where the instance has 4 periods"),
    ("cost 5046.666668", "cost 5046.666667", "line 3: the schedule costs 5046.666668"),
    ("cost 5046.666668\n", "cost 5046.666668\nbound 0.000000\n", 'line 4: "bound 0.000000" where a thermal unit is due'),
    ("80.000000+0.000000", "81.000000+0.000000", "line 4: period 3: output 81.000000 above the unit's greatest, 80.000000"),
)
BROKEN_STOPS = (
    ("infeasible", "spent", 'line 2: "window 2 periods 2 to 4: spent" where a window without a schedule is due'),
    ("window 2", "window 3", "line 2: no window 3 of an instance of 4 periods has these"),
    ("window 2", "window 0", "line 2: no window 0 of an instance of 4 periods has these"),
    ("to 4", "to 5", "line 2: no window 2 of an instance of 4 periods has these"),
    ("periods 2 to 4", "periods 4 to 3", "line 2: no window 2 of an instance of 4 periods has these"),
    (": infeasible\n", ": infeasible\nevaluations 1\n", "line 3: bytes after the end"),
)
# an edit of the line on the stuck commitment, likewise
BROKEN_REASONS = (
    ("period 1", "period 2", "line 5: the instance has no period 2"),
    ("above", "below", 'line 5: "least output 10.000000 below demand 5.000000" is no reason'),
    ("10.000000", "4.000000", "line 5: "),
    ("demand 5", "demand 6", "line 5: the demand of the instance is 5.000000"),
    ("least output 10.000000 above demand 5.000000", 'thermal "g2" breaks M7', 'line 5: the instance has no thermal unit "g2"'),
    ("least output 10.000000 above demand 5.000000", "reserve -5.000000 below need 1.000000", "line 5: the need of the instance"),
)
# an edit of coast.cert, likewise
BROKEN_CERTIFICATES = (
    ("uc-certificate 1", "uc-certificate 4", 'line 1: "uc-certificate 4" where "uc-certificate" and a version from 1 to 3 are due'),
    ("size 4 2 1 1", "size 4 3 1 1", 'line 7: "w 20000000 10500000 30000000 0" where t and 4 cells are due'),
    ("bound 4793.333330", "bound 4793.333331", "line 3: the claim isn't that of the report"),
    ("schedule 5046.666668", "schedule 5046.666669", "line 4: the schedule isn't that of the report"),
    ("schedule 5046.666668", "schedule 5046.666668 over 2", 'line 4: "schedule 5046.666668 over 2" where the schedule is due'),
    ("50000000:5000000:0", "50000000:5000000:1", "line 5: the cell of period 2 isn't that of the report"),
    ("50000000:5000000:0", "50000000:5000000", 'line 5: "50000000:5000000" is no cell'),
    ("30000000 0\n", "30000000 1\n", "line 7: the output of period 4 isn't that of the report"),
    ("table 1000000", "table 0", "line 12: a bound at a table of scale 0"),
    ("mu 0 0 3000000 0", "mu 0 0 3000000", 'line 10: "mu 0 0 3000000" where mu and 4 numbers are due'),
    ("ramps 0", "ramps 1\nramp 1 1 0 0", "line 12: a ramp row that may not stand here"),
    ("ramps 0", "ramps 2\nramp 1 2 1 0\nramp 1 2 1 0", "line 13: a ramp row that may not stand here"),
    ("bound 1\n", "bound 2\n", 'line 12: "bound 2" is no node of the tree'),
    ("bound 1\n", "exact 1\n", 'line 12: "exact 1" is no node of the tree'),
    ("bound 1\n", "split 1 1\nbound 1\n", 'line 14: "end" is no node of the tree'),
    ("end\n", "end", "line 13: cut short"),
    ("end\n", "end\n.", "line 14: bytes after the end"),
)
# an edit of coast.json, likewise
BROKEN_INSTANCES = (
    ('"time_periods": 4', '"time_periods": 169', "time_periods: not from 1 to 168"),
    ("[60, 90.5, 120, 40]", "[60, 90.5, 120]", "demand: 3 entries for 4 periods"),
    ("[60, 90.5, 120, 40]", '[60, 90.5, "120", 40]', "demand 3: no number"),
    ("[60, 90.5, 120, 40]", "[60, 90.5, 1e9999999999999, 40]", "demand 3: past the limit"),
    ('"power_output_minimum": 20', '"power_output_minimum": 90', 'thermal "base "1"" power_output_maximum: below the minimum'),
    ('"unit_on_t0": 0', '"unit_on_t0": 0.5', 'thermal "peak <2>" unit_on_t0: not whole'),
    ('"mw": 50, "cost": 900', '"mw": 10, "cost": 900', 'thermal "base "1"" piecewise_production 2 mw: below the row before'),
    ("[20, 10.5000001, 30, 0]", "[20, 10.5000001, 30, -1]", 'renewable "wind\\3" power_output_maximum 4: below the minimum or 0'),
    ('"reserves"', '"demand"', 'key twice in an object: "demand"'),
    ('"demand": [60', '"demand": [NaN', "no JSON: NaN"),
    ("  }\n}\n", "  }\n", "line 47 column 1: no JSON"),
    ("[60, 90.5, 120, 40]", "[" * 100_000, "nested too deep"),
)

# an edit of coast_short.report, and what the refusal says after the file's name
BROKEN_SHORTAGES = (
    ("shed 0.000000 0.000000 40", "shed 0.000000 1.000000 39", "period 2: outputs add up to 91.500000, where demand is 90.500000"),
    ("40.000000 0.000000\nr", "39.999999 0.000000\nr", "period 3: outputs add up to 199.999999, where demand is 200.000000"),
    ("10.000000 0.000000\n", "9.999999 0.000000\n", "period 3: reserves add up to 9.999999, where 10.000000 is needed"),
    ("10.000000 0.000000\n", "10.000001 0.000000\n", "line 10: period 3: 10.000001 not from 0.000000 to 10.000000"),
    ("shed 0.000000", "shed -1.000000", "line 9: period 1: -1.000000 not from 0.000000 to 60.000000"),
    ("shed 0.000000", "shed 60.000001", "line 9: period 1: 60.000001 not from 0.000000 to 60.000000"),
    ("shed 0.000000", "shed 0.00000", 'line 9: period 1: "0.00000" is no amount of power'),
    ("shed 0.000000", "shed", "line 9: 3 amounts for 4 periods"),
    ("shed 0.000000 ", "shed 0.000000  ", "line 9: 5 amounts for 4 periods"),
    ("shed 0.000000 0.000000 40.000000 0.000000\n", "", "no line shed, where that has a price of 500"),
    ("reserve-short 0.000000 0.000000 10.000000 0.000000\n", "", "no line reserve-short, where that has a price of 50"),
    ("reserve-short", "shed", "line 10: bytes after the end"),
    ("cost 26746.666668", "cost 26746.666667", "line 3: the schedule costs 26746.666668"),
)
# an edit of coast_short.cert, likewise
BROKEN_PENALTIES = (
    ("penalty 500 50", "penalty 499 50", "line 3: the schedule costs 26706.666668"),
    ("penalty 500 50", "penalty 0 50", "line 9: shed without its price"),
    ("penalty 500 50", "penalty 500 0", "line 10: reserve-short without its price"),
    ("penalty 500 50", "penalty 0 0", "line 4: a price past its limit, or none"),
    ("penalty 500 50", "penalty 500 1000001", "line 4: a price past its limit, or none"),
    ("penalty 500 50", "penalty -1 50", "line 4: a price past its limit, or none"),
    ("penalty 500 50", "penalty 500", 'line 4: "penalty 500" where penalty and 2 numbers are due'),
    ("penalty 500 50\n", "", 'line 8: "d 0 0 40000000 0" where table and 1 numbers are due'),
    ("schedule 26746.666668", "schedule 26746.666669", "line 5: the schedule isn't that of the report"),
    ("d 0 0 40000000 0\n", "", 'line 9: "e 0 0 10000000 0" where d and 4 cells are due'),
    ("d 0 0 40000000", "d 0 0 40000001", "line 9: the unserved demand of period 3 isn't that of the report"),
    ("e 0", "e 1", "line 10: the missing reserve of period 1 isn't that of the report"),
    ("e 0 0", "e 0", 'line 10: "e 0 10000000 0" where e and 4 cells are due'),
)
# an edit of coast_short.uplift, likewise
BROKEN_UPLIFTS = (
    ("scale 1000000", "scale 0", 'line 1: "scale 0" where the scale of a table of prices is due'),
    ("price 16666667 20000000", "price 16666667 020000000", "line 2: not the line price and its numbers"),
    ("price 16666667 20000000", "price 16666667", "line 2: 3 prices for 4 periods"),
    ("reserve-price 0 0", "reserve-price 0 0 0", "line 3: 5 prices for 4 periods"),
    ('"base \\"1\\"" 1', '"base \\"1\\""  1', 'line 4: "thermal "base'),
    ("peak <2>", "peak <3>", 'line 5: unit "peak <3>", where the instance has "peak <2>"'),
    ('renewable "wind\\\\3" 0\n', "", "0 renewable units, where the instance has 1"),
    ("shed 0\n", "", "a line shed comes exactly where something may be short"),
    ("shed 0", "shed -1", "line 7: a number below 0"),
    ("reserve-slack 0", "reserve-slack", 'line 8: "reserve-slack" where reserve-slack and a number are due'),
    ("ramp-slack 0", "ramp-slack 1", "line 10: the parts add up to 163333338000001"),
    ("total 163333338000000\n", "total 163333338000000\n\n", "line 11: bytes after the end"),
)

Bar = Tuple[int, Decimal, Decimal]


class Drawn(html.parser.HTMLParser):
    """A page as it was read again: the bars of each named group, its texts, and whether its tags are balanced."""

    def __init__(self, text: str) -> None:
        super().__init__()
        self.bars: Dict[str, List[Bar]] = {}
        self.written, self.text, self._open, self._grain = text, "", [], 1
        self.feed(text)
        assert not self._open, self._open

    def handle_starttag(self, tag: str, attributes: List[Tuple[str, Optional[str]]]) -> None:
        if tag == "meta":
            return
        found = dict(attributes)
        self._open.append((tag, found.get("id") if tag == "g" else None))
        if "data-grain" in found:
            self._grain = int(found["data-grain"])
        name = next((name for _, name in reversed(self._open) if name), None)
        bar = re.fullmatch(r"M(\d+) ([0-9.-]+)v([0-9.]+)h1v-([0-9.]+)z", found.get("d", ""))
        if name and bar:
            assert bar[3] == bar[4]
            low, size = (Decimal(number) * self._grain for number in (bar[2], bar[3]))
            self.bars.setdefault(name, []).append((int(bar[1]), low, size))

    def handle_endtag(self, tag: str) -> None:
        assert self._open.pop()[0] == tag, tag

    def handle_data(self, data: str) -> None:
        self.text += data

    def heights(self, name: str, periods: int) -> List[Decimal]:
        """The sum of the bars over each hour, in watts; bars stand on each other without gaps, from nought."""
        tops = [Decimal(0)] * periods
        for period, low, size in self.bars.get(name, []):
            assert low == tops[period], (name, period, low)
            tops[period] += size
        return tops


class ViewTest(unittest.TestCase):
    """Runs the command in a folder of its own."""

    def setUp(self) -> None:
        folder = tempfile.TemporaryDirectory()
        self.addCleanup(folder.cleanup)
        self.folder = pathlib.Path(folder.name)
        self.out = self.folder / "out.html"

    def put(self, name: str, text: str) -> pathlib.Path:
        """A file of the folder."""
        path = self.folder / name
        path.write_bytes(text.encode("utf-8"))
        return path

    def run_view(self, *files: pathlib.Path, words: Tuple[str, ...] = ()) -> Tuple[int, str]:
        """The status and what the error output says."""
        err = io.StringIO()
        with contextlib.redirect_stderr(err):
            status = command.main([*map(str, files), "-o", str(self.out), *words])
        return status, err.getvalue()

    def drawn(self, *files: pathlib.Path, words: Tuple[str, ...] = ()) -> Drawn:
        """The page of files that are taken."""
        self.assertEqual(self.run_view(*files, words=words), (0, ""))
        return Drawn(self.out.read_text(encoding="utf-8"))

    def refused(self, place: str, *files: pathlib.Path, words: Tuple[str, ...] = ()) -> None:
        """The files are refused with one line that begins so, and nothing is written."""
        status, said = self.run_view(*files, words=words)
        self.assertEqual((status, said[: len(place) + 9]), (1, f"uc-view: {place}"))
        self.assertEqual(said.count("\n"), 1)
        self.assertTrue(said.endswith("\n"))
        self.assertFalse(self.out.exists())

    def row1(self, demand: int, reserve: int) -> pathlib.Path:
        """The smallest instance with another demand and reserve."""
        value = json.loads(ROW1.read_text())
        value.update(demand=[demand], reserves=[reserve])
        return self.put("row.json", json.dumps(value))


class Pictures(ViewTest):
    def test_heights_add_up_to_demand(self) -> None:
        for path, stored in ((COAST, "coast"), (KAZARLIS, "kazarlis10")):
            wanted = json.loads(path.read_text(), parse_float=Decimal)
            drawn = self.drawn(path, STORED / f"{stored}.report", STORED / f"{stored}.cert")
            periods = wanted["time_periods"]
            self.assertEqual(drawn.heights("outputs", periods), [power * 10**6 for power in wanted["demand"]])
            self.assertEqual(drawn.heights("reserves", periods), [power * 10**6 for power in wanted["reserves"]])

    def test_head_says_what_the_report_says(self) -> None:
        text = self.drawn(COAST, STORED / "coast.report").text
        for words in ("$5,046.666668", "$4,793.333330", "5.0199 %", "Budget spent: a schedule was found", 'base "1"', "peak <2>"):
            self.assertIn(words, text)
        self.assertIn("Closed", self.drawn(ROW1, self.put("r", ROW1_REPORT), self.put("c", ROW1_CERTIFICATE)).text)

    def test_pages_stand_alone(self) -> None:
        self.drawn(COAST, STORED / "coast.report", STORED / "coast.cert")
        written = self.out.read_text(encoding="utf-8")
        for words in ("http", "src=", "href", "<script", "@import", "@font-face"):
            self.assertNotIn(words, written)
        self.assertEqual(set(re.findall(r"url\((.)", written)) - {"#"}, set())

    def test_costs_add_up(self) -> None:
        drawn = self.drawn(COAST, STORED / "coast.report")
        # by hand: the first unit costs 400 and 16.67 or 20 a MWh, the second one 350, and its start of category 2 costs 80
        dollars = ("733.333334", "1650", "1850", "733.333334")
        self.assertEqual(drawn.heights("production", 4), [Decimal(amount) * 10**6 for amount in dollars])
        self.assertEqual(drawn.bars["starts"], [(1, Decimal(1650 * 10**6), Decimal(80 * 10**6))])
        self.assertIn("Production costs $4,966.666668, starts $80.", drawn.text)
        self.assertIn("hour 2: production $1,650, starts $80", drawn.text)

    def test_costs_below_nought_hang_from_it(self) -> None:
        value = json.loads(ROW1.read_text())
        unit = value["thermal_generators"]["g1"]
        unit.update(unit_on_t0=0, time_up_t0=0, time_down_t0=5, power_output_t0=0, startup=[{"lag": 1, "cost": -7}])
        unit["piecewise_production"] = [{"mw": 10, "cost": -100}, {"mw": 50, "cost": -60}]
        written = ROW1_REPORT.replace("300.000000", "-87.000000").replace("+5.000000", "+5.000000*1")
        written = self.drawn(self.put("paid.json", json.dumps(value)), self.put("paid", written)).written
        self.assertIn('d="M0 -80000v80000h1v-80000z"', written)
        self.assertIn('d="M0 -87000v7000h1v-7000z"', written)
        self.assertIn("production -$80, starts -$7", written)

    def test_curtailed_power_is_drawn(self) -> None:
        drawn = self.drawn(COAST, STORED / "coast.report")
        self.assertIn("None: all that renewable units can give, 60.5 MWh, is used.", drawn.text)
        self.assertNotIn("curtailed", drawn.bars)
        more = self.put("more.json", COAST.read_text().replace("[20, 10.5000001, 30, 0]", "[25, 10.5000001, 30, 0.5]"))
        drawn = self.drawn(more, STORED / "coast.report")
        self.assertEqual(drawn.heights("curtailed", 4), [5 * 10**6, 0, 0, 500_000])
        self.assertIn("could give and don't: 5.5 of 66 MWh.", drawn.text)

    def test_shortages_are_drawn(self) -> None:
        drawn = self.drawn(*SHORT_FILES)
        demand = [60 * 10**6, 90_500_000, 200 * 10**6, 40 * 10**6]
        self.assertEqual(drawn.heights("outputs", 4), demand)
        self.assertIn((2, Decimal(160 * 10**6), Decimal(40 * 10**6)), drawn.bars["outputs"])
        self.assertEqual(drawn.heights("reserves", 4), [5 * 10**6, 5 * 10**6, 0, 5 * 10**6])
        self.assertEqual(drawn.bars["missing"], [(2, Decimal(0), Decimal(10 * 10**6))])
        self.assertEqual(drawn.bars["unserved-demand"], [(2, Decimal(3050 * 10**6), Decimal(20_000 * 10**6))])
        self.assertEqual(drawn.bars["missing-reserve"], [(2, Decimal(23_050 * 10**6), Decimal(500 * 10**6))])
        for words in (
            "Unserved demand40 MWh at $500Missing reserve10 MWh at $50Evaluations",
            "unserved demandat 500 $/MWh",
            "to which the outputs and the unserved demand on top of them add up.",
            "unserved demand, hour 3: 40 MW",
            "hour 3: 10 MW missing",
            "ShortagesUnserved demand: 40 MWh at $500 a MWh, $20,000 in all.Missing reserve: 10 MWh at $50 a MWh, $500 in all.",
            "hourunserved demand, MWmissing reserve, MWcost34010$20,500",
            "reserve givenmissing reserve",
            "starts $80, unserved demand $20,000, missing reserve $500.",
            "hour 3: production $3,050, starts $0, unserved demand $20,000, missing reserve $500",
        ):
            self.assertIn(words, drawn.text)
        told = self.drawn(*SHORT_FILES[:2], words=SHORT_WORDS)
        self.assertEqual(told.bars, {name: bars for name, bars in drawn.bars.items() if name != "prices"})

    def test_prices_without_a_shortage(self) -> None:
        noughts = "0.000000 0.000000 0.000000 0.000000"
        served = self.put("served", (STORED / "coast.report").read_text() + f"shed {noughts}\n")
        drawn = self.drawn(COAST, served, words=("--shed", "7"))
        self.assertIn("ShortagesUnserved demand: none, at $7 a MWh.Curtailed", drawn.text)
        self.assertIn("starts $80, unserved demand $0.", drawn.text)
        self.assertNotIn("issing reserve", drawn.text)
        self.assertEqual(drawn.written.count("<table"), 1)
        certificate = (STORED / "coast.cert").read_text().replace("schedule", "penalty 7 0\nschedule")
        priced = self.put("priced.cert", certificate.replace("table", "d 0 0 0 0\ne 0 0 0 0\ntable"))
        self.assertEqual(self.drawn(COAST, served, priced).bars["outputs"], drawn.bars["outputs"])
        self.assertNotIn("hortage", self.drawn(*COAST_FILES).text)

    def test_gap_that_was_asked_for(self) -> None:
        self.assertNotIn("asked for0", self.drawn(COAST, STORED / "coast.report").text)
        self.assertIn("Gap asked for5.0198 %", self.drawn(COAST, STORED / "coast.report", words=("--gap", "50198")).text)
        self.drawn(ROW1, self.put("r", ROW1_REPORT), words=("--gap", "0"))
        self.out.unlink()
        place = f'{STORED}/coast.report: line 2: "budget spent", where the gap is 50199 parts per million and 50199 were asked for'
        self.refused(place, COAST, STORED / "coast.report", words=("--gap", "50199"))
        for word in ("1000001", "-1", "x"):
            with contextlib.redirect_stderr(io.StringIO()), self.assertRaises(SystemExit) as ended:
                command.main([str(COAST), str(STORED / "coast.report"), "-o", str(self.out), f"--gap={word}"])
            self.assertEqual(ended.exception.code, 2)

    def test_every_hour_is_in_sight_at_every_width(self) -> None:
        written = self.drawn(KAZARLIS, STORED / "kazarlis10.report", STORED / "kazarlis10.cert").written
        label = r'<text x="([0-9.]+)%" y="[0-9.]+" class="hour every-\d+">(?:<title>[^<]*</title>)?(\d+)</text>'
        labels = re.findall(label, written)
        self.assertEqual(len(labels), 5 * 24)
        for place, hour in labels:
            self.assertAlmostEqual(float(place), 100 * (int(hour) - 0.5) / 24, places=3)
        # nothing but a legend's icons has a width in pixels, and what is drawn in hours is stretched over its plot
        self.assertEqual(set(re.findall(r'<svg[^>]* width="([^"]*)"', written)), {"14"})
        self.assertEqual(set(re.findall(r'viewBox="0 0 (\d+) [^"]*" preserveAspectRatio="none"', written)), {"24"})

    def test_prices_are_drawn(self) -> None:
        self.assertNotIn("Prices", self.drawn(COAST, STORED / "coast.report").text)
        text = self.drawn(COAST, STORED / "coast.report", STORED / "coast.cert").text
        self.assertIn("Prices of the boundThese are no market prices", text)
        self.assertIn("hour 1: demand 16.666667 $/MWh, reserve 0 $/MWh", text)
        self.assertIn("hour 3: demand 31 $/MWh, reserve 3 $/MWh", text)

    def test_uplifts_are_drawn(self) -> None:
        drawn = self.drawn(*SHORT_FILES, words=("--uplift", str(SHORT_UPLIFT)))
        # what the report alone can't tell: the dearer unit is on at hour 2 for 150 dollars more than its output is paid
        for words in (
            "Prices and uplifts",
            "hour 3: demand 500 $/MWh, reserve 50 $/MWh",
            "at these prices: $163.333338 in all, which is the gap",
            "peak <2>: $150$150base \"1\"",
            'base "1": $13.333338$13.3333381 of 3 units do as well as they could.',
        ):
            self.assertIn(words, drawn.text)
        self.assertNotIn("Prices of the bound", drawn.text)
        self.assertEqual(re.findall(r'<rect width="([0-9.]+)%"', drawn.written), ["100", "8.88889"])
        self.assertIn("hour 4: demand 40 MW", drawn.text)
        many = self.drawn(KAZARLIS, STORED / "kazarlis10.report", words=("--uplift", str(KAZARLIS_UPLIFT)))
        names = re.findall(r'<tr><td>([^<]*)</td>', many.written)
        self.assertEqual(names, [f"u{n}_1" for n in (7, 5, 2, 10, 6, 8, 9, 3, 4)])
        self.assertIn("at these prices: $4,753.879975 in all", many.text)

    def test_uplifts_that_are_nothing(self) -> None:
        lines = 'scale 1000000\nprice 10000000\nreserve-price 0\nthermal "g1" 0\nreserve-slack 0\nramp-slack 0\ntotal 0\n'
        drawn = self.drawn(ROW1, self.put("r", ROW1_REPORT), words=("--uplift", str(self.put("none", lines))))
        self.assertIn("$0 in all", drawn.text)
        self.assertIn("1 of 1 units do as well as they could.", drawn.text)
        self.assertNotIn('class="shares"', drawn.written)

    def test_reports_without_a_schedule(self) -> None:
        stuck = self.drawn(self.row1(5, 0), self.put("stuck", STUCK_REPORT)).text
        self.assertIn("no schedule found", stuck)
        self.assertIn(STUCK, stuck)
        self.assertIn("no schedule found", self.drawn(MUST_RUN, self.put("most", MUST_RUN_REPORT)).text)
        files = self.row1(60, 5), self.put("none", INFEASIBLE_REPORT), self.put("none.cert", INFEASIBLE_CERTIFICATE)
        infeasible = self.drawn(*files).text
        self.assertIn("Infeasible: no schedule exists", infeasible)
        self.assertIn("ray 1", infeasible)

    def test_leaves_by_exact_values(self) -> None:
        written = (STORED / "coast.cert").read_text().replace("uc-certificate 1", "uc-certificate 3")
        leaves = (
            ("exact 1", "that of its leaf"),
            ("split 1 1\nexact-empty 1\nexact 1", "that of its leaf"),
            ("split 1 1\nexact 1\nbound 1", "the first of its 2 leaves"),
        )
        for leaf, words in leaves:
            exact = self.put("exact.cert", written.replace("bound 1\n", leaf + "\n"))
            self.assertIn(words, self.drawn(COAST, str(STORED / "coast.report"), exact).text)
        third = INFEASIBLE_CERTIFICATE.replace("uc-certificate 1", "uc-certificate 3")
        for leaf in ("exact-ray 1", "exact-empty 1"):
            files = self.row1(60, 5), self.put("none", INFEASIBLE_REPORT), self.put("none.cert", third.replace("ray 1", leaf))
            self.assertIn(f"({leaf})", self.drawn(*files).text)

    def test_rolled_reports(self) -> None:
        rolled = self.put("rolled", (STORED / "coast.report").read_text().replace(SOLVED_LINES, ROLLED_LINES))
        page_text = self.drawn(COAST, rolled).text
        for words in ("Rolled: the schedule is stitched of windows", "Windows", "$5,046.666668", "Output by unit"):
            self.assertIn(words, page_text)
        for words in ("Bound", "Gap", "Evaluations"):
            self.assertNotIn(words, page_text)
        stopped = self.drawn(COAST, self.put("stopped", STOPPED_REPORT)).text
        self.assertIn("Window 2, hours 2 to 4: infeasible", stopped)
        self.assertIn("Hour 2, with which the window begins, is marked", stopped)
        spent = STOPPED_REPORT.replace("infeasible", "no schedule found")
        self.assertIn("no schedule of it was found", self.drawn(COAST, self.put("spent", spent)).text)

    def test_systems_of_one_kind(self) -> None:
        value = json.loads(ROW1.read_text())
        wind = {"w1": {"power_output_minimum": [0], "power_output_maximum": [5]}}
        value.update(demand=[5], reserves=[0], thermal_generators={}, renewable_generators=wind)
        head = "periods 1 thermal 0 renewable 1 rounded 0\nclosed\ncost 0.000000\nbound 0.000000\nevaluations 0\n"
        files = self.put("wind.json", json.dumps(value)), self.put("wind", head + 'renewable "w1" 5.000000\n')
        drawn = self.drawn(*files)
        self.assertEqual(drawn.heights("outputs", 1), [5 * 10**6])
        self.assertIn("Renewable units by hour", drawn.text)

    def test_prices_of_nought(self) -> None:
        noughts = " 0" * 24
        head = "uc-certificate 1\nsize 24 10 0 1\nclaim bound 168126.600000\nschedule none\ntable 1000000\n"
        tail = f"pi{noughts}\nmu{noughts}\nramps 0\nbound 1\nend\n"
        text = self.drawn(MUST_RUN, self.put("most", MUST_RUN_REPORT), self.put("most.cert", head + tail)).text
        self.assertIn("hour 24: demand 0 $/MWh, reserve 0 $/MWh", text)

    def test_prices_at_their_limit_without_a_schedule(self) -> None:
        head = "uc-certificate 1\nsize 1 1 0 1\nclaim bound 0.000000\nschedule none\ntable 1\n"
        for price, is_drawn in ((-(10**14), False), (1 - 10**14, True)):
            tail = f"pi {price}\nmu 0\nramps 0\nbound 1\nend\n"
            text = self.drawn(self.row1(5, 0), self.put("stuck", STUCK_REPORT), self.put("stuck.cert", head + tail)).text
            self.assertEqual("hour 1: demand -" in text, is_drawn)
            self.assertEqual("Prices of the boundNot drawn: no schedule stands" in text, not is_drawn)
        tall = self.put("tall.cert", ROW1_CERTIFICATE.replace("mu 0", f"mu {10**14}"))
        self.assertIn("reserve 100,000,000 $/MWh", self.drawn(ROW1, self.put("r", ROW1_REPORT), tall).text)

    def test_names_are_no_markup(self) -> None:
        name, value = '</title><script>"\u0001\u202e&amp;', json.loads(ROW1.read_text())
        value["thermal_generators"] = {name: value["thermal_generators"]["g1"]}
        written = name.replace('"', '\\"').replace("\u0001", "\\u0001")
        named = self.put("r", ROW1_REPORT.replace("g1", written))
        text = self.drawn(self.put("named.json", json.dumps(value)), named).text
        self.assertIn('</title><script>"\\u0001\\u202e&amp;, hour 1: 30 MW', text)
        self.assertNotIn("<script", self.out.read_text(encoding="utf-8"))

    def test_steadiest_units_are_merged(self) -> None:
        units, periods = 61, 168
        value = json.loads(ROW1.read_text())
        value.update(time_periods=periods, demand=[units * 30] * periods, reserves=[-1] * periods)
        g1 = value["thermal_generators"]["g1"]
        dearer = lambda k: dict(g1, piecewise_production=[{"mw": 10, "cost": 100}, {"mw": 50, "cost": 500 + k}])  # noqa: E731
        value["thermal_generators"] = {f"g{k + 1}": dearer(k) for k in range(units)}
        # the cheapest unit and the dearest one move, against each other: 10 dollars more and 11.5 less every other hour
        rows = {0: (31, 30), units - 1: (29, 30)}
        cost = periods * sum(Decimal(600 + k) / 2 for k in range(units)) - Decimal("1.5") * periods / 2
        lines = ROW1_REPORT.replace("periods 1 thermal 1", f"periods {periods} thermal {units}").splitlines()[:5]
        lines[2] = f"cost {cost:.6f}"
        for k in range(units):
            odd, even = rows.get(k, (30, 30))
            lines.append(f'thermal "g{k + 1}"' + f" {odd}.000000+0.000000 {even}.000000+0.000000" * (periods // 2))
        drawn = self.drawn(self.put("many.json", json.dumps(value)), self.put("many", "\n".join(lines) + "\n"))
        self.assertEqual(drawn.heights("outputs", periods), [units * 30 * 10**6] * periods)
        self.assertEqual(len(drawn.bars["outputs"]), (20 + 3) * periods)
        for words in ("13 steadier units at 10.02 to 10.26 $/MWh", "g1, hour 1: 31 MW", "g61, hour 1: 29 MW", "g43, hour 1: 30 MW"):
            self.assertIn(words, drawn.text)
        self.assertNotIn("g42, hour 1: 30 MW", drawn.text)

    def test_table(self) -> None:
        table = self.folder / "out.csv"
        files = COAST, STORED / "coast.report", STORED / "coast.cert"
        self.assertEqual(self.run_view(*files, words=("--csv", str(table))), (0, ""))
        lines = table.read_text(encoding="utf-8").split("\n")
        head = "unit,kind,hour,on,output,reserve,category,demand,need,demand_price,reserve_price,shed,reserve_short"
        self.assertEqual(lines[0], head + ",energy_cost,start_cost,shortage_cost")
        # by hand: as in test_costs_add_up
        costs = {2: "1300.000000,0.000000", 6: "350.000000,80.000000"}
        wanted = {
            2: '"base ""1""",thermal,2,1,70.000000,5.000000,0,90.500000,5.000000,20.000000,0.000000,0.000000,0.000000',
            5: "peak <2>,thermal,1,0,0.000000,0.000000,0,60.000000,5.000000,16.666667,0.000000,0.000000,0.000000",
            6: "peak <2>,thermal,2,1,10.000000,0.000000,2,90.500000,5.000000,20.000000,0.000000,0.000000,0.000000",
            11: "wind\\3,renewable,3,1,30.000000,0.000000,0,120.000000,10.000000,31.000000,3.000000,0.000000,0.000000",
            12: "wind\\3,renewable,4,0,0.000000,0.000000,0,40.000000,5.000000,18.000000,0.000000,0.000000,0.000000",
            13: "",
        }
        nothing = "0.000000,0.000000"
        wanted = {place: f"{line},{costs.get(place, nothing)},0.000000" if line else "" for place, line in wanted.items()}
        self.assertEqual({place: lines[place] for place in wanted}, wanted)
        self.assertEqual(len(lines), 14)
        self.assertEqual(self.run_view(*files[:2], words=("--csv", str(table))), (0, ""))
        lines = table.read_text(encoding="utf-8").split("\n")
        self.assertEqual(lines[12], f"wind\\3,renewable,4,0,0.000000,0.000000,0,40.000000,5.000000,,,0.000000,0.000000,{nothing},0.000000")
        self.assertEqual(self.run_view(*SHORT_FILES, words=("--csv", str(table))), (0, ""))
        lines = table.read_text(encoding="utf-8").split("\n")
        line = "wind\\3,renewable,3,1,30.000000,0.000000,0,200.000000,10.000000,500.000000,50.000000,40.000000,10.000000"
        self.assertEqual(lines[11], f"{line},{nothing},20500.000000")


class Refusals(ViewTest):
    def edited(self, path: pathlib.Path, old: str, new: str) -> pathlib.Path:
        """A copy of a file in which a text that stands there once or more is another one at its first place."""
        text = path.read_text(encoding="utf-8")
        self.assertIn(old, text)
        return self.put(path.name, text.replace(old, new, 1))

    def test_broken_reports(self) -> None:
        for old, new, place in BROKEN_REPORTS:
            with self.subTest(place):
                broken = self.edited(STORED / "coast.report", old, new)
                self.refused(f"{broken}: {place}", COAST, broken)

    def test_broken_rolls(self) -> None:
        rolled = (STORED / "coast.report").read_text().replace(SOLVED_LINES, ROLLED_LINES)
        for whole, edits in ((rolled, BROKEN_ROLLS), (STOPPED_REPORT, BROKEN_STOPS)):
            for old, new, place in edits:
                with self.subTest(place):
                    self.assertIn(old, whole)
                    broken = self.put("rolled", whole.replace(old, new, 1))
                    self.refused(f"{broken}: {place}", COAST, broken)

    def test_rolls_have_no_certificate(self) -> None:
        rolled = self.put("rolled", (STORED / "coast.report").read_text().replace(SOLVED_LINES, ROLLED_LINES))
        certificate = STORED / "coast.cert"
        self.refused(f"{certificate}: a certificate, where a report of `uc roll` has none", COAST, rolled, certificate)

    def test_broken_reasons(self) -> None:
        for old, new, place in BROKEN_REASONS:
            with self.subTest(place):
                self.assertIn(old, STUCK)
                broken = self.put("stuck", STUCK_REPORT.replace(STUCK, STUCK.replace(old, new, 1)))
                self.refused(f"{broken}: {place}", self.row1(5, 0), broken)

    def test_broken_certificates(self) -> None:
        for old, new, place in BROKEN_CERTIFICATES:
            with self.subTest(place):
                broken = self.edited(STORED / "coast.cert", old, new)
                self.refused(f"{broken}: {place}", COAST, STORED / "coast.report", broken)

    def test_broken_shortages(self) -> None:
        for old, new, place in BROKEN_SHORTAGES:
            with self.subTest(place):
                broken = self.edited(SHORT_FILES[1], old, new)
                self.refused(f"{broken}: {place}", SHORT_FILES[0], broken, words=SHORT_WORDS)

    def test_broken_penalties(self) -> None:
        for old, new, place in BROKEN_PENALTIES:
            with self.subTest(place):
                broken = self.edited(SHORT_FILES[2], old, new)
                told = SHORT_FILES[1] if "without" in place or "costs" in place else broken
                self.refused(f"{told}: {place}", *SHORT_FILES[:2], broken)

    def test_broken_uplifts(self) -> None:
        for old, new, said in BROKEN_UPLIFTS:
            with self.subTest(new):
                whole = SHORT_UPLIFT.read_text(encoding="utf-8")
                self.assertEqual(whole.count(old), 1)
                broken = self.put("broken", whole.replace(old, new))
                self.refused(f"{broken}: {said}", *SHORT_FILES, words=("--uplift", str(broken)))
        words = "--uplift", str(SHORT_UPLIFT)
        self.refused(f"{SHORT_UPLIFT}: uplifts, where the report has no", self.row1(5, 0), self.put("s", STUCK_REPORT), words=words)
        self.refused(f"{KAZARLIS_UPLIFT}: line 2: 24 prices for 4 periods", *SHORT_FILES, words=("--uplift", str(KAZARLIS_UPLIFT)))

    def test_prices_of_other_runs(self) -> None:
        for words in (SHORT_WORDS[:2], ("--shed", "500", "--spill-reserve", "49")):
            self.refused(f"{SHORT_FILES[2]}: line 4: the prices of what is short aren't those of the words", *SHORT_FILES, words=words)
        self.assertEqual(self.run_view(*SHORT_FILES, words=SHORT_WORDS), (0, ""))
        self.out.unlink()
        self.refused(f"{SHORT_FILES[1]}: line 9: shed without its price", *SHORT_FILES[:2])
        self.refused(f"{STORED}/coast.report: no line shed, where that has a price of 500", COAST, STORED / "coast.report", words=SHORT_WORDS)
        with contextlib.redirect_stderr(io.StringIO()):
            for price in ("0", "1000001", "05", "-1", "x"):
                with self.assertRaises(SystemExit):
                    command.main([*map(str, SHORT_FILES), "-o", str(self.out), f"--shed={price}"])

    def test_broken_instances(self) -> None:
        for old, new, place in BROKEN_INSTANCES:
            with self.subTest(place):
                broken = self.edited(COAST, old, new)
                self.refused(f"{broken}: {place}", broken, STORED / "coast.report")

    def test_files_of_other_instances(self) -> None:
        self.refused(f"{STORED}/coast.report: line 1: 4 periods, where", KAZARLIS, STORED / "coast.report")
        files = KAZARLIS, STORED / "kazarlis10.report", STORED / "coast.cert"
        self.refused(f"{STORED}/coast.cert: line 2: the sizes", *files)
        stuck = self.put("stuck", STUCK_REPORT)
        self.refused(f"{stuck}: line 5: the demand of the instance is 6.000000", self.row1(6, 0), stuck)

    def test_every_front_is_refused(self) -> None:
        whole = (STORED / "coast.report").read_bytes()
        for size in range(len(whole)):
            with self.assertRaisesRegex(Refusal, f"^r: line {whole[:size].count(10) + 1}: cut short$"):
                report.read_report("r", whole[:size])

    def test_any_changed_byte_is_drawn_or_refused(self) -> None:
        for (case, path, _), penalty in ((COAST_FILES, (0, 0)), (SHORT_FILES, (500, 50))):
            coast, whole = instance.read_instance("i", case.read_bytes()), path.read_bytes()
            for place in range(len(whole)):
                for byte in b'\n 9-."\\\xff':
                    with contextlib.suppress(Refusal):
                        changed = report.read_report("r", whole[:place] + bytes([byte]) + whole[place + 1 :])
                        fit.check_report(coast, changed, penalty)
                        page.page(coast, changed, None, "i", penalty=penalty)

    def test_outputs_over_other_files(self) -> None:
        case, found, certificate = (self.put(path.name, path.read_text(encoding="utf-8")) for path in COAST_FILES)
        soft, hard, dangling = self.folder / "soft", self.folder / "hard", self.folder / "dangling"
        soft.symlink_to(case.name)
        hard.hardlink_to(certificate) if hasattr(hard, "hardlink_to") else certificate.link_to(hard)
        dangling.symlink_to("made.html")
        (self.folder / "same").symlink_to(".")
        page, other = self.folder / "made.html", self.folder / "same" / "made.html"
        for outputs in [(path, None) for path in (found, soft, hard)] + [(page, path) for path in (case, hard, page, other, dangling)]:
            with self.subTest(outputs):
                self.out = outputs[0]
                words = ("--csv", str(outputs[1])) if outputs[1] else ()
                status, said = self.run_view(case, found, certificate, words=words)
                refused = outputs[1] or outputs[0]
                self.assertEqual((status, said.count("\n")), (1, 1))
                self.assertTrue(said.startswith(f"uc-view: {refused}: would be written over "), said)
                self.assertFalse(page.exists())
        self.assertEqual([path.read_bytes() for path in (case, found, certificate)], [path.read_bytes() for path in COAST_FILES])

    def test_files_that_are_not_there(self) -> None:
        self.refused(f"{self.folder}/no: can't be read: ", self.folder / "no", STORED / "coast.report")
        self.out = self.folder / "no" / "out.html"
        self.refused(f"{self.out}: can't be written: ", COAST, STORED / "coast.report")


class Amounts(unittest.TestCase):
    def test_numbers_are_scaled_to_the_nearest(self) -> None:
        for text, millionths, rounded in (
            ("0.0000005", 1, True),
            ("-0.0000005", -1, True),
            ("1e-7", 0, True),
            ("1E2", 100_000_000, False),
            ("-0.0", 0, False),
            ("1.0000000", 1_000_000, False),
            ("1.9999999", 2_000_000, True),
            ("0e99999999999", 0, False),
            ("3e-99999999999", 0, True),
        ):
            self.assertEqual(amounts.scaled(text), (millionths, rounded), text)

    def test_amounts_have_one_spelling(self) -> None:
        self.assertEqual(amounts.amount("-12.000001"), -12_000_001)
        for text in ("", "1", "01.000000", "-0.000000", "+1.000000", "1.0000000", "1.00000", "١.000000", "1" * 33 + ".000000"):
            self.assertIsNone(amounts.amount(text), text)

    def test_gaps_are_rounded_up(self) -> None:
        for cost, bound, parts in ((10**6, 10**6 - 1, 1), (3, 2, 333_334), (-4, -5, 250_000), (7, 7, 0), (0, 0, 0), (0, -1, None)):
            self.assertEqual(amounts.gap_parts(cost, bound), parts)

    def test_costs_lie_on_the_lower_hull(self) -> None:
        # two points at one output, and one above the line between its neighbors
        corners = costs.lower_hull([(10, 100), (10, 90), (20, 400), (30, 300)])
        self.assertEqual(corners, [(10, 90), (30, 300)])
        self.assertEqual([costs.hull_cost(corners, output) for output in (10, 11, 20, 30)], [90, 101, 195, 300])

    def test_fractions_are_shown_rounded(self) -> None:
        self.assertEqual(amounts.nearest_text(Fraction(-2, 3)), "-0.666667")
        self.assertEqual(amounts.nearest_text(Fraction(12_345)), "12,345")


def main() -> int:
    """Runs all tests, those of the other commands too; 0 where they hold."""
    result = unittest.TextTestRunner(verbosity=0).run(unittest.defaultTestLoader.discover(str(HERE), "test_*.py"))
    failed = len({test.id() for test, _ in result.failures + result.errors})
    print(f"view: {failed} of {result.testsRun} tests failed" if failed else f"view: all {result.testsRun} tests hold")
    return 1 if failed else 0


if __name__ == "__main__":
    sys.exit(main())
