"""Tests what `uc-view` tells besides its pictures: the head, the numbers to open, which table prices are of, and the JSON form."""
from __future__ import annotations

import json
import pathlib
import re
import sys
import unittest
from decimal import Decimal
from typing import Any, Tuple

sys.dont_write_bytecode = True
sys.path.insert(0, str(pathlib.Path(__file__).resolve().parent))

from test_view import (  # noqa: E402
    COAST, COAST_FILES, KAZARLIS, KAZARLIS_UPLIFT, SHORT_FILES, SHORT_UPLIFT, SOLVED_LINES, STOPPED_REPORT, STORED, STUCK, STUCK_REPORT,
    ROLLED_LINES, ViewTest,
)


class Numbers(ViewTest):
    def test_head_says_dollars_and_megawatts(self) -> None:
        text = self.drawn(*COAST_FILES).text
        # by hand: 5046.666668 less 4793.333330, and 60 + 90.5 + 120 + 40
        measures = "Money is in dollars ($), power in megawatts (MW), energy in megawatt-hours (MWh), prices in $/MWh."
        for words in ("Gap$253.333338, 5.0199 %", "Greatest demand120 MW", "Demand in all310.5 MWh", measures):
            self.assertIn(words, text)

    def test_numbers_open_without_a_pointer(self) -> None:
        drawn = self.drawn(*SHORT_FILES)
        for words in ("<details><summary>By hour</summary>", "<details><summary>By unit</summary>", "<summary>peak &lt;2&gt;: on in "):
            self.assertIn(words, drawn.written)
        head = "hourdemand, MWreserve needed, MWreserve given, MWcurtailed, MWunserved demand, MWmissing reserve, MW"
        costs = "cost of productioncost of startscost of unserved demandcost of missing reserve"
        self.assertIn(f"{head}{costs}price of demand, $/MWhprice of reserve, $/MWh", drawn.text)
        self.assertIn("320010004010$3,050$0$20,000$50050050", drawn.text)
        self.assertIn("hour 2: 10 MW, its least output, reserve 0 MW, start of category 2", drawn.text)
        self.assertIn("wind\\3: 60.5 of 60.5 MWh", drawn.text)

    def test_each_title_of_a_unit_can_be_opened(self) -> None:
        written = self.drawn(KAZARLIS, STORED / "kazarlis10.report", STORED / "kazarlis10.cert").written
        titles = re.findall(r"<rect class=[^>]*><title>([^<]*)</title>", written)
        self.assertGreater(len(titles), 30)
        for title in titles:
            unit, _, rest = title.partition(", ")
            self.assertRegex(written, f"<summary>{unit}: [^<]*</summary><ul>(<li>[^<]*</li>)*<li>{re.escape(rest)}</li>")

    def test_numbers_without_a_schedule(self) -> None:
        text = self.drawn(self.row1(5, 0), self.put("stuck", STUCK_REPORT)).text
        self.assertIn("By hourhourdemand, MWreserve needed, MW150", text)
        self.assertNotIn("By unit", text)


class Tables(ViewTest):
    """Which table the prices are of, and whether what their uplifts come to is the gap."""

    def tree(self) -> Tuple[pathlib.Path, ...]:
        """The files of a certificate with two leaves, of which the second has the stored prices, and a bound that is a dollar higher."""
        report = (STORED / "kazarlis10.report").read_text().replace("bound 559260.301794", "bound 559261.301794")
        whole = (STORED / "kazarlis10.cert").read_text()
        numbers = "".join(f"{word}{' 0' * 24}\n" for word in ("pi", "mu"))
        certificate = whole.replace("bound 559260.301794", "bound 559261.301794").replace("size 24 10 0 1", "size 24 10 0 2")
        certificate = certificate.replace("table", f"table 7\n{numbers}ramps 0\ntable", 1)
        certificate = certificate.replace("bound 1\n", "split 1 1\nbound 1\nbound 2\n")
        return KAZARLIS, self.put("tree.report", report), self.put("tree.cert", certificate)

    def test_gap_of_one_leaf(self) -> None:
        text = self.drawn(*SHORT_FILES, words=("--uplift", str(SHORT_UPLIFT))).text
        self.assertIn("What table 1 of the certificate, of scale 1,000,000, would pay", text)
        self.assertIn("$163.333338 in all, which is the gap between the schedule's cost and the bound.", text)
        text = self.drawn(*SHORT_FILES[:2], words=("--shed=500", "--spill-reserve=50", "--uplift", str(SHORT_UPLIFT))).text
        self.assertIn("What a table of scale 1,000,000 would pay", text)

    def test_total_of_a_leaf_is_not_the_gap(self) -> None:
        text = self.drawn(*self.tree(), words=("--uplift", str(KAZARLIS_UPLIFT))).text
        self.assertIn("What table 2 of the certificate, of scale 1,000,000, would pay", text)
        self.assertIn("$4,753.879975 in all, which is what the schedule costs above the bound that these prices give by themselves, ", text)
        self.assertIn("$559,260.301794. It isn't the gap: that is $4,752.879975, down to the bound of all leaves of the tree", text)
        plain = self.drawn(*self.tree()).text
        self.assertIn("table 1 of the certificate, that of the first of its 2 leaves with a bound, makes the bound", plain)
        self.assertIn("for the schedules of this leaf alone; uc-prices finds", plain)

    def test_prices_of_other_tables(self) -> None:
        other = self.put("other", KAZARLIS_UPLIFT.read_text().replace("price 17407918", "price 17407917", 1))
        files = KAZARLIS, STORED / "kazarlis10.report", STORED / "kazarlis10.cert"
        text = self.drawn(*files, words=("--uplift", str(other))).text
        self.assertIn("What a table of scale 1,000,000, which this certificate doesn't have, would pay", text)


class Json(ViewTest):
    def told(self, *files: pathlib.Path, words: Tuple[str, ...] = ()) -> Any:
        """The JSON of files that are taken."""
        out = self.folder / "out.json"
        self.assertEqual(self.run_view(*files, words=("--json", str(out), *words)), (0, ""))
        return json.loads(out.read_text(encoding="utf-8"), parse_float=Decimal)

    def test_a_schedule(self) -> None:
        told = self.told(*SHORT_FILES, words=("--uplift", str(SHORT_UPLIFT)))
        self.assertEqual(told["measures"]["power"], "MW")
        self.assertEqual((told["instance"], told["outcome"], told["evaluations"]), ("coast_short.json", "spent", 1))
        self.assertEqual((told["cost"], told["bound"], told["gap"]), tuple(map(Decimal, ("26746.666668", "26583.333330", "163.333338"))))
        self.assertEqual(told["gap_ppm"], 6107)
        self.assertEqual(told["prices"], {"table": 1, "scale": 10**6})
        third = {name: told["hours"][2][name] for name in ("hour", "demand", "shed", "reserve_short", "shortage_cost", "demand_price")}
        self.assertEqual(third, {"hour": 3, "demand": 200, "shed": 40, "reserve_short": 10, "shortage_cost": 20500, "demand_price": 500})
        second = {"hour": 2, "on": True, "output": 10, "reserve": 0, "category": 2, "energy_cost": 350, "start_cost": 80}
        self.assertEqual(told["units"][1]["hours"][:2], [{"hour": 1, "on": False}, second])
        self.assertEqual([unit["name"] for unit in told["units"]], ['base "1"', "peak <2>", "wind\\3"])
        self.assertEqual(told["uplifts"]["total"], told["gap"])
        self.assertEqual(told["uplifts"]["bound"], told["bound"])
        self.assertEqual(sum(part["uplift"] for part in told["uplifts"]["parts"]), told["gap"])

    def test_totals_add_up(self) -> None:
        for files in (COAST_FILES, SHORT_FILES):
            told = self.told(*files)
            totals = told["totals"]
            self.assertEqual(sum(totals[name] for name in ("energy_cost", "start_cost", "shortage_cost")), told["cost"])
            given = totals["thermal_energy"] + totals["renewable_energy"] + totals["shed"]
            self.assertEqual(given, totals["demand"])
            for name in ("demand", "curtailed", "shed", "reserve_short", "energy_cost", "start_cost", "shortage_cost"):
                self.assertEqual(sum(hour[name] for hour in told["hours"]), totals[name])
            thermal = [unit for unit in told["units"] if unit["kind"] == "thermal"]
            for name in ("energy_cost", "start_cost"):
                self.assertEqual(sum(unit[name] for unit in thermal), totals[name])
            self.assertEqual(sum(unit["energy"] for unit in told["units"]) + totals["shed"], totals["demand"])

    def test_other_outcomes(self) -> None:
        stuck = self.told(self.row1(5, 0), self.put("stuck", STUCK_REPORT))
        self.assertEqual((stuck["outcome"], stuck["cost"], stuck["bound"], stuck["gap"]), ("no_schedule", None, 0, None))
        self.assertEqual((stuck["stuck"], stuck["units"], stuck["totals"]), (STUCK, None, None))
        rolled = self.told(COAST, self.put("rolled", (STORED / "coast.report").read_text().replace(SOLVED_LINES, ROLLED_LINES)))
        self.assertEqual((rolled["outcome"], rolled["windows"], rolled["bound"]), ("rolled", 2, None))
        stopped = self.told(COAST, self.put("stopped", STOPPED_REPORT))
        self.assertEqual(stopped["stopped"], {"window": 2, "first_hour": 2, "last_hour": 4, "infeasible": True})

    def test_numbers_have_six_decimals(self) -> None:
        self.told(*COAST_FILES)
        self.assertIn('"cost": 5046.666668,\n', (self.folder / "out.json").read_text())

    def test_the_page_is_not_written_over(self) -> None:
        self.out = self.folder / "one"
        status, said = self.run_view(*COAST_FILES, words=("--json", str(self.out)))
        self.assertEqual(status, 1)
        self.assertIn("would be written over", said)


if __name__ == "__main__":
    unittest.main()
