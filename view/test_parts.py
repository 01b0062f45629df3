"""Tests `uc-view` on schedules over a denominator: what is drawn is each number of the report divided by it."""
from __future__ import annotations

import csv
import json
import pathlib
import sys
import unittest
from decimal import Decimal
from fractions import Fraction
from typing import Any, Tuple

sys.dont_write_bytecode = True
sys.path.insert(0, str(pathlib.Path(__file__).resolve().parent))

from schedule_view import amounts, certificate, report, shortages  # noqa: E402
from schedule_view.refusal import Refusal  # noqa: E402
from test_view import ROW1, TOP, ViewTest  # noqa: E402

# two units of 10 to 50 MW at $10 a MWh above $200, and 30 MW to serve
PAIR = TOP / "crates/run_cases/data/pair.json"
REPORT = """periods 1 thermal 2 renewable 0 rounded 0
budget spent
cost 500.000000
bound 0.000000
evaluations 1
denominator 2
thermal "g0" 30.000001+0.000001
thermal "g1" 29.999999+0.000000
"""
CERTIFICATE = """uc-certificate 3
size 1 2 0 1
claim bound 0.000000
schedule 500.000000 over 2
t 10000001:1:0
t 9999999:0:0
table 1000000
pi 0
mu 0
ramps 0
bound 1
end
"""
# the same over 3, where each of both costs is rounded up: 200 + (15,000,001/3 and 14,999,999/3) * 0.00001 dollars
THIRDS = REPORT.replace("500.000000", "500.000001").replace("denominator 2", "denominator 3")
THIRDS = THIRDS.replace("30.000001+0.000001", "45.000001+0.000002").replace("29.999999", "44.999999")
# an edit of REPORT and one of CERTIFICATE, and what the refusal says behind the file's name
BROKEN = (
    ("30.000001", "30.000002", "", "", "period 1: outputs add up to 30.0000005, where demand is 30.000000"),
    ("30.000001", "19.999999", "", "", "line 7: period 1: output 9.9999995 below the unit's minimum, 10.000000"),
    ("30.000001", "100.000001", "", "", "line 7: period 1: output 50.0000005 above the unit's greatest, 50.000000"),
    ("cost 500.000000", "cost 500.000001", "", "", "line 3: the schedule costs 500.000000"),
    ("denominator 2\n", "", "", "", "period 1: outputs add up to 60.000000, where demand is 30.000000"),
    ("denominator 2", "denominator 100", "", "", 'line 6: "denominator 100" is no denominator from 2 to 99'),
    ("", "", "over 2", "over 4", "line 4: the schedule isn't that of the report"),
    ("", "", " over 2", "", "line 4: the schedule isn't that of the report"),
    ("", "", "over 2", "over 02", 'line 4: "schedule 500.000000 over 02" where the schedule is due'),
    ("", "", "over 2", "over 100", 'line 4: "schedule 500.000000 over 100" where the schedule is due'),
    ("", "", "uc-certificate 3", "uc-certificate 2", 'line 4: "schedule 500.000000 over 2" where the schedule is due'),
    ("", "", "10000001:", "10000000:", "line 5: the cell of period 1 isn't that of the report"),
)


class Parts(ViewTest):
    def files(self, told: str, found: str = CERTIFICATE) -> Tuple[pathlib.Path, ...]:
        return PAIR, self.put("parts.report", told), self.put("parts.cert", found)

    def numbers(self, told: str) -> Any:
        """The JSON form, with each amount as it is written."""
        path = self.folder / "out.json"
        self.drawn(*self.files(told)[:2], words=("--json", str(path)))
        return json.loads(path.read_text(), parse_float=str)

    def test_halves_are_drawn(self) -> None:
        drawn = self.drawn(*self.files(REPORT))
        self.assertEqual(drawn.bars["outputs"], [(0, 0, Decimal("15000000.5")), (0, Decimal("15000000.5"), Decimal("14999999.5"))])
        self.assertEqual(drawn.heights("reserves", 1), [Decimal("0.5")])
        for words in ("Denominator of powers2", "15.0000005 MW, reserve 0.0000005 MW", "on in 1 of 1 hours, 14.9999995 MWh, $249.999995"):
            self.assertIn(words, drawn.text)

    def test_thirds_are_rounded(self) -> None:
        text = self.drawn(*self.files(THIRDS)[:2]).text
        for words in ("Denominator of powers3", "15.000000333 MW, reserve 0.000000667 MW", "14.999999667 MW"):
            self.assertIn(words, text)

    def test_json_form(self) -> None:
        value = self.numbers(REPORT)
        self.assertEqual((value["denominator"], value["totals"]["thermal_energy"]), (2, "30.000000"))
        wanted = {"output": "15.0000005", "reserve": "0.0000005", "energy_cost": "250.000005"}
        self.assertLessEqual(wanted.items(), value["units"][0]["hours"][0].items())
        hours = [unit["hours"][0] for unit in self.numbers(THIRDS)["units"]]
        self.assertEqual([hour["output"] for hour in hours], ["15.000000333", "14.999999667"])
        self.assertEqual([hour["energy_cost"] for hour in hours], ["250.000004", "249.999997"])

    def test_table(self) -> None:
        path = self.folder / "out.csv"
        self.drawn(*self.files(REPORT), words=("--csv", str(path)))
        rows = list(csv.DictReader(path.read_text().splitlines()))
        self.assertEqual([row["output"] for row in rows], ["15.0000005", "14.9999995"])
        self.assertEqual([row["energy_cost"] for row in rows], ["250.000005", "249.999995"])

    def test_what_is_whole_is_drawn_alike(self) -> None:
        """Twice each number over 2 gives the bars of the report without a denominator."""
        head = "periods 1 thermal 1 renewable 0 rounded 0\nclosed\ncost 300.000000\nbound 300.000000\nevaluations 0\n"
        once = self.drawn(ROW1, self.put("once", head + 'thermal "g1" 30.000000+5.000000\n'))
        twice = self.drawn(ROW1, self.put("twice", head + 'denominator 2\nthermal "g1" 60.000000+10.000000\n'))
        self.assertEqual(once.bars, twice.bars)
        self.assertEqual(once.text, twice.text.replace("Denominator of powers2", ""))

    def test_broken(self) -> None:
        for old, new, was, found, place in BROKEN:
            with self.subTest(place):
                files = self.files(REPORT.replace(old, new, 1), CERTIFICATE.replace(was, found, 1))
                self.refused(f"{files[2 if was else 1]}: {place}", *files)

    def test_who_takes_whole_watts_alone(self) -> None:
        with self.assertRaisesRegex(Refusal, "^r: line 6: powers over a denominator aren't taken$"):
            report.read_report("r", REPORT.encode())
        with self.assertRaisesRegex(Refusal, "^c: line 4: powers over a denominator aren't taken$"):
            certificate.read_certificate("c", CERTIFICATE.encode())

    def test_what_is_short_costs_rounded_up(self) -> None:
        short = shortages.Shortage("unserved demand", "shed", 500, [Fraction(1, 3), Fraction(0), 2])
        self.assertEqual(short.costs, [167, 0, 1000])

    def test_amounts(self) -> None:
        for watts, long, brief in (
            (Fraction(5, 2), "0.0000025", "0.0000025"),
            (Fraction(4, 2), "0.000002", "0.000002"),
            (Fraction(-1, 3), "-0.000000333", "-0.000000333"),
            (Fraction(10**13 + 1, 99), "101010.101010111", "101,010.101010111"),
        ):
            self.assertEqual((amounts.amount_text(watts), amounts.short_text(watts)), (long, brief))


if __name__ == "__main__":
    unittest.main()
