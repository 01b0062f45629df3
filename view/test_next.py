"""Tests `uc-next`: the state that a schedule leaves, and the hours that follow."""
from __future__ import annotations

import contextlib
import dataclasses
import io
import json
import pathlib
import sys
import tempfile
import unittest
from typing import Any, Dict, List, Optional, Tuple

sys.dont_write_bytecode = True
HERE = pathlib.Path(__file__).resolve().parent
STORED = HERE / "tests"
sys.path.insert(0, str(HERE))

from instance_check.units import Unit, read_system  # noqa: E402
from next_instance import command  # noqa: E402
from next_instance.state import State, state_after  # noqa: E402
from schedule_view.report import Cell  # noqa: E402

COAST, REPORT = STORED / "coast.json", STORED / "coast.report"
SHORT, SHORT_REPORT = STORED / "coast_short.json", STORED / "coast_short.report"
BASE, PEAK, WIND = 'base "1"', "peak <2>", "wind\\3"
T0 = "power_output_t0", "unit_on_t0", "time_up_t0", "time_down_t0"


def cell(output: float, reserve: float = 0) -> Cell:
    return Cell(round(output * 10**6), round(reserve * 10**6), 0)


# changes of the first unit of coast.json, which was on for 5 hours with 20 to 80 MW, 2 hours at least, and its cells; its state
STATES: Tuple[Tuple[Dict[str, Any], List[Optional[Cell]], State], ...] = (
    ({}, [cell(70, 5)], State(True, 70_000_000, 6, 0)),
    ({}, [cell(70), cell(20.5)], State(True, 20_500_000, 7, 0)),
    ({}, [cell(70), None], State(False, 0, 0, 1)),
    ({}, [cell(70), None, None, cell(20)], State(True, 20_000_000, 1, 0)),
    ({"is_on_before": False}, [cell(30)], State(True, 30_000_000, 1, 0)),
    ({"is_on_before": False, "down_before": 3}, [None, None], State(False, 0, 0, 5)),
    ({"down_before": 3}, [None, None], State(False, 0, 0, 2)),
    ({"is_on_before": False, "down_before": 3}, [cell(30), None], State(False, 0, 0, 1)),
    ({"up_before": 999_999}, [cell(70), cell(70)], State(True, 70_000_000, 1_000_000, 0)),
    # 50 MW in the hour before a stop at most, with reserve: above that it stays on
    ({"stop_limit": 50_000_000}, [cell(45, 5)], State(True, 45_000_000, 6, 0)),
    ({"stop_limit": 50_000_000}, [cell(45, 6)], State(True, 45_000_000, 1, 0)),
    ({"stop_limit": 50_000_000, "up": 1}, [cell(51)], State(True, 51_000_000, 0, 0)),
    ({"stop_limit": 50_000_000, "up_before": 0, "up": 9}, [cell(51)], State(True, 51_000_000, 1, 0)),
)


class NextTest(unittest.TestCase):
    """Runs the command in a folder of its own."""

    def setUp(self) -> None:
        folder = tempfile.TemporaryDirectory()
        self.addCleanup(folder.cleanup)
        self.folder = pathlib.Path(folder.name)
        self.out = self.folder / "next.json"

    def put(self, name: str, value: object) -> pathlib.Path:
        path = self.folder / name
        path.write_text(value if isinstance(value, str) else json.dumps(value), encoding="utf-8")
        return path

    def run_next(self, *words: object) -> Tuple[int, str]:
        """The status and what the error output says."""
        err = io.StringIO()
        with contextlib.redirect_stderr(err):
            status = command.main(list(map(str, words)))
        return status, err.getvalue()

    def written(self, *words: object) -> Dict[str, Any]:
        """The next instance, its numbers as texts."""
        self.assertEqual(self.run_next(*words), (0, ""))
        read_system("next", self.out.read_bytes())
        return json.loads(self.out.read_text(encoding="utf-8"), parse_float=str, parse_int=str)

    def refused(self, place: object, *words: object) -> None:
        """Refused with one line that begins so, and nothing is written."""
        status, said = self.run_next(*words)
        self.assertEqual((status, said[: len(str(place)) + 9], said.count("\n")), (1, f"uc-next: {place}", 1))
        self.assertFalse(self.out.exists())


class States(unittest.TestCase):
    def test_states(self) -> None:
        unit: Unit = read_system("coast", COAST.read_bytes()).units[0]
        for changes, cells, wanted in STATES:
            with self.subTest((changes, cells)):
                self.assertEqual(state_after(dataclasses.replace(unit, **changes), cells), wanted)


class Written(NextTest):
    def test_the_hours_behind(self) -> None:
        found = self.written(COAST, REPORT, 1, self.out)
        wanted = json.loads(COAST.read_text(encoding="utf-8"), parse_float=str, parse_int=str)
        wanted.update(time_periods="3", demand=["90.5", "120", "40"], reserves=wanted["reserves"][1:])
        for unit, state in ((BASE, ("40", "1", "6", "0")), (PEAK, ("0", "0", "0", "4"))):
            wanted["thermal_generators"][unit].update(zip(T0, state))
        wind = wanted["renewable_generators"][WIND]
        wind.update({field: wind[field][1:4] for field in ("power_output_minimum", "power_output_maximum")})
        self.assertIn("10.5000001", wind["power_output_maximum"])
        self.assertEqual(found, wanted)

    def test_hours_of_another_file(self) -> None:
        coast = json.loads(COAST.read_text(encoding="utf-8"), parse_float=str, parse_int=str)
        hours = {"demand": [41, 42.5], "reserves": [5, 6], "renewable_generators": {WIND: {}}}
        for field, outputs in (("power_output_minimum", [0, 1]), ("power_output_maximum", [7, 8])):
            hours["renewable_generators"][WIND][field] = outputs
        found = self.written(COAST, REPORT, 4, self.out, "--demand", self.put("hours.json", hours))
        self.assertEqual([found[field] for field in ("time_periods", "demand", "reserves")], ["2", ["41", "42.5"], ["5", "6"]])
        self.assertEqual(found["renewable_generators"][WIND]["power_output_maximum"], ["7", "8"])
        self.assertEqual([found["thermal_generators"][BASE][field] for field in T0], ["40", "1", "9", "0"])
        self.assertEqual([found["thermal_generators"][PEAK][field] for field in T0], ["0", "0", "0", "1"])
        found = self.written(COAST, REPORT, 2, self.out, "--demand", COAST)
        self.assertEqual([found[field] for field in ("time_periods", "demand")], ["4", coast["demand"]])
        self.assertEqual(found["thermal_generators"][BASE]["power_output_t0"], "70")

    def test_other_fields_stay(self) -> None:
        value = json.loads(COAST.read_text(encoding="utf-8"))
        value["note"] = {"é": [True, None, "a\nb", 1.50, {}]}
        value["thermal_generators"][BASE]["fuel"] = "coal"
        found = self.written(self.put("noted.json", value), REPORT, 3, self.out)
        self.assertEqual(found["note"], {"é": [True, None, "a\nb", "1.5", {}]})
        self.assertEqual(found["thermal_generators"][BASE]["fuel"], "coal")

    def test_reports_of_roll_and_with_prices(self) -> None:
        rolled = REPORT.read_text().replace("budget spent", "rolled 2 windows").replace("bound 4793.333330\nevaluations 1\n", "")
        self.assertEqual(self.written(COAST, self.put("rolled", rolled), 2, self.out), self.written(COAST, REPORT, 2, self.out))
        prices = "--shed", 500, "--spill-reserve", 50
        self.assertEqual(self.written(SHORT, SHORT_REPORT, 3, self.out, *prices)["time_periods"], "1")


class Refused(NextTest):
    def test_hours(self) -> None:
        self.refused(f"{COAST}: 4 hours, and no hour 5", COAST, REPORT, 5, self.out)
        self.refused(f"{COAST}: no hour behind hour 4; --demand", COAST, REPORT, 4, self.out)

    def test_reports(self) -> None:
        other = self.put("other", REPORT.read_text().replace("40.000000+5", "41.000000+5"))
        self.refused(f"{other}: period 1: outputs add up", COAST, other, 1, self.out)
        stopped = self.put("stopped", "periods 4 thermal 2 renewable 1 rounded 1\nwindow 2 periods 2 to 4: infeasible\n")
        self.refused(f"{stopped}: no schedule", COAST, stopped, 1, self.out)
        self.refused(f"{SHORT_REPORT}: line 9: shed without its price", SHORT, SHORT_REPORT, 1, self.out)

    def test_files_of_demand(self) -> None:
        wind, half = {WIND: {"power_output_minimum": [0], "power_output_maximum": [1]}}, {WIND: {"power_output_minimum": [0]}}
        for place, value in (
            ("no JSON", "{"),
            ("no object", "[]"),
            ("demand: missing", {"reserves": [1]}),
            ("reserves: no array", {"demand": [1], "reserves": 1}),
            ('renewable "wind\\3": not in this file', {"demand": [1], "reserves": [1]}),
            ('renewable "sea": not in the instance', {"demand": [1], "reserves": [1], "renewable_generators": {**wind, "sea": {}}}),
            ('renewable "wind\\3" power_output_maximum: missing', {"demand": [1], "reserves": [1], "renewable_generators": half}),
            ("reserves: 1 entries for 2 periods", {"demand": [1, 2], "reserves": [1], "renewable_generators": wind}),
            ("time_periods: not from 1 to 168", {"demand": [], "reserves": [], "renewable_generators": wind}),
        ):
            hours = self.put("hours.json", value)
            self.refused(f"{hours}: {place}", COAST, REPORT, 4, self.out, "--demand", hours)

    def test_files_over_others(self) -> None:
        for path in (COAST, REPORT):
            before = path.read_bytes()
            self.refused(f"{path}: would be written over", COAST, REPORT, 1, path)
            self.assertEqual(path.read_bytes(), before)
        self.refused(f"{self.folder}/no/a: can't be written", COAST, REPORT, 1, self.folder / "no/a")

    def test_words(self) -> None:
        for words in ((), (COAST, REPORT, 0, self.out), (COAST, REPORT, 169, self.out), (COAST, REPORT, 1)):
            with contextlib.redirect_stderr(io.StringIO()), self.assertRaises(SystemExit) as ended:
                command.main(list(map(str, words)))
            self.assertEqual(ended.exception.code, 2)


if __name__ == "__main__":
    unittest.main()
