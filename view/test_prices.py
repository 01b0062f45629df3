"""Tests `uc-prices` with a program that plays `uc` by the code of `examples/check.py`."""
from __future__ import annotations

import contextlib
import io
import pathlib
import sys
import tempfile
import unittest
from typing import List, Tuple

sys.dont_write_bytecode = True
HERE = pathlib.Path(__file__).resolve().parent
TOP, STORED = HERE.parent, HERE / "tests"
sys.path.insert(0, str(HERE))

from root_prices import command  # noqa: E402

COAST, SHORT = STORED / "coast.json", STORED / "coast_short.json"
PROGRAM = f"""#!{sys.executable}
import pathlib, shutil, sys
sys.dont_write_bytecode = True
sys.path.insert(0, {str(TOP / "examples")!r})
import check

folder = pathlib.Path(__file__).parent
word, *words = sys.argv[1:]
with open(folder / "log", "a") as log:
    log.write(" ".join(sys.argv[1:]) + "\\n")
if word == "solve":
    to = next(it for it in words if it.startswith("--cert="))[7:]
    shutil.copy(folder / "search.cert", to)
    sys.exit(int((folder / "status").read_text()))
words = [part for it in words for part in ([it] if it == "--" or not it.startswith("--") else it.split("="))]
try:
    lines = check.verdict(words)
except check.Refused as refused:
    print(refused, file=sys.stderr)
    sys.exit(refused.status)
if word == "uplift":
    given = check.words_of(words)
    instance = check.instance_of(check.json_of(pathlib.Path(given.instance).read_bytes()))
    check.penalize(instance, given.shed, given.spill_reserve)
    certificate = check.certificate_of(pathlib.Path(given.certificate).read_bytes())
    table = certificate.tables[0]
    total = table.scale * certificate.cost - check.PricedInstance(instance, table).value({{}}, False)
    lines = [f"scale {{table.scale}}", " ".join(["price", *map(str, table.pi)]), " ".join(["reserve-price", *map(str, table.mu)])]
    lines += ["reserve-slack 0", "ramp-slack 0", f"total {{total}}"]
print("\\n".join(lines))
"""
ZERO = "table 9\npi 0 0 0 0\nmu 0 0 0 0\nramps 0\n"


class PricesTest(unittest.TestCase):
    """Runs the command in a folder of its own."""

    def setUp(self) -> None:
        folder = tempfile.TemporaryDirectory()
        self.addCleanup(folder.cleanup)
        self.folder = pathlib.Path(folder.name)
        self.program = self.put("program", PROGRAM)
        self.program.chmod(0o755)
        self.out = self.folder / "prices.cert"
        self.whole = (STORED / "coast.cert").read_text()
        self.search(self.whole)

    def put(self, name: str, text: str) -> pathlib.Path:
        """A file of the folder."""
        path = self.folder / name
        path.write_text(text, encoding="utf-8")
        return path

    def search(self, text: str, status: int = 1) -> None:
        """What the search finds."""
        self.put("search.cert", text)
        self.put("status", str(status))

    def run_prices(self, *words: object) -> Tuple[int, str, str]:
        """The status, and what is printed and said."""
        out, err = io.StringIO(), io.StringIO()
        with contextlib.redirect_stdout(out), contextlib.redirect_stderr(err):
            status = command.main([*map(str, words), "-o", str(self.out), "--program", str(self.program)])
        return status, out.getvalue(), err.getvalue()

    def refused(self, said: str, *words: object) -> None:
        """The words are refused with one line that begins so, and nothing is written."""
        status, out, err = self.run_prices(*words)
        self.assertEqual((status, out, err[: len(said) + 11]), (1, "", f"uc-prices: {said}"))
        self.assertFalse(self.out.exists())

    def calls(self) -> List[str]:
        """The words of each run."""
        return (self.folder / "log").read_text().splitlines()

    def tree(self) -> pathlib.Path:
        """A certificate with two leaves, the first of which has a table that tells nothing, and with a table that no leaf uses."""
        tables = f"{ZERO}table 0\npi 1 1 1 1\nmu 0 0 0 0\nramps 0\ntable"
        text = self.whole.replace("size 4 2 1 1", "size 4 2 1 3").replace("table", tables, 1)
        return self.put("tree.cert", text.replace("bound 1\n", "split 1 1\nbound 3\nbound 1\n").replace("4793.333330", "4900.000000", 1))


class Choices(PricesTest):
    def test_best_table_of_a_tree(self) -> None:
        status, out, said = self.run_prices(COAST, self.tree())
        self.assertEqual((status, said), (0, ""))
        # the table of scale 0 and that of the search, which stands here too, aren't tried; at no prices all units are best off, for nothing
        lines = (
            "least uplifts: $253.333338, at table 3 of tree.cert, of 2 tables",
            "table 1 of tree.cert: $5,046.666668",
            "gap of tree.cert: $146.666668",
        )
        self.assertEqual(out.splitlines(), list(lines))
        self.assertEqual(self.out.read_text(), self.whole.replace("uc-certificate 1", "uc-certificate 2"))
        self.assertEqual([call.split(" ")[0] for call in self.calls()], ["solve", "uplift", "uplift", "check"])
        self.assertRegex(self.calls()[0], r"^solve --cert=[^ ]+ --units=1 --gap=0 -- ")

    def test_best_table_of_the_search(self) -> None:
        poor = self.put("poor.cert", self.whole.replace("table 1000000", "table 999999"))
        status, out, _ = self.run_prices(COAST, poor, "--units", 7)
        self.assertEqual(status, 0)
        self.assertIn("at table 1 of a search with --units 7, of 2 tables\ntable 1 of poor.cert: ", out)
        self.assertIn("--units=7", self.calls()[0])
        self.assertEqual(self.out.read_text(), self.whole.replace("uc-certificate 1", "uc-certificate 2"))

    def test_ramps_are_kept(self) -> None:
        ramps = self.whole.replace("ramps 0", "ramps 2\nramp 1 2 1 0\nramp 2 1 0 3")
        self.search(ramps)
        status, _, said = self.run_prices(COAST, self.put("ramps.cert", ramps))
        self.assertEqual((status, said), (0, ""))
        self.assertIn("ramps 2\nramp 1 2 1 0\nramp 2 1 0 3\nbound 1\nend\n", self.out.read_text())

    def test_shortages_keep_their_prices(self) -> None:
        whole = (STORED / "coast_short.cert").read_text()
        self.search(whole)
        status, out, _ = self.run_prices(SHORT, STORED / "coast_short.cert")
        self.assertEqual(status, 0)
        self.assertEqual(out, "least uplifts: $163.333338, at table 1 of coast_short.cert, of 1 tables\ngap of coast_short.cert: $163.333338\n")
        self.assertEqual(self.out.read_text(), whole.replace("uc-certificate 1", "uc-certificate 2"))
        self.assertTrue(all("--shed=500 --spill-reserve=50 -- " in call for call in self.calls()))


class Refusals(PricesTest):
    def test_certificates_without_uplifts(self) -> None:
        none = self.put("none.cert", "uc-certificate 2\nsize 1 1 0 1\nclaim infeasible\nschedule none\ntable 0\npi 1\nmu 0\nramps 0\nray 1\nend\n")
        self.refused(f"{none}: line 4: no schedule, and so no uplifts", COAST, none)
        self.refused(f"{COAST}: line 1: ", COAST, COAST)

    def test_schedules_that_do_not_hold(self) -> None:
        cheap = self.put("cheap.cert", self.whole.replace("schedule 5046.666668", "schedule 5046.666667"))
        told = "table 1 of cheap.cert: `uc uplift` ended with status 9: certificate: C3 written 5046.666667 computed 5046.666668"
        self.refused(f"{cheap}: {told}", COAST, cheap)

    def test_searches_that_fail(self) -> None:
        self.search(self.whole, 3)
        self.refused(f"{COAST}: `uc solve` ended with status 3", COAST, STORED / "coast.cert")
        self.program = self.folder / "no"
        self.refused(f"{self.folder}/no: no program that can be run", COAST, STORED / "coast.cert")

    def test_files_that_are_read_stay(self) -> None:
        self.out = self.put("mine.cert", self.whole)
        status, _, said = self.run_prices(COAST, self.out)
        self.assertEqual(status, 1)
        self.assertIn("would be written over", said)
        self.assertEqual(self.out.read_text(), self.whole)


if __name__ == "__main__":
    unittest.main()
