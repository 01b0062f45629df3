"""Tests `uc-roll-cert` with `examples/check.py` in place of `uc check`."""
from __future__ import annotations

import contextlib
import importlib.util
import io
import json
import pathlib
import re
import subprocess
import sys
import tempfile
import unittest
import unittest.mock
from typing import List, Tuple

sys.dont_write_bytecode = True
HERE = pathlib.Path(__file__).resolve().parent
TOP, STORED = HERE.parent, HERE / "tests"
sys.path.insert(0, str(HERE))

from instance_check.units import read_system  # noqa: E402
from rolled_certificate import command, text  # noqa: E402
from schedule_view.amounts import amount, amount_text  # noqa: E402

COAST, COAST_REPORT, COAST_CERTIFICATE = (STORED / f"coast.{ending}" for ending in ("json", "report", "cert"))
SHORT, SHORT_REPORT, SHORT_CERTIFICATE = (STORED / f"coast_short.{ending}" for ending in ("json", "report", "cert"))
PRICES = "--shed", "500", "--spill-reserve", "50"
CHECKER = TOP / "examples/check.py"
PROGRAM = f'#!/bin/sh\n[ "$1" = check ] || exit 8\nshift\nexec "{sys.executable}" "{CHECKER}" "$@"\n'
EXAMPLES = TOP / "examples/tests"
# 15 MW of a unit that can't fall below
SLOW_FALL = """periods 1 thermal 1 renewable 0 rounded 0
rolled 1 windows
cost 150.000000
thermal "g1" 15.000000+0.000000
"""


_SPEC = importlib.util.spec_from_file_location("checker", CHECKER)
checker = importlib.util.module_from_spec(_SPEC)
_SPEC.loader.exec_module(checker)


def checked(words: List[str], **_: object) -> subprocess.CompletedProcess:
    """What a run of the checker as a program gives; it is run here, which takes less time."""
    assert words[1] == "check", words
    try:
        return subprocess.CompletedProcess(words, 0, "".join(f"{line}\n" for line in checker.verdict(words[2:])).encode(), b"")
    except checker.Refused as refused:
        return subprocess.CompletedProcess(words, refused.status, b"", f"{refused}\n".encode())


def rolled(report: pathlib.Path) -> str:
    """A report of `uc solve` as one of `uc roll`."""
    lines = report.read_text(encoding="utf-8").splitlines(keepends=True)
    return "".join([lines[0], "rolled 2 windows\n", lines[2], *lines[5:]])


class RollCertTest(unittest.TestCase):
    """Runs the command in a folder of its own."""

    # whether the checker is played, and not begun as a program
    is_played = True

    def setUp(self) -> None:
        folder = tempfile.TemporaryDirectory()
        self.addCleanup(folder.cleanup)
        self.folder = pathlib.Path(folder.name)
        self.program = self.put("program", PROGRAM)
        self.program.chmod(0o755)
        self.report, self.out = self.put("report", rolled(COAST_REPORT)), self.folder / "out.cert"

    def put(self, name: str, content: str) -> pathlib.Path:
        path = self.folder / name
        path.write_text(content, encoding="utf-8")
        return path

    def run_cert(self, *words: object) -> Tuple[int, str, str]:
        """The status, and what the output and the error output say."""
        out, err = io.StringIO(), io.StringIO()
        play = unittest.mock.patch.object(command.subprocess, "run", checked) if self.is_played else contextlib.nullcontext()
        with play, contextlib.redirect_stdout(out), contextlib.redirect_stderr(err):
            status = command.main([*map(str, words), "--cert", str(self.out), "--program", str(self.program)])
        return status, out.getvalue(), err.getvalue()

    def refused(self, place: object, *words: object) -> None:
        """Refused with one line that begins so, and nothing is written, nor left in the folder."""
        before = sorted(self.folder.iterdir())
        status, out, err = self.run_cert(*words)
        self.assertEqual((status, out, err[: len(str(place)) + 14], err.count("\n")), (1, "", f"uc-roll-cert: {place}", 1))
        self.assertEqual(sorted(self.folder.iterdir()), before)


class Certificates(RollCertTest):
    def test_with_the_bound_of_a_certificate(self) -> None:
        found = self.run_cert(COAST, self.report, "--bound", COAST_CERTIFICATE)
        self.assertEqual(found, (0, "accepted\ncost 5046.666668\nbound 4793.333330\n", ""))
        self.assertEqual(self.out.read_bytes(), COAST_CERTIFICATE.read_bytes())
        self.assertEqual(sorted(path.name for path in self.folder.iterdir()), ["out.cert", "program", "report"])

    def test_the_program_is_run(self) -> None:
        self.is_played = False
        report, words = self.put("short", rolled(SHORT_REPORT)), ("--bound", SHORT_CERTIFICATE)
        self.assertEqual(self.run_cert(SHORT, report, *words), (0, "accepted\ncost 26746.666668\nbound 26583.333330\n", ""))

    def test_with_the_table_of_zeros(self) -> None:
        case = self.put("case.json", COAST.read_text(encoding="utf-8").replace('"must_run": 0', '"must_run": 1', 1))
        self.assertEqual(self.run_cert(case, self.report), (0, "accepted\ncost 5046.666668\nbound 1600.000000\n", ""))
        lines = self.out.read_text().splitlines()
        self.assertEqual(lines[:4], ["uc-certificate 2", "size 4 2 1 1", "claim bound 1600.000000", "schedule 5046.666668"])
        self.assertEqual(lines[7:], ["table 1000000", "pi 0 0 0 0", "mu 0 0 0 0", "ramps 0", "bound 1", "end"])

    def test_with_prices_of_shortages(self) -> None:
        report = self.put("short", rolled(SHORT_REPORT))
        for words in (PRICES, ("--bound", SHORT_CERTIFICATE), ("--bound", SHORT_CERTIFICATE, *PRICES)):
            status, out, err = self.run_cert(SHORT, report, *words)
            self.assertEqual((status, out.split("\n")[:2], err), (0, ["accepted", "cost 26746.666668"], ""))
        self.assertEqual(self.out.read_bytes(), SHORT_CERTIFICATE.read_bytes())

    def test_every_version(self) -> None:
        slow, report = (EXAMPLES / "slow_fall.json").read_text(), self.put("slow", SLOW_FALL)
        case = self.put("slow.json", slow.replace('"demand": [30]', '"demand": [15]'))
        found = self.run_cert(case, report, "--bound", EXAMPLES / "slow_fall.cert")
        self.assertEqual(found, (0, "accepted\ncost 150.000000\nbound 150.000000\n", ""))
        self.assertIn("\nexact 1\n", self.out.read_text())

    def test_a_file_that_is_there(self) -> None:
        real = self.put("real.cert", "before")
        real.chmod(0o640)
        self.out.symlink_to("real.cert")
        self.assertEqual(self.run_cert(COAST, self.report)[0], 0)
        self.assertTrue(self.out.is_symlink())
        self.assertTrue(real.read_text().startswith("uc-certificate"))
        self.assertEqual(real.stat().st_mode & 0o777, 0o640)


class ZeroBounds(RollCertTest):
    """The greatest claim that the table of zeros carries is accepted, and a micro-dollar more isn't."""

    def certificate(self, basis: text.Basis, size: str, claim: int) -> pathlib.Path:
        lines = ["uc-certificate 2", f"size {size}", f"claim bound {amount_text(claim)}", "schedule none", *basis.lines]
        return self.put("claim.cert", "".join(f"{line}\n" for line in lines))

    def test_the_claim_is_the_greatest(self) -> None:
        cases = [*sorted(EXAMPLES.glob("*.json")), *sorted((TOP / "examples").glob("*.json")), COAST, SHORT]
        for case in cases:
            with self.subTest(case.name):
                system = read_system(str(case), case.read_bytes())
                instance, basis = system.instance, text.zero_basis(system)
                size = f"{instance.periods} {len(instance.thermal)} {len(instance.renewable)} 1"
                for claim, wanted in ((basis.bound, (0, b"")), (basis.bound + 1, (9, b"certificate: C4 node 1\n"))):
                    run = checked(["uc", "check", str(case), str(self.certificate(basis, size, claim))])
                    self.assertEqual((run.returncode, run.stderr), wanted)

    def test_bounds_by_hand(self) -> None:
        value = json.loads(COAST.read_text(encoding="utf-8"))
        base, peak = value["thermal_generators"].values()
        for changes, others, wanted in (
            ({}, {}, "0.000000"),
            # on for two hours yet
            ({"time_up_t0": 0}, {}, "800.000000"),
            # the ramps don't count, but the output before hour 1 may keep it on
            ({"ramp_shutdown_limit": 19}, {}, "1600.000000"),
            # off for two hours yet, and then on: a start of category 1 and two hours
            ({}, {"must_run": 1, "time_down_t0": 9}, "1480.000000"),
            # an hour that costs less than nothing, at its cheapest output
            ({"piecewise_production": [{"mw": 20, "cost": -1}, {"mw": 80, "cost": -61}]}, {}, "-244.000000"),
        ):
            changed = {**value, "thermal_generators": {"base": {**base, **changes}, "peak": {**peak, **others}}}
            system = read_system("i", json.dumps(changed).encode())
            self.assertEqual(amount_text(text.zero_basis(system).bound), wanted, (changes, others))
        self.assertEqual(amount("1480.000000"), 1_480_000_000)


class Refused(RollCertTest):
    def test_reports(self) -> None:
        stopped = self.put("stopped", "periods 4 thermal 2 renewable 1 rounded 1\nwindow 2 periods 2 to 4: infeasible\n")
        self.refused(f"{stopped}: no schedule", COAST, stopped)
        self.refused(f"{self.report}: period 3: outputs add up to 120.000000", SHORT, self.report)

    def test_what_the_check_refuses(self) -> None:
        case = self.put("case.json", re.sub('"ramp_up_limit": 60', '"ramp_up_limit": 34', COAST.read_text(encoding="utf-8")))
        self.out.write_text("before")
        told = "`uc check` refuses the certificate with 9: certificate: C2 M11 thermal 1 period 2\n"
        self.refused(f"{case}: {told}", case, self.report)
        self.assertEqual(self.out.read_text(), "before")
        wrong = self.put("wrong.cert", COAST_CERTIFICATE.read_text().replace("bound 4793.333330", "bound 4793.333334"))
        self.refused(f"{COAST}: `uc check` refuses the certificate with 9: certificate: C4 node 1\n", COAST, self.report, "--bound", wrong)
        self.is_played = False
        self.program.write_text("#!/bin/sh\nexit 8\n")
        self.refused(f"{COAST}: `uc check` refuses the certificate with 8\n", COAST, self.report)

    def test_certificates(self) -> None:
        for place, name in (("line 2: the sizes", "two_units.cert"), ("line 2: the sizes", "too_much.cert")):
            self.refused(f"{EXAMPLES / name}: {place}", COAST, self.report, "--bound", EXAMPLES / name)
        tables = "table 0\npi 1 0 0 0\nmu 0 0 0 0\nramps 0\nray 1\nend\n"
        claim = self.put("claim.cert", f"uc-certificate 2\nsize 4 2 1 1\nclaim infeasible\nschedule none\n{tables}")
        self.refused(f"{claim}: line 3: it claims that no schedule exists", COAST, self.report, "--bound", claim)
        words = "--bound", SHORT_CERTIFICATE, "--shed", 499
        self.refused(f"{SHORT_CERTIFICATE}: line 4: the prices", SHORT, SHORT_REPORT, *words)

    def test_places(self) -> None:
        self.out = COAST
        self.refused(f"{COAST}: would be written over", COAST, self.report)
        self.out = self.folder
        self.refused(f"{self.folder}: can't be written: no regular file", COAST, self.report)
        self.out = self.folder / "no/out.cert"
        self.refused(f"{self.out}: can't be written: ", COAST, self.report)

    def test_words(self) -> None:
        for words in ((), (str(COAST), str(self.report))):
            with contextlib.redirect_stderr(io.StringIO()), self.assertRaises(SystemExit) as ended:
                command.main(list(words))
            self.assertEqual(ended.exception.code, 2)


if __name__ == "__main__":
    unittest.main()
