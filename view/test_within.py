"""Tests `uc-within` with a program that plays `uc`: a shell script that says what a run of each budget prints and how it ends."""
from __future__ import annotations

import contextlib
import io
import json
import os
import pathlib
import signal
import subprocess
import sys
import tempfile
import time
import unittest
import unittest.mock
from typing import List, Tuple

sys.dont_write_bytecode = True
HERE = pathlib.Path(__file__).resolve().parent
sys.path.insert(0, str(HERE))

from timed_search import command, run, trials  # noqa: E402

PROGRAM = """#!/bin/sh
echo "$@" >> "$(dirname "$0")/log"
for word; do case $word in --cert=*) certificate=${word#--cert=} ;; --units=*) budget=${word#--units=} ;; --exact-units) way=exact ;; esac; done
echo "certificate of budget $budget$way" > "$certificate"
"""
SIZES = "periods 1 thermal 0 renewable 0 rounded 0\n"
SPENT = SIZES + "budget spent\ncost {}.000000\nbound {}.000000\nevaluations 1\n"
CLOSED = SIZES + "closed\ncost 103.000000\nbound 103.000000\nevaluations 1\n"
NO_SCHEDULE = SIZES + "budget spent, no schedule found\nbound {}.000000\nevaluations 1\n"
INFEASIBLE = SIZES + "infeasible\nevaluations 0\n"
LAST_LINE = r", \d+\.\d s"


class WithinTest(unittest.TestCase):
    """Runs the command in a folder of its own."""

    def setUp(self) -> None:
        folder = tempfile.TemporaryDirectory()
        self.addCleanup(folder.cleanup)
        self.folder = pathlib.Path(folder.name)
        self.case, self.out = self.folder / "case.json", self.folder / "out.cert"
        self.case.write_text("{}")
        self.program = self.folder / "program"

    def play(self, *runs: Tuple[str, str], exact: Tuple[Tuple[str, str], ...] = ()) -> None:
        """Lets the runs of the budgets 1, 4, 16 and so on, and those with exact units, print these reports and end so; later ones wait for ever."""
        lines = [PROGRAM, "case $budget$way in\n"]
        for number, way, (printed, ends) in [(n, "", it) for n, it in enumerate(runs)] + [(n, "exact", it) for n, it in enumerate(exact)]:
            (self.folder / f"report{number}{way}").write_text(printed)
            lines.append(f'{4**number}{way}) cat "{self.folder}/report{number}{way}"; {ends} ;;\n')
        lines.append('*) echo $$ > "$0.process"; exec sleep 60 ;;\nesac\n')
        self.program.write_text("".join(lines))
        self.program.chmod(0o755)

    def words(self, *words: object, seconds: object = 1000) -> List[str]:
        return [str(seconds), str(self.case), "--cert", str(self.out), "--program", str(self.program), *map(str, words)]

    def run_within(self, *words: object, seconds: object = 1000) -> Tuple[int, str, List[str]]:
        """The status, what is printed, and the lines of the error output."""
        out, err = io.TextIOWrapper(io.BytesIO(), newline=""), io.StringIO()
        with contextlib.redirect_stdout(out), contextlib.redirect_stderr(err):
            status = command.main(self.words(*words, seconds=seconds))
        return status, out.buffer.getvalue().decode(), err.getvalue().splitlines()

    def assert_lines(self, lines: List[str], *wanted: str) -> None:
        """Each line is one of a budget and its seconds, or as it is wanted."""
        self.assertEqual(len(lines), len(wanted), lines)
        for line, text in zip(lines, wanted):
            self.assertRegex(line, f"^uc-within: {text}$")

    def assert_left(self, certificate: str) -> None:
        """The certificate, and nothing besides what was put there."""
        self.assertEqual(self.out.read_text() if self.out.exists() else "", certificate)
        self.assertEqual([path.name for path in self.folder.iterdir() if path.name.startswith(".")], [])


class Answers(WithinTest):
    def test_it_ends_when_it_is_closed(self) -> None:
        self.play((SPENT.format(110, 100), "exit 1"), (SPENT.format(104, 101), "exit 1"), (CLOSED, "exit 0"))
        status, out, lines = self.run_within()
        self.assertEqual((status, out), (0, CLOSED))
        self.assert_lines(
            lines,
            f"budget 1, cost 110.000000, bound 100.000000, gap 90910 ppm{LAST_LINE}",
            f"budget 4, cost 104.000000, bound 101.000000, gap 28847 ppm{LAST_LINE}",
            f"budget 16, cost 103.000000, bound 103.000000, gap 0 ppm{LAST_LINE}",
        )
        self.assert_left("certificate of budget 16\n")

    def test_a_schedule_in_parts_of_a_watt_is_an_answer(self) -> None:
        self.play((CLOSED + "denominator 2\n", "exit 0"))
        status, out, lines = self.run_within("--pivot")
        self.assertEqual((status, out), (0, CLOSED + "denominator 2\n"))
        self.assert_lines(lines, f"budget 1, cost 103.000000, bound 103.000000, gap 0 ppm{LAST_LINE}")

    def test_it_ends_when_there_is_no_schedule(self) -> None:
        self.play((NO_SCHEDULE.format(7), "exit 2"), (INFEASIBLE, "exit 3"))
        status, out, lines = self.run_within()
        self.assertEqual((status, out), (3, INFEASIBLE))
        first = f"budget 1, no schedule found, bound 7.000000{LAST_LINE}"
        self.assert_lines(lines, first, f"budget 4, infeasible{LAST_LINE}")

    def test_it_ends_with_the_greatest_budget(self) -> None:
        self.play((SPENT.format(110, 100), "exit 1"), (SPENT.format(104, 101), "exit 1"))
        status, out, lines = self.run_within("--units", 4, "--gap", 0, "--exact", "--shed", 500)
        self.assertEqual((status, out), (1, SPENT.format(104, 101)))
        self.assertEqual(lines[2:], ["uc-within: the greatest budget is spent; the answer of budget 4 is kept"])
        calls = (self.folder / "log").read_text().splitlines()
        for call, budget in zip(calls, (1, 4)):
            options = f"--units={budget} --workers=1 --gap=0 --shed=500 --exact"
            self.assertRegex(call, f"^solve --cert=[^ ]+ {options} -- {self.case}$")
        self.assertEqual(list(trials.budgets(5)), [1, 4, 5])
        self.assertEqual(list(trials.budgets(1_000_000))[-2:], [262_144, 1_000_000])

    def test_a_worse_answer_isnt_kept(self) -> None:
        self.play((SPENT.format(110, 100), "exit 1"), (SPENT.format(112, 101), "exit 1"), (NO_SCHEDULE.format(102), "exit 2"))
        status, out, lines = self.run_within("--units", 16)
        self.assertEqual((status, out), (1, SPENT.format(110, 100)))
        self.assertEqual([line.endswith(" s; the one before is kept") for line in lines], [False, True, True, False])
        self.assert_left("certificate of budget 1\n")

    def test_a_fault_leaves_what_is_kept(self) -> None:
        self.play((SPENT.format(110, 100), "exit 1"), ("", "echo out of memory >&2; exit 8"))
        status, out, lines = self.run_within()
        self.assertEqual((status, out), (1, SPENT.format(110, 100)))
        self.assert_lines(lines[1:], "budget 4: status 8: out of memory", "the program failed; the answer of budget 1 is kept")
        self.assert_left("certificate of budget 1\n")

    def test_a_fault_without_an_answer(self) -> None:
        for ends, status, told in (
            ("echo 'instance: I1 demand' >&2; exit 4", 4, "budget 1: status 4: instance: I1 demand"),
            ("kill -9 $$", 137, "budget 1: signal 9"),
        ):
            self.play(("", ends))
            found = self.run_within()
            self.assertEqual(found[:2], (status, ""))
            self.assert_lines(found[2], told, "the program failed; there is no answer")
            self.assert_left("")

    def test_a_report_that_isnt_one(self) -> None:
        self.play((SPENT.format(110, 100), "exit 0"))
        status, out, lines = self.run_within()
        self.assertEqual((status, out, lines), (7, "", ["uc-within: the report: budget spent, where the status is 0"]))
        self.assert_left("")


class Ways(WithinTest):
    """With exact units and without them."""

    def put_ramps(self, part: float) -> None:
        """Ramps of a part of each unit's greatest output."""
        value = json.loads((HERE.parent / "examples/kazarlis10.json").read_text())
        for unit in value["thermal_generators"].values():
            unit["ramp_up_limit"] = part * unit["power_output_maximum"]
        self.case.write_text(json.dumps(value))

    def test_ramps_decide_whether_both_are_tried(self) -> None:
        self.assertFalse(trials.has_tight_ramps(str(self.case)))
        for part, is_tight in ((0.3, True), (0.5, True), (0.7, False), (1, False)):
            self.put_ramps(part)
            self.assertEqual(trials.has_tight_ramps(str(self.case)), is_tight, part)

    def test_the_better_is_kept_and_goes_first(self) -> None:
        self.put_ramps(0.5)
        spent = [(SPENT.format(110 - n, 100), "exit 1") for n in range(10)]
        self.play(spent[3], spent[4], spent[7], exact=(spent[0], spent[5], spent[6]))
        status, out, lines = self.run_within("--units", 16)
        self.assertEqual((status, out), (1, spent[7][0]))
        told = [line.partition(", ")[0].partition(": ")[2] + line.partition(" s")[2] for line in lines[:-1]]
        self.assertEqual(told[:2], ["budget 1", "budget 1 with --exact-units; the one before is kept"])
        self.assertEqual(told[2:], ["budget 4", "budget 4 with --exact-units", "budget 16 with --exact-units", "budget 16"])
        self.assertEqual(lines[-1], "uc-within: the greatest budget is spent; the answer of budget 16 is kept")
        self.assert_left("certificate of budget 16\n")

    def test_exact_units_that_are_asked_for(self) -> None:
        self.put_ramps(0.5)
        self.play(exact=((CLOSED, "exit 0"),))
        status, out, lines = self.run_within("--exact-units")
        self.assertEqual((status, out), (0, CLOSED))
        self.assert_lines(lines, f"budget 1 with --exact-units, cost 103.000000, bound 103.000000, gap 0 ppm{LAST_LINE}")
        self.assert_left("certificate of budget 1exact\n")


class Ends(WithinTest):
    def test_the_time_is_over(self) -> None:
        self.play((SPENT.format(110, 100), "exit 1"), (SPENT.format(104, 101), "exit 1"))
        begun = []

        def run_until(task: run.Task, deadline: float) -> int:
            begun.append(task)
            return run.run_until(task, deadline if len(begun) < 3 else time.monotonic() + 0.05)

        with unittest.mock.patch.object(command, "run_until", run_until):
            status, out, lines = self.run_within()
        self.assertEqual((status, out), (1, SPENT.format(104, 101)))
        self.assert_lines(lines[2:], "the time is over; the answer of budget 4 is kept")
        self.assert_left("certificate of budget 4\n")

    def test_the_time_is_too_short(self) -> None:
        self.play()
        self.out.write_text("before")
        status, out, lines = self.run_within(seconds=0.05)
        self.assertEqual((status, out, lines), (124, "", ["uc-within: the time is over; there is no answer"]))
        self.assert_left("before")

    def test_signals_to_stop(self) -> None:
        # a shell's background job ignores interrupts, nohup hangups, and what they start would too
        signal.signal(signal.SIGINT, signal.default_int_handler)
        signal.signal(signal.SIGHUP, signal.SIG_DFL)
        for stop, runs in ((signal.SIGINT, 1), (signal.SIGTERM, 2), (signal.SIGHUP, 0)):
            with self.subTest(stop):
                self.play(*[(SPENT.format(110 - n, 100), "exit 1") for n in range(runs)])
                words = [sys.executable, str(HERE / "uc-within"), *self.words()]
                running = subprocess.Popen(words, stdout=subprocess.PIPE, stderr=subprocess.PIPE, text=True)
                process = int(self.wait_for(self.folder / "program.process"))
                running.send_signal(stop)
                out, err = running.communicate(timeout=60)
                with self.assertRaises(ProcessLookupError):
                    os.kill(process, 0)
                (self.folder / "program.process").unlink()
                kept = f"the answer of budget {4 ** (runs - 1)} is kept" if runs else "there is no answer"
                self.assertEqual(err.splitlines()[runs:], [f"uc-within: stopped; {kept}"])
                self.assertEqual((running.returncode, out), (1, SPENT.format(111 - runs, 100)) if runs else (130, ""))
                self.assert_left(f"certificate of budget {4 ** (runs - 1)}\n" if runs else self.out.read_text())

    def wait_for(self, path: pathlib.Path) -> str:
        """The text of a file that is written by and by."""
        for _ in range(6000):
            if path.exists() and path.read_text().endswith("\n"):
                return path.read_text()
            time.sleep(0.01)
        self.fail(f"no {path}")


class Refused(WithinTest):
    def test_files(self) -> None:
        self.play()
        for out, status, told in (
            (self.case, 7, f"{self.case}: would be written over {self.case}, which is the same file"),
            (self.folder, 7, f"{self.folder}: can't be written: no regular file"),
            (self.folder / "no/out", 7, f"{self.folder}/no/out: can't be written: No such file or directory"),
        ):
            self.out = out
            self.assertEqual(self.run_within(), (status, "", [f"uc-within: {told}"]))
        self.program = self.folder / "no"
        self.assertEqual(self.run_within(), (70, "", [f"uc-within: {self.program}: no program that can be run"]))
        self.assertFalse((self.folder / "log").exists())

    def test_words(self) -> None:
        for seconds, words in (("0", ()), ("-1", ()), ("1e3", ()), ("nan", ()), ("99999999", ()), ("1", ("--units", "0"))):
            with contextlib.redirect_stderr(io.StringIO()), self.assertRaises(SystemExit) as ended:
                command.main(self.words(*words, seconds=seconds))
            self.assertEqual(ended.exception.code, 5)


if __name__ == "__main__":
    unittest.main()
