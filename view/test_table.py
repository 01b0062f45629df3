"""Tests `uc-table` with a program that plays `uc`: its instances are shell lines, which say what a run prints and how it ends."""
from __future__ import annotations

import contextlib
import fcntl
import io
import itertools
import json
import os
import pathlib
import pty
import re
import signal
import subprocess
import sys
import tempfile
import time
import unittest
import unittest.mock
from typing import Dict, Iterator, List, Tuple

sys.dont_write_bytecode = True
HERE = pathlib.Path(__file__).resolve().parent
sys.path.insert(0, str(HERE))

from instance_table import command  # noqa: E402
from program_runs import program  # noqa: E402

COAST = HERE / "tests/coast.report"
SHORT = HERE / "tests/coast_short.report"
PROGRAM = """#!/bin/sh
echo "$@" >> "$(dirname "$0")/log"
for word; do case $word in --cert=*) certificate=${word#--cert=} ;; esac; file=$word; done
case $file in /*) ;; *) file=./$file ;; esac
. "$file"
"""
HEAD = "name,status,cost,bound,gap,evaluations,seconds,memory,options"
OPTIONS = "--units=1000 --workers=1 --gap=1000"
SIZES = "echo periods 1 thermal 0 renewable 0 rounded 0\n"
NO_SCHEDULE = SIZES + "echo budget spent, no schedule found\necho bound 7.500000\necho evaluations 12\nexit 2\n"
INFEASIBLE = SIZES + "echo infeasible\necho evaluations 0\nexit 3\n"
CLOSED = SIZES + 'echo closed\necho cost 3.000000\necho bound 2.999999\necho evaluations 0\necho mine > "$certificate"\nexit 0\n'
# what a run does, the cells of its row from the status to the evaluations, and what is told of it
RUNS = (
    ("closed", CLOSED, "0,3.000000,2.999999,1,0", ""),
    ("spent", f"cat {COAST}\nexit 1\n", "1,5046.666668,4793.333330,50199,1", ""),
    ("none", NO_SCHEDULE, "2,,7.500000,,12", ""),
    ("infeasible", INFEASIBLE, "3,,,,0", ""),
    ("refused", "echo 'uc: a note' >&2\necho 'instance: I1 demand' >&2\nexit 4\n", "4,,,,", "status 4: instance: I1 demand"),
    ("killed", "kill -9 $$\n", "-9,,,,", "signal 9"),
    ("other", INFEASIBLE.replace("exit 3", "exit 0"), "0,,,,", "status 0: the report says infeasible"),
    ("broken", CLOSED.replace("2.999999", "3"), "0,,,,", 'status 0: the report: line 4: "3" is no amount of money'),
    ("short", f"cat {SHORT}\nexit 1\n", "1,26746.666668,26583.333330,6107,1", ""),
    ("parts", CLOSED.replace("exit", "echo denominator 2\nexit"), "0,3.000000,2.999999,1,0", ""),
    (
        "wide",
        CLOSED.replace("exit", "echo denominator 100\nexit"),
        "0,,,,",
        'status 0: the report: line 6: "denominator 100" is no denominator from 2 to 99',
    ),
)
# a table, and what is said of it
BROKEN_TABLES = (
    ("t.csv", "name,status\n", "line 1: not what a table of instances begins with"),
    ("t.csv", "notes", "line 1: not what a table of instances begins with"),
    ("t.jsonl", "notes", "line 1: not what a table of instances begins with"),
    ("t.csv", HEAD + "\nx\ny", "line 2: 1 cells, where there are 9 columns"),
    ("t.csv", HEAD + "\nx,0,1.000000,1.000000,0,1,0.000000\n", "line 2: 7 cells, where there are 9 columns"),
    ("t.csv", HEAD + "\nx,,,,,,0.000000,1.000000,--gap=0\n", "line 2: no status of a row"),
    ("t.csv", HEAD + "\nx,0,1.0,1.000000,0,1,0.000000,1.000000,--gap=0\n", "line 2: no cost of a row"),
    ("t.csv", HEAD + "\nx,4,,,,,0.000000,1.000000,\n", "line 2: no options of a row"),
    ("t.csv", HEAD + "\nx,4,,,,,0.000000,1.000000,-\nx,4,,,,,0.000000,1.000000,-\n", "line 3: a second row of x"),
    ("t.csv", HEAD + '\n"x,4\n', "line 2: "),
    ("t.jsonl", "[]\n", "line 1: no object of the columns in their order"),
    ("t.jsonl", '{"name": "x"\n', "line 1: "),
    ("t.txt", "", "ends in none of .csv, .jsonl, which tells the table's form"),
)


@contextlib.contextmanager
def working_in(folder: pathlib.Path) -> Iterator[None]:
    """Makes a folder the working one for a while."""
    before = os.getcwd()
    os.chdir(folder)
    try:
        yield
    finally:
        os.chdir(before)


class TableTest(unittest.TestCase):
    """Runs the command in a folder of its own."""

    def setUp(self) -> None:
        folder = tempfile.TemporaryDirectory()
        self.addCleanup(folder.cleanup)
        self.folder = pathlib.Path(folder.name)
        self.program = self.put("program", PROGRAM)
        self.program.chmod(0o755)
        self.table = self.folder / "t.csv"

    def put(self, name: str, text: str) -> pathlib.Path:
        """A file of the folder."""
        path = self.folder / name
        path.parent.mkdir(exist_ok=True)
        path.write_text(text, encoding="utf-8")
        return path

    def words(self, *words: object) -> List[str]:
        """The words of a call that uses the program and the table."""
        return [*map(str, words), "-o", str(self.table), "--program", str(self.program)]

    def run_table(self, *words: object) -> Tuple[int, str]:
        """The status and what the error output says."""
        err = io.StringIO()
        with contextlib.redirect_stderr(err):
            status = command.main(self.words(*words))
        return status, err.getvalue()

    def lines(self) -> List[str]:
        """The lines of the table."""
        return self.table.read_text(encoding="utf-8").splitlines()

    def calls(self) -> List[str]:
        """The words of each call of the program."""
        log = self.folder / "log"
        return log.read_text().splitlines() if log.exists() else []

    def all_runs(self) -> Dict[str, pathlib.Path]:
        """An instance for each kind of run."""
        return {name: self.put(f"{name}.json", text) for name, text, _, _ in RUNS}


class Rows(TableTest):
    def test_each_run_has_its_row(self) -> None:
        files = self.all_runs()
        status, said = self.run_table(self.folder)
        self.assertEqual(status, 1)
        self.assertEqual(self.lines()[0], HEAD)
        rows = dict(line.split(",", 1) for line in self.lines()[1:])
        self.assertEqual(len(rows), len(RUNS))
        for name, _, cells, told in RUNS:
            with self.subTest(name):
                self.assertRegex(rows[str(files[name])], rf"^{re.escape(cells)},\d\.\d{{6}},\d+\.\d{{6}},{OPTIONS}$")
                self.assertEqual(f"uc-table: {files[name]}: {told}\n" in said, bool(told))
        self.assertEqual(said.count("\n"), sum(bool(told) for _, _, _, told in RUNS))

    def test_json_lines_say_the_same(self) -> None:
        files = self.all_runs()
        self.table = self.folder / "t.jsonl"
        self.assertEqual(self.run_table(*files.values())[0], 1)
        for line, (name, _, cells, _) in zip(self.lines(), RUNS):
            row = json.loads(line, parse_float=str, parse_int=str)
            self.assertEqual(",".join(row), HEAD)
            self.assertEqual(row["name"], str(files[name]))
            self.assertEqual(",".join(cell or "" for cell in list(row.values())[1:6]), cells)
            self.assertEqual(row["options"], OPTIONS)

    def test_folders_and_names(self) -> None:
        for name in ("more/b.json", 'more/a, "1".json', "more/c.txt", "-x.json"):
            self.put(name, CLOSED)
        with working_in(self.folder):
            self.assertEqual(self.run_table("more", "more/../more/b.json", "./-x.json"), (0, ""))
        self.assertEqual([line.rsplit(",", 8)[0] for line in self.lines()], ["name", '"more/a, ""1"".json"', "more/b.json", "-x.json"])

    def test_time_and_memory_are_those_of_the_run(self) -> None:
        busy = self.put("busy.json", "n=0; while [ $n -lt 100000 ]; do n=$((n + 1)); done\n" + CLOSED)
        large = self.put("large.json", f"{sys.executable} -c 'bytearray(100000000).find(1)'\n" + CLOSED)
        self.assertEqual(self.run_table(busy, large), (0, ""))
        (seconds, small), (_, memory) = (map(float, line.split(",")[-3:-1]) for line in self.lines()[1:])
        self.assertGreater(seconds, 0.005)
        # less than an interpreter that runs these tests takes itself
        self.assertLess(small, 8)
        self.assertGreater(memory, 100)

    def test_options_go_to_the_program(self) -> None:
        case = self.put("a.json", CLOSED)
        prices = "--shed", 1000, "--spill-reserve", 100
        switches = "--exact", "--exact-units", "--pivot"
        self.assertEqual(self.run_table(case, "--units", 7, "--workers", 2, "--gap", 0, *prices, *switches), (0, ""))
        (call,) = self.calls()
        options = "--units=7 --workers=2 --gap=0 --shed=1000 --spill-reserve=100 --exact --exact-units --pivot"
        self.assertRegex(call, rf"^solve --cert=[^ ]+ {options} -- {re.escape(str(case))}$")
        self.assertTrue(self.lines()[1].endswith(f",{options}"))


class Goings(TableTest):
    def test_rows_that_are_there_are_kept(self) -> None:
        files = list(self.all_runs().values())
        self.assertEqual(self.run_table(*files[:5])[0], 1)
        before = self.table.read_bytes()
        self.assertEqual(self.run_table(*files)[0], 1)
        self.assertTrue(self.table.read_bytes().startswith(before))
        self.assertEqual([call.rsplit(" ", 1)[1] for call in self.calls()], list(map(str, files)))
        self.assertEqual(self.run_table(*files[:4]), (0, ""))
        self.assertEqual(self.run_table(files[4]), (1, ""))
        self.assertEqual(len(self.calls()), len(files))

    def test_every_front_of_a_table_is_gone_on_from(self) -> None:
        files = [self.put(f"{k}.json", CLOSED) for k in (1, 2)]
        self.assertEqual(self.run_table(*files)[0], 0)
        whole = self.table.read_bytes()
        for size in range(0, len(whole), 9):
            self.table.write_bytes(whole[:size])
            (self.folder / "log").unlink()
            self.assertEqual(self.run_table(*files), (0, ""))
            self.assertEqual(len(self.calls()), 2 - max(whole[:size].count(b"\n") - 1, 0))
            self.assertEqual([line.split(",")[0] for line in self.lines()], ["name", *map(str, files)])

    def test_some_run_at_once(self) -> None:
        meet = 'touch "$0.{0}"; n=0; while [ ! -e "$0.{1}" ] && [ $n -lt 500 ]; do sleep 0.02; n=$((n + 1)); done; [ $n -lt 500 ]\n'
        files = [self.put(f"{a}.json", meet.format(a, b) + f"[ $? = 0 ] || exit 8\n{CLOSED}") for a, b in (("a", "b"), ("b", "a"))]
        self.assertEqual(self.run_table(*files, "-j", 2), (0, ""))

    def test_no_more_run_at_once(self) -> None:
        alone = 'mkdir "$0.alone" || exit 8; sleep 0.05; rmdir "$0.alone"\n'
        files = [self.put(f"{k}.json", alone + CLOSED) for k in range(3)]
        self.assertEqual(self.run_table(*files), (0, ""))

    def test_certificates_are_kept(self) -> None:
        self.put("half.json", 'echo half > "$certificate"\nexit 7\n'), self.put("whole.json", CLOSED)
        certificates = self.folder / "made/certs"
        self.assertEqual(self.run_table(self.folder, "--certs", certificates)[0], 1)
        self.assertEqual({path.name: path.read_text() for path in certificates.iterdir()}, {"whole.cert": "mine\n"})
        self.put("other/whole.json", CLOSED)
        status, said = self.run_table(self.folder, self.folder / "other", "--certs", certificates)
        self.assertEqual((status, said.count("\n")), (1, 1))
        self.assertTrue(said.startswith(f"uc-table: {certificates}/whole.cert: would be the certificate of "), said)
        self.assertEqual(len(self.calls()), 2)

    def test_stopped_runs_leave_no_row(self) -> None:
        first, second = self.put("1.json", CLOSED), self.put("2.json", 'echo $$ > "$0.process"; exec sleep 60\n')
        words = [sys.executable, str(HERE / "uc-table"), *self.words(first, second, "--certs", self.folder / "certs")]
        # a shell's background job ignores interrupts, and what it starts would too
        signal.signal(signal.SIGINT, signal.default_int_handler)
        for stop in (signal.SIGTERM, signal.SIGINT):
            running = subprocess.Popen(words, stderr=subprocess.PIPE, text=True)
            process = int(self.wait_for(self.folder / "program.process"))
            running.send_signal(stop)
            self.assertEqual(running.communicate(timeout=20)[1], "uc-table: stopped; the same words go on from here\n")
            self.assertEqual(running.returncode, 130)
            with self.assertRaises(ProcessLookupError):
                os.kill(process, 0)
            (self.folder / "program.process").unlink()
        self.assertEqual([line.split(",")[0] for line in self.lines()], ["name", str(first)])
        self.assertEqual([path.name for path in (self.folder / "certs").iterdir()], ["1.cert"])
        second.write_text(CLOSED)
        self.assertEqual(self.run_table(first, second), (0, ""))

    def wait_for(self, path: pathlib.Path) -> str:
        """The text of a file that is written by and by."""
        for _ in range(1000):
            if path.exists() and path.read_text().endswith("\n"):
                return path.read_text()
            time.sleep(0.01)
        self.fail(f"no {path}")

    def test_progress_is_told_to_a_terminal(self) -> None:
        files = [self.put("a.json", CLOSED), self.put("b.json", "exit 6\n")]
        ours, theirs = pty.openpty()
        subprocess.run([sys.executable, str(HERE / "uc-table"), *self.words(*files)], stderr=theirs, check=False, timeout=60)
        os.close(theirs)
        with open(ours, "rb", buffering=0) as terminal:
            told = terminal.read(100_000).decode()
        for words in ("0 of 2 done; running: ", "1 of 2 done", "2 of 2 done, 1 failed", f"uc-table: {files[1]}: status 6\r\n"):
            self.assertIn(words, told)
        self.assertTrue(told.endswith("status 6\r\n\r\x1b[K"), repr(told))


class Refused(TableTest):
    def refused(self, place: object, *words: object) -> None:
        """The words are refused with one line that begins so, and nothing is run."""
        status, said = self.run_table(*words)
        self.assertEqual((status, said[: len(str(place)) + 10], said.count("\n")), (1, f"uc-table: {place}", 1))
        self.assertEqual(self.calls(), [])

    def test_broken_tables(self) -> None:
        case = self.put("a.json", CLOSED)
        for name, text, place in BROKEN_TABLES:
            with self.subTest(place):
                self.table = self.put(name, text)
                self.refused(f"{self.table}: {place}", case)
                self.assertEqual(self.table.read_text(), text)

    def test_tables_of_other_options(self) -> None:
        cases = [self.put(f"{name}.json", CLOSED) for name in "ab"]
        for table, words in itertools.product(("t.csv", "t.jsonl"), (("--units", 7), ("--exact",), ("--shed", 500, "--gap", 0))):
            self.table = self.folder / table
            self.table.unlink() if self.table.exists() else None
            self.assertEqual(self.run_table(cases[0], *words), (0, ""))
            before = self.table.read_bytes(), self.calls()
            status, said = self.run_table(*cases)
            self.assertEqual((status, said.count("\n")), (1, 1))
            self.assertTrue(said.startswith(f"uc-table: {self.table}: row of {cases[0]}: its options are --"), said)
            self.assertTrue(said.endswith(f", and those of the words {OPTIONS}\n"), said)
            self.assertEqual((self.table.read_bytes(), self.calls()), before)
            self.assertEqual(self.run_table(*cases, *words), (0, ""))

    def test_defaults_are_no_other_options(self) -> None:
        case = self.put("a.json", CLOSED)
        self.assertEqual(self.run_table(case), (0, ""))
        self.assertEqual(self.run_table(case, "--gap", 1000, "--workers", 1, "--units", 1000), (0, ""))
        self.assertEqual(len(self.calls()), 1)

    def test_tables_in_use(self) -> None:
        case = self.put("a.json", CLOSED)
        with self.table.open("ab") as other:
            fcntl.flock(other, fcntl.LOCK_EX)
            self.refused(f"{self.table}: another run writes it", case)
        self.table = self.put("b.csv", CLOSED)
        self.refused(f"{self.table}: would be written over {self.table}", self.table)

    def test_files_and_folders(self) -> None:
        self.put("empty/c.txt", "")
        self.refused(f"{self.folder}/empty: no file in it ends in .json", self.folder / "empty")
        self.refused(f"{self.folder}/a\\u000ab.json: a name", self.folder / "a\nb.json")
        self.program = self.folder / "no"
        self.refused(f"{self.program}: no program that can be run", self.put("a.json", CLOSED))

    def test_program_of_the_repository(self) -> None:
        case, script = self.put("a.json", CLOSED), self.put("uc", '#!/bin/sh\necho "$@" > "$0.words"\nexit 70\n')
        script.chmod(0o755)
        words = [str(case), "-o", str(self.table)]
        with unittest.mock.patch.object(program, "TOP", self.folder), unittest.mock.patch.object(program, "BUILT", "program"):
            with contextlib.redirect_stderr(io.StringIO()) as said:
                self.assertEqual(command.main(words), 1)
            self.assertEqual(said.getvalue(), f"uc-table: {script}: ended with 70, and gave no program\n")
            script.write_text("#!/bin/sh\nexit 0\n")
            self.assertEqual(command.main(words), 0)
            with unittest.mock.patch.dict(os.environ, UC_BUILD="unproved"):
                self.assertEqual(program.built_program(None), str(script))
        self.assertEqual((self.folder / "uc.words").read_text(), "demo 0\n")
        self.assertEqual(len(self.calls()), 1)

    def test_words(self) -> None:
        for words in (["-j", "0"], ["--units", "1000001"], ["--gap", "1.5"], ["-j", "²"], ["--shed", "0"], ["--workers", "65"]):
            with contextlib.redirect_stderr(io.StringIO()), self.assertRaises(SystemExit) as ended:
                command.main(self.words("a.json", *words))
            self.assertEqual(ended.exception.code, 2)


if __name__ == "__main__":
    unittest.main()
