"""Tests `uc-explain` on each code and status: by `examples/check.py` the edited file has the fault whose line is explained."""
from __future__ import annotations

import contextlib
import io
import pathlib
import sys
import tempfile
import unittest
import unittest.mock
from typing import Tuple

sys.dont_write_bytecode = True
HERE = pathlib.Path(__file__).resolve().parent
sys.path.insert(0, str(HERE))

from explain import command, places, texts  # noqa: E402
from reasons.system import check  # noqa: E402

COAST, CERTIFICATE = HERE / "tests/coast.json", HERE / "tests/coast.cert"

# an edit of coast.json, the line of the error output, and what is told of the file
INSTANCES = (
    ('"reserves": [5, 5, 10, 5],', "", "I1 reserves", "line 1, column 1: reserves is missing: the reserve needed by period, in MW, an array"),
    ('      "ramp_up_limit": 60,\n', "", 'I1 thermal "base \\"1\\"" ramp_up_limit',
     'line 6, column 19: ramp_up_limit of thermal unit "base "1"" is missing: the most that output rises in an hour, in MW, a number from 0.'),
    ('{ "lag": 2, "cost": 100 }', '{"lag": 2}', 'I1 thermal "base \\"1\\"" startup.cost 1',
     'line 20, column 19: cost in entry 1 of startup of thermal unit "base "1"" is missing: the cost of a start, in dollars, a number.'),
    ("[60, 90.5, 120, 40]", '[60, "90", 120, 40]', "I2 demand 2", 'line 3, column 18: entry 2 of demand is a text, "90", where a number is wanted.'),
    ("[60, 90.5, 120, 40]", "7", "I2 demand", "line 3, column 13: demand is a number, 7, where an array with a number for each period is wanted."),
    ('{ "lag": 2, "cost": 100 }', "true", 'I2 thermal "base \\"1\\"" startup 1',
     'line 20, column 19: entry 1 of startup of thermal unit "base "1"" is true where an object is wanted.'),
    ('"unit_on_t0": 0', '"unit_on_t0": 0.5', 'I3 thermal "peak <2>" unit_on_t0', 'unit_on_t0 of thermal unit "peak <2>" is 0.5: it isn\'t whole.'),
    ("[60, 90.5, 120, 40]", "[60, 90.5, 120, 1e8]", "I4 demand 4",
     "line 3, column 29: entry 4 of demand is 1e8: a power is at most 10,000,000 MW in size."),
    ('"time_up_t0": 0', '"time_up_t0": -1', 'I4 thermal "peak <2>" time_up_t0', "is -1: hours are from 0 to 1,000,000."),
    ('"cost": 900', '"cost": -5000001', 'I4 thermal "base \\"1\\"" piecewise_production.cost 2', "is -5000001: a cost is at most 5,000,000 dollars in size."),
    ('"time_periods": 4', '"time_periods": 0', "I5 time_periods", "line 2, column 19: time_periods is 0: there is at least one period."),
    ('"must_run": 0', '"must_run": 2', 'I5 thermal "base \\"1\\"" must_run', "is 2: it is 0 or 1."),
    ('"power_output_minimum": 20', '"power_output_minimum": 90', 'I5 thermal "base \\"1\\"" power_output_maximum', "is 80: it is below the minimum, 90."),
    ('"ramp_up_limit": 60', '"ramp_up_limit": -1', 'I5 thermal "base \\"1\\"" ramp_up_limit', "is -1: it is below 0."),
    ('[{ "lag": 2, "cost": 100 }, { "lag": 6, "cost": 200 }]', "[]", 'I5 thermal "base \\"1\\"" startup',
     "is empty: it takes an array of 1 to 16 objects with `lag` and `cost`."),
    ('"mw": 50, "cost": 900', '"mw": 10, "cost": 900', 'I5 thermal "base \\"1\\"" piecewise_production.mw 2',
     'mw in entry 2 of piecewise_production of thermal unit "base "1"" is 10: it is below that of the row before, 20.'),
    ("[20, 10.5000001, 30, 0]", "[20, 10.5000001, 30, -1]", 'I5 renewable "wind\\\\3" power_output_maximum 4',
     'entry 4 of power_output_maximum of renewable unit "wind\\3" is -1: it is below the minimum, 0, or below 0.'),
    ("[60, 90.5, 120, 40]", "[60, 90.5, 120]", "I6 demand", "line 3, column 13: demand has 3 entries for 4 periods."),
    ('"time_periods": 4', '"time_periods": 169', "I7 time_periods", "time_periods is 169: at most 168 periods are taken."),
    ('{ "lag": 2, "cost": 100 }', ", ".join(['{"lag": 1, "cost": 500}'] * 16), 'I7 thermal "base \\"1\\"" startup', "has 17 rows, where at most 16 are taken."),
)
# a file, the byte, its kind, and what is told
TEXTS: Tuple[Tuple[bytes, int, str, str], ...] = (
    (b'{"a": "\xff"}', 7, "not UTF-8", "line 1, column 8, where \"\ufffd\"}\" stands: the bytes from here on are no UTF-8. Save the file as UTF-8."),
    (b"\x1f\x8b\x08", 1, "not UTF-8", "The file is compressed: unpack it first."),
    (b'\xef\xbb\xbf{}', 0, "no JSON", "The file begins with a byte order mark: save it without one."),
    (b'{"a": 1,\n "b": 2,\n}', 18, "no JSON", "line 3, column 1, where \"}\" stands: no JSON text goes on like this. A comma stands before a closing bracket."),
    (b'{"a": [1,, 2', 9, "no JSON", "A comma stands where a value is due."),
    (b'{"a": [1, 2', 11, "no JSON", "line 1, column 12, where the file ends: no JSON text goes on like this. The file is cut, or a closing"),
    ('{"ä": NaN}'.encode(), 7, "no JSON", "line 1, column 7, where \"NaN}\" stands: no JSON text goes on like this. JSON has no NaN and no Infinity."),
    (b'{"a": nan}', 7, "no JSON", "line 1, column 8, where \"an}\" stands"),
    (b"{'a': 1}", 1, "no JSON", "JSON has double quotes alone."),
    (b'{"a": 1 // one', 8, "no JSON", "JSON has no comments."),
    (b'{"a": 01}', 7, "no JSON", "A JSON number has no zeros in front."),
    (b'{"a": .5}', 6, "no JSON", "A JSON number begins with a digit or a minus"),
    (b'{"a": 1 "b": 2}', 8, "no JSON", "A comma or a colon may be missing before it."),
    (b'{"a": "x\ny"}', 8, "no JSON", "A line feed or another control character stands in a text"),
    (b"[" * 65, 64, "nested too deep", "line 1, column 65"),
    (b'{"a": 1,\r\n"a": 2}', 10, "key twice", "line 2, column 1, where \"\"a\": 2}\" stands: the object has this key already."),
    (b'{"a": "\\ud800"}', 7, "unpaired surrogate", "this escape is half of a pair, and the other half is missing."),
    (b"{}", 9, "no JSON", "byte 9, which the file"),
)
# an edit of coast.cert, the line, and what is told
CERTIFICATES = (
    ("bound 4793.333330", "bound 4793.333331", "C4 node 1",
     ('line 12: node 1 is "bound 1".', "Table 1 gives $4,793.33333 there, and $4,793.333331 are claimed.")),
    ("claim bound 4793.333330", "claim bound 4793.33333", "line 3: form", ("line 3: the line may not stand there. There stands \"claim bound 4793.33333\".",)),
    ("end\n", "end", "line 13: cut short", ("line 13: the file ends before this line does",)),
    ("end\n", "end\nx", "line 14: bytes after the end", ("line 14: something follows the line `end`",)),
    ("mu 0 0 3000000 0", "mu 0 0 -1 0", "C1 table 1", ("a number of table 1 is past its limit", "line 8: table 1; mu of period 3 is -1.")),
    ("50000000:5000000:0", "50000001:5000000:0", "C2 M14 period 2", ("breaks rule M14 in period 2: all outputs, and the demand",)),
    ("20000000 10500000", "20000001 10500000", "C2 M13 renewable 1 period 1", ('breaks rule M13 at renewable unit 1, "wind\\3", in period 1',)),
    ("schedule 5046.666668", "schedule 5046.666669", "C3 written 5046.666669 computed 5046.666668",
     ("the schedule's cost is written as $5,046.666669, and adds up to $5,046.666668.",)),
    ("claim bound 4793.333330", "claim infeasible", "C8", ("claim, schedule and leaves don't go together",)),
    ("bound 1\n", "empty 1\n", "C8", ("claim, schedule and leaves don't go together",)),
    ("bound 1\n", "split 1 1\nempty 1\nbound 1\n", "C6 node 2",
     ('line 13: node 2 is "empty 1".', 'On the way to it "base "1"" is off in hour 1.')),
    ("bound 1\n", "split 1 1\nsplit 1 1\nbound 1\nbound 1\nbound 1\n", "C7 node 2", ("node 2 splits on a unit and period that is decided", 'node 2 is "split 1 1".')),
    ("bound 1\n", "split 1 1\nray 1\nbound 1\n", "C5 node 2", ("says by a ray that no schedule is left there",)),
    ("size 4 2 1 1", "size 4 2 1 1", "C9", ("it is of another instance", "has 4 periods, 2 thermal units and 1 renewable units; ")),
    ("size 4 2 1 1", "size 4 2 1 1", "C10", ("with other prices of what may be short", "was made with no --shed and no --spill-reserve.")),
    ("size 4 2 1 1", "size 4 2 1 1", "C11", ("it holds, and has no schedule",)),
    ("size 4 2 1 1", "size 4 2 1 1", "C12", ("its schedule is over a denominator",)),
    ("size 4 2 1 1", "size 4 2 1 1", "C13", ("has no table of the number", "has 1 table.")),
    ("size 4 2 1 1", "size 4 2 1 1", "C14", ("this table is a ray",)),
)
USAGE = """usage: uc solve FILE --cert FILE [--units N] [--workers N] [--gap PPM] [--exact]
       uc check FILE CERT
       uc demo SEED
"""
# lines without a place, and what is told
PLAIN = (
    (USAGE, "`solve` wants an instance and --cert FILE; `check` and"),
    ("read failed: instance", "The instance: the file can't be opened or read"),
    ("read failed: certificate", "The certificate: the file can't be opened or read"),
    ("write failed: certificate", "The certificate's file can't be written"),
    ("write failed: output", "The report can't be written"),
    ("out of memory", "The system gave no more memory."),
    ("instance: more than 67108864 bytes", "longer than 67,108,864 bytes"),
    ("certificate: more than 70368744177664 bytes", "longer than 70,368,744,177,664 bytes"),
    ("uc-table: in.json: status 4: instance: I1 demand", "The instance is refused: demand is missing"),
    ("uc: this program is UNPROVED\ninstance: I1 demand", "The instance is refused: demand is missing"),
    ('instance: I4 thermal "g1" ramp_up_limit', 'ramp_up_limit of thermal unit "g1" is past its limit: a power is at most 10,000,000 MW in size.'),
    ("instance: I4 thermal g 1 ramp_up_limit", 'ramp_up_limit of thermal unit "g 1" is past its limit'),
    ('instance: I2 thermal "g1"', 'thermal unit "g1" is of another kind than wanted: it takes an object.'),
    ("instance: I2", "the whole value is of another kind than wanted: it takes an object."),
    ("instance: byte 7: no JSON", "at byte 7, counted from 0"),
    ("instance: I9", "may cost at most $2,000,000,000,000 together"),
    ("certificate: line 3: form", "Line 3 of the certificate: the line may not stand there."),
    ("certificate: C2 M7 thermal 1 period 1", "breaks rule M7 at thermal unit 1 in period 1: a unit is within its maximum"),
    ("certificate: C4 node 3", "the leaf at node 3 doesn't carry the claimed bound"),
)
OTHERS = ("", "x", "11", "instance: I0 demand", "instance: I4 demands", "certificate: C15", "certificate: C2 M7", "certificate: C4", "instance: byte x: no JSON")


class ExplainTest(unittest.TestCase):
    """Runs the command in a folder of its own."""

    def setUp(self) -> None:
        folder = tempfile.TemporaryDirectory()
        self.addCleanup(folder.cleanup)
        self.folder = pathlib.Path(folder.name)

    def put(self, name: str, data: bytes) -> str:
        """A file of the folder."""
        path = self.folder / name
        path.write_bytes(data)
        return str(path)

    def run_explain(self, *words: str, given: str = "") -> Tuple[int, str, str]:
        """The status, and what is said on both outputs."""
        out, err = io.StringIO(), io.StringIO()
        with contextlib.redirect_stdout(out), contextlib.redirect_stderr(err), unittest.mock.patch("sys.stdin", io.StringIO(given)):
            status = command.main(list(words))
        return status, out.getvalue(), err.getvalue()

    def told(self, *words: str, given: str = "") -> str:
        """What is told of lines that are explained."""
        status, out, err = self.run_explain(*words, given=given)
        self.assertEqual((status, err), (0, ""))
        return out

    def edited(self, path: pathlib.Path, old: str, new: str) -> bytes:
        """A file's bytes with a text that stands there replaced once."""
        text = path.read_text(encoding="utf-8")
        self.assertIn(old, text)
        return text.replace(old, new, 1).encode("utf-8")


class Instances(ExplainTest):
    def test_each_code_with_its_place(self) -> None:
        for old, new, line, wanted in INSTANCES:
            with self.subTest(line):
                data = self.edited(COAST, old, new)
                with self.assertRaisesRegex(check.Refused, "") as caught:
                    check.instance_of(check.json_of(data))
                self.assertEqual(str(caught.exception), f"instance: {line}")
                out = self.told(f"instance: {line}", "--instance", self.put("in.json", data))
                self.assertIn(wanted, out)
                self.assertEqual(len(out.splitlines()), 2, out)
                self.assertIn("Status 4: The instance was refused", out)

    def test_rounded_numbers(self) -> None:
        out = self.told('instance: I8 renewable "wind\\\\3" power_output_maximum 2', "--instance", str(COAST))
        self.assertIn("is 10.5000001, with more than six decimals: it would be read as 10.5, and --exact refuses that.", out)

    def test_prices_that_are_too_high(self) -> None:
        data = self.edited(COAST, "[60, 90.5, 120, 40]", "[9000000, 9000000, 9000000, 9000000]")
        out = self.told("instance: I9", "--instance", self.put("in.json", data))
        self.assertIn("36,000,000 MWh of demand and 25 MWh of reserve: --shed alone may be up to $55,555, and --spill-reserve alone up to $1,000,000.", out)

    def test_bytes_that_are_no_json(self) -> None:
        for data, at, kind, wanted in TEXTS:
            with self.subTest(data):
                out = self.told(f"instance: byte {at}: {kind}", "--instance", self.put("in.json", data))
                self.assertIn(wanted, out.replace("\n", " "))

    def test_files_of_other_runs(self) -> None:
        words = 'instance: I4 thermal "base \\"1\\"" ramp_up_limit', "--instance"
        self.assertIn("has no such fault: it isn't the one of that run.", self.told(*words, str(COAST)))
        other = self.put("in.json", self.edited(COAST, '"time_periods": 4', '"time_periods": 0'))
        self.assertIn("gives instance: I5 time_periods: it isn't the one of that run.", self.told(*words, other))
        self.assertIn("is no JSON text within the limits", self.told(*words, self.put("in.json", b"{")))
        self.assertIn('ramp_up_limit of thermal unit "g1" is missing', self.told('instance: I4 thermal "g1" ramp_up_limit', "--instance", str(COAST)))

    def test_values_are_found(self) -> None:
        text = '\n{"a\\u0062": [1, {"x]": "}\\""}, [ ]], "c": {}}'
        for steps, words, place in (
            ([], text.strip()[:60], "line 2, column 1"), (["ab"], '[1, {"x]": "}\\""}, [ ]]', "line 2, column 13"),
            (["ab", 1, "x]"], '"}\\""', "line 2, column 24"), (["ab", 2], "[ ]", "line 2, column 32"), (["c"], "{}", "line 2, column 43"),
        ):
            found = places.find(text, list(steps))[1]
            assert found is not None
            self.assertEqual((found.words, found.place), (words, place))
        self.assertIsNone(places.find(text, ["ab", 3])[1])


class Certificates(ExplainTest):
    def test_each_code_with_its_line(self) -> None:
        for old, new, line, wanted in CERTIFICATES:
            with self.subTest(line):
                certificate = self.put("in.cert", self.edited(CERTIFICATE, old, new))
                out = self.told(f"certificate: {line}", "--instance", str(COAST), "--certificate", certificate)
                for words in wanted:
                    self.assertIn(words, out)
                self.assertIn("Status 9: The certificate was refused.", out)

    def test_each_code_is_that_of_the_check(self) -> None:
        instance = check.instance_of(check.json_of(COAST.read_bytes()))
        check.penalize(instance, 0, 0)
        for old, new, line, _ in CERTIFICATES:
            if old != new:
                with self.subTest(line), self.assertRaises(check.Refused) as caught:
                    check.check(instance, check.certificate_of(self.edited(CERTIFICATE, old, new)))
                self.assertEqual(str(caught.exception), f"certificate: {line}")

    def test_files_of_other_runs(self) -> None:
        words = "--certificate", str(CERTIFICATE)
        self.assertIn("The file has no such fault", self.told("certificate: line 3: form", *words))
        self.assertIn("has no node 7: it isn't the one of that run.", self.told("certificate: C4 node 7", *words))
        self.assertIn("has no table 2: it isn't the one of that run.", self.told("certificate: C1 table 2", *words))
        self.assertIn("no number of it is past a limit", self.told("certificate: C1 table 1", *words))
        halves = str(HERE.parent / "examples/tests/halves.cert")
        self.assertIn(f"The denominator of {halves} is 2.", self.told("certificate: C12", "--certificate", halves))
        self.assertIn("A file that was given isn't the one of that run: ", self.told("certificate: C4 node 1", "--certificate", str(COAST)))


class Lines(ExplainTest):
    def test_lines_without_a_place(self) -> None:
        for line, wanted in PLAIN:
            with self.subTest(line):
                self.assertIn(wanted, self.told(line))
                self.assertIn(wanted, self.told(given=line))

    def test_each_status(self) -> None:
        for number, text in texts.STATUSES.items():
            for words in ([str(number)], ["status", str(number)]):
                self.assertEqual(self.told(*words), f"Status {number}: {text}\n")
        self.assertEqual(sorted(texts.STATUSES), list(range(11)))

    def test_each_code_has_a_sentence(self) -> None:
        self.assertEqual(sorted(texts.INSTANCE_CODES), [f"I{n}" for n in range(1, 10)])
        self.assertEqual(set(texts.CERTIFICATE_CODES), {f"C{n}" for n in range(1, 15)})
        self.assertEqual(set(texts.RULES), {f"M{n}" for n in range(1, 18)})

    def test_several_lines(self) -> None:
        out = self.told(given="instance: I1 demand\n\nout of memory\n")
        self.assertEqual(out.count("Status"), 2)

    def test_other_lines_are_refused(self) -> None:
        for line in OTHERS:
            with self.subTest(line):
                status, out, err = self.run_explain(given=line)
                self.assertEqual((status, out, err.count("\n")), (1, "", 1))
        self.assertIn("can't be read", self.run_explain("3", "--instance", str(self.folder / "no"))[2])


if __name__ == "__main__":
    unittest.main()
