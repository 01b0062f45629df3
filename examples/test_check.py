#!/usr/bin/env python3
"""Tests `check.py` on the certificates of `tests/`, as they stand and changed.

    python3 examples/test_check.py [PROGRAM]     # at the top of the repository; with PROGRAM `uc check` has to answer the same

Each row below has an instance, a certificate, and the verdict that docs/ wants of them; a changed row has a text that stands once in
the certificate, or in the instance, and what stands there instead.
"""
import pathlib
import subprocess
import sys
import tempfile
import unittest

sys.dont_write_bytecode = True
HERE = pathlib.Path(__file__).resolve().parent
TOP, STORED = HERE.parent, HERE / "tests"
sys.path.insert(0, str(HERE))

import check  # noqa: E402

INFEASIBLE = "accepted infeasible"

AS_THEY_STAND = [
    ("two_units", "two_units", "accepted cost 2520.000000 bound 2520.000000"),
    ("two_units", "two_units_found", "accepted cost 2520.000000 bound 2519.999120"),
    ("starts", "starts", "accepted cost 540.000000 bound 540.000000"),
    ("starts", "starts_by_changes", "accepted cost 540.000000 bound 540.000000"),
    ("idle", "idle", "accepted cost 280.000000 bound 280.000000"),
    ("floor", "floor", "accepted cost 0.000000 bound -0.000004"),
    ("watts", "watts", "accepted cost 0.000001 bound 0.000000"),
    ("too_much", "too_much", INFEASIBLE),
    ("slow_fall", "slow_fall", "accepted bound 150.000000"),
    ("halves", "halves", "accepted cost 500.000000 bound 0.000000"),
    ("starts", "idle", "certificate: C9"),
    ("../../crates/uc/data/row1", "../../crates/uc/data/row1", "accepted cost 300.000000 bound 300.000000"),
    ("../kazarlis10", "../../view/tests/kazarlis10", "accepted cost 564014.181769 bound 559260.301794"),
    ("../../view/tests/coast", "../../view/tests/coast", "accepted cost 5046.666668 bound 4793.333330"),
]

# The certificate of the instance, with a change.
CHANGED_CERTIFICATES = [
    # what is claimed
    ("two_units", "bound 2520.000000", "bound 2519.999999", "accepted cost 2520.000000 bound 2519.999999"),
    ("two_units", "bound 2520.000000", "bound 2520.000001", "certificate: C4 node 3"),
    ("floor", "bound -0.000004", "bound -0.000003", "certificate: C4 node 1"),
    ("watts", "bound 0.000000", "bound 0.000001", "certificate: C4 node 1"),
    ("starts", "bound 540.000000", "bound 540.000001", "certificate: C4 node 6"),
    ("idle", "bound 280.000000", "bound 280.000001", "certificate: C4 node 4"),
    ("too_much", "claim infeasible", "claim bound 0.000000", "certificate: C8"),
    ("two_units", "claim bound 2520.000000", "claim infeasible", "certificate: C8"),
    # the size and the tables
    ("two_units", "size 2 2 0 1\n", "size 2 2 1 1\n", "certificate: line 7: form"),
    ("two_units", "table 5", "table 0", "certificate: C4 node 3"),
    ("two_units", "table 5", "table 1000000000", "certificate: C4 node 3"),
    ("two_units", "table 5", "table 1000000001", "certificate: C1 table 1"),
    ("two_units", "pi 23 147", "pi 23 100000000000000", "certificate: C4 node 3"),
    ("two_units", "pi 23 147", "pi 23 -100000000000001", "certificate: C1 table 1"),
    ("two_units", "mu 0 22", "mu -1 22", "certificate: C1 table 1"),
    ("two_units", "ramp 1 2 62 0", "ramp 1 2 62 -1", "certificate: C1 table 1"),
    ("two_units", "ramp 1 2 62 0", "ramp 1 2 61 0", "certificate: C4 node 3"),
    # the schedule
    ("two_units", "t 30000000:5000000:0 40", "t - 40", "certificate: C2 M2 thermal 1 period 1"),
    ("two_units", "t 30000000:5000000:0", "t 30000000:6000000:0", "certificate: C2 M11 thermal 1 period 1"),
    ("two_units", "40000000:0:0", "51000000:0:0", "certificate: C2 M8 thermal 1 period 2"),
    ("two_units", "40000000:0:0", "40000000:-1:0", "certificate: C2 M8 thermal 1 period 2"),
    ("two_units", "40000000:0:0", "40000000:0:1", "certificate: C2 M6 thermal 1 period 2"),
    ("two_units", "40000000:0:0", "40000000:1:0", "certificate: C2 M11 thermal 1 period 2"),
    ("two_units", "40000000:0:0", "4999999:0:0", "certificate: C2 M12 thermal 1 period 2"),
    ("two_units", "40000000:0:0", "39999999:0:0", "certificate: C2 M14 period 2"),
    ("two_units", "10000000:5000000:1", "10000000:5000001:1", "certificate: C2 M9 thermal 2 period 2"),
    ("two_units", "10000000:5000000:1", "10000000:4999999:1", "certificate: C2 M15 period 2"),
    ("two_units", "10000000:5000000:1", "10000000:5000000:0", "certificate: C2 M6 thermal 2 period 2"),
    ("two_units", "10000000:5000000:1", "10000000:5000000:2", "certificate: C3 written 2520.000000 computed 2550.000000"),
    ("two_units", "schedule 2520.000000", "schedule 2519.999999", "certificate: C3 written 2519.999999 computed 2520.000000"),
    ("starts", "t 0:0:0 -", "t 1:0:0 -", "certificate: C2 M10 thermal 1 period 1"),
    ("starts", "t 0:0:0 - 10000000:0:2", "t - 0:0:2 -", "certificate: C2 M4 thermal 1 period 3"),
    ("starts", "10000000:0:2", "10000000:0:1", "certificate: C2 M6 thermal 1 period 3"),
    ("idle", "t -", "t 0:0:1", "certificate: C2 M3 thermal 1 period 1"),
    ("idle", "10000000:0:2", "10000000:0:1", "certificate: C2 M6 thermal 1 period 2"),
    ("floor", "w 10", "w -1", "certificate: C2 M13 renewable 1 period 1"),
    ("floor", "w 10", "w 5000001", "certificate: C2 M13 renewable 1 period 1"),
    ("watts", "schedule 0.000001", "schedule 0.000000", "certificate: C3 written 0.000000 computed 0.000001"),
    # the tree
    ("two_units", "empty 1", "empty 2", "certificate: C6 node 2"),
    ("two_units", "empty 1", "bound 1", "accepted cost 2520.000000 bound 2520.000000"),
    ("two_units", "empty 1", "ray 1", "certificate: C5 node 2"),
    ("two_units", "empty 1\n", "split 1 1\nempty 1\nempty 1\n", "certificate: C7 node 2"),
    ("two_units", "split 1 1\nempty 1\nbound 1", "bound 1", "accepted cost 2520.000000 bound 2520.000000"),
    ("two_units", "split 1 1\nempty 1\nbound 1", "empty 1", "certificate: C8"),
    ("too_much", "ray 1\nray 2", "ray 2\nray 1", "certificate: C5 node 2"),
    ("too_much", "ray 2", "bound 2", "certificate: C8"),
    ("starts", "bound 3\nray 4", "ray 4\nbound 3", "certificate: C5 node 6"),
    # the lines
    ("two_units", "uc-certificate 1", "uc-certificate 3", "accepted cost 2520.000000 bound 2520.000000"),
    ("two_units", "uc-certificate 1", "uc-certificate 4", "certificate: line 1: form"),
    ("halves", "uc-certificate 3", "uc-certificate 03", "certificate: line 1: form"),
    ("two_units", "size 2 2", "size 2 02", "certificate: line 2: form"),
    ("two_units", "bound 2520.000000", "bound 2520.00000", "certificate: line 3: form"),
    ("two_units", "t - ", "t  - ", "certificate: line 6: form"),
    ("two_units", "5000000:1", "5000000:256", "certificate: line 6: form"),
    ("two_units", "mu 0 22", "mu -0 22", "certificate: line 9: form"),
    ("two_units", "mu 0 22", "mu 0 22 0", "certificate: line 9: form"),
    ("two_units", "ramps 1", "ramps 2", "certificate: line 12: form"),
    ("two_units", "ramps 1", "ramps 0", "certificate: line 11: form"),
    ("two_units", "62 0", "0 0", "certificate: line 11: form"),
    ("two_units", "split 1 1", "split 3 1", "certificate: line 12: form"),
    ("two_units", "bound 1\nend", "bound 2\nend", "certificate: line 14: form"),
    ("two_units", "end\n", "end", "certificate: line 15: cut short"),
    ("two_units", "end\n", "", "certificate: line 15: cut short"),
    ("two_units", "end\n", "end\n\n", "certificate: line 16: bytes after the end"),
]

# The instance, with a change, beside its certificate.
CHANGED_INSTANCES = [
    ("two_units", '"must_run": 0, "power_output_minimum": 10', '"must_run": 1, "power_output_minimum": 10', "certificate: C2 M1 thermal 2 period 1"),
    ("two_units", '"power_output_t0": 45', '"power_output_t0": 70.000001', "certificate: C2 M7 thermal 1 period 1"),
    ("starts", '"time_down_minimum": 1', '"time_down_minimum": 2', "certificate: C2 M5 thermal 1 period 3"),
    ("starts", '"time_down_t0": 2', '"time_down_t0": 1', "certificate: C4 node 6"),
    ("floor", "0.00001", "1E-5", "accepted cost 0.000000 bound -0.000004"),
    ("floor", "0.00001", "0.0000104999", "accepted cost 0.000000 bound -0.000004"),
    ("floor", "0.00001", "0.0000105", "certificate: C2 M14 period 1"),
    ("floor", "[-1]", "[6]", 'instance: I5 renewable "wind" power_output_maximum 1'),
    ("floor", "[5]", "[]", 'instance: I6 renewable "wind" power_output_maximum'),
    ("two_units", '"time_periods": 2', '"time_periods": 169', "instance: I7 time_periods"),
    ("two_units", "[50, 80]", "[50]", "instance: I6 demand"),
    ("two_units", "[5, 5]", "[5, null]", "instance: I2 reserves 2"),
    ("two_units", '"time_up_t0": 1', '"time_up_t0": 1.5', 'instance: I3 thermal "coal" time_up_t0'),
    ("two_units", '{"mw": 70,', '{"mw": 39,', 'instance: I5 thermal "coal" piecewise_production.mw 3'),
    ("two_units", '{"lag": 3, ', "{", 'instance: I1 thermal "gas" startup.lag 2'),
    ("two_units", '"cost": 90}', '"cost": 5000000.000001}', 'instance: I4 thermal "gas" startup.cost 2'),
]

# `starts_by_changes.cert`, whose tables behind the first are told by their differences, with a change, beside its instance.
CHANGED_DIFFERENCES = [
    ("next 0 3\np 1 0\n", "next 0 2\n", "certificate: C5 node 7"),
    ("next 1 2\np 1 10\np 3 10", "next 1 5\np 1 10\np 3 10\nr 1 1 0 1\nr 1 2 1 0\nr 1 3 2 2", "certificate: C4 node 6"),
    ("next 1 2", "next 1000000001 2", "certificate: C1 table 3"),
    ("p 1 10", "p 1 100000000000001", "certificate: C1 table 3"),
    # the lines
    ("uc-certificate 2", "uc-certificate 1", "certificate: line 10: form"),
    ("p 1 10\np 3 10\n", "m 1 5\nm 2 5\n", "certificate: line 17: form"),
    ("table 0", "next 0 0", "certificate: line 6: form"),
    ("next 0 2", "table 0", "certificate: line 10: form"),
    ("next 0 2", "next 0 02", "certificate: line 10: form"),
    ("next 0 2", "next 0 1", "certificate: line 12: form"),
    ("next 0 2", "next 0 3", "certificate: line 13: form"),
    ("p 1 0\np 3 1\n", "p 3 1\np 1 0\n", "certificate: line 12: form"),
    ("p 3 1\n", "p 3 0\n", "certificate: line 12: form"),
    ("p 3 1\n", "p 4 1\n", "certificate: line 12: form"),
    ("p 3 1\n", "p 1 1\n", "certificate: line 12: form"),
    ("p 3 1\n", "m 3 0\n", "certificate: line 12: form"),
    ("p 3 1\n", "r 1 3 0 0\n", "certificate: line 12: form"),
    ("p 3 1\n", "r 2 3 1 0\n", "certificate: line 12: form"),
    ("p 3 1\n", "p 3 +1\n", "certificate: line 12: form"),
    ("p 1 0\np 3 1\n", "m 1 2\np 3 1\n", "certificate: line 12: form"),
    ("p 1 0\np 3 1\n", "r 1 1 0 2\nm 3 1\n", "certificate: line 12: form"),
]


# The schedule of `halves.cert`, with other text in its place.
DIVIDED = [
    ("over 2", "over 3", "certificate: C2 M14 period 1"),
    ("t 9999999:", "t 10000000:", "certificate: C2 M14 period 1"),
    ("500.000000 over 2", "500.000001 over 2", "certificate: C3 written 500.000001 computed 500.000000"),
    (" over 2", "", "certificate: C2 M14 period 1"),
    # costs of thirds of a watt are rounded up, each
    ("500.000000 over 2\nt 10000001:0:0\nt 9999999", "500.000001 over 3\nt 15000001:0:0\nt 14999999",
     "accepted cost 500.000001 bound 0.000000"),
    ("over 2\nt 10000001:0:0\nt 9999999", "over 3\nt 15000001:0:0\nt 14999999", "certificate: C3 written 500.000000 computed 500.000001"),
    # all limits are as often as great
    ("over 2\nt 10000001:0:0\nt 9999999", "over 99\nt 990000000:0:0\nt 0", "accepted cost 500.000000 bound 0.000000"),
    ("t 10000001:0:0\nt 9999999", "t 80000001:0:0\nt -60000001", "certificate: C2 M8 thermal 1 period 1"),
    ("t 10000001:0", "t 10000001:-1", "certificate: C2 M8 thermal 1 period 1"),
    ("t 10000001:0", "t 10000001:69999999", "accepted cost 500.000000 bound 0.000000"),
    ("t 10000001:0", "t 10000001:70000000", "certificate: C2 M9 thermal 1 period 1"),
    # the lines
    ("uc-certificate 3", "uc-certificate 2", "certificate: line 4: form"),
    ("uc-certificate 3", "uc-certificate 1", "certificate: line 4: form"),
    ("over 2", "over 1", "certificate: line 4: form"),
    ("over 2", "over 100", "certificate: line 4: form"),
    ("over 2", "over 02", "certificate: line 4: form"),
    ("over 2", "over -2", "certificate: line 4: form"),
    ("over 2", "over", "certificate: line 4: form"),
    ("500.000000 over", "none over", "certificate: line 4: form"),
]

# `slow_fall.json` and `slow_fall.cert`, whose leaf is by the exact value, each with changes.
EXACT = [
    ([], [("150.000000", "150.000001")], "certificate: C4 node 1"),
    ([], [("table 1000000", "table 0")], "certificate: C4 node 1"),
    ([], [("exact 1", "bound 1")], "certificate: C4 node 1"),
    ([], [("exact 1", "bound 1"), ("150.000000", "0.000000")], "accepted bound 0.000000"),
    ([('ramp_down_limit": 5,', 'ramp_down_limit": 40,')], [], "certificate: C4 node 1"),
    ([('ramp_down_limit": 5,', 'ramp_down_limit": 40,')], [("150.000000", "0.000000")], "accepted bound 0.000000"),
    ([], [("exact 1", "exact-ray 1")], "certificate: C8"),
    ([], [("exact 1", "exact-empty 1")], "certificate: C8"),
    ([], [("claim bound 150.000000", "claim infeasible")], "certificate: C8"),
    # off it has a pattern, but no schedule of its own
    ([], [("exact 1", "split 1 1\nexact-empty 1\nexact 1")], "accepted bound 150.000000"),
    ([], [("exact 1", "split 1 1\nexact 1\nexact 1")], "accepted bound 150.000000"),
    ([], [("exact 1", "split 1 1\nempty 1\nexact 1")], "certificate: C6 node 2"),
    ([], [("exact 1", "split 1 1\nexact 1\nexact-empty 1")], "certificate: C6 node 3"),
    ([], [("exact 1", "split 1 1\nexact-ray 1\nexact 1")], "certificate: C5 node 2"),
    ([], [("exact 1", "split 1 1\nbound 1\nexact 1")], "certificate: C4 node 2"),
    ([], [("exact 1", "split 1 1\nexact-empty 1\nsplit 1 1\nexact-empty 1\nexact 1")], "certificate: C7 node 3"),
    # 15 MW at $8 a MWh lose $30; with reserve at $1 a MW beside them 25 MW more earn $5, and 7 MW where 12 MW are the rise
    ([], [("pi 0", "pi 8000000"), ("150.000000", "270.000000")], "accepted bound 270.000000"),
    ([], [("pi 0", "pi 8000000"), ("150.000000", "270.000001")], "certificate: C4 node 1"),
    ([], [("pi 0", "pi 8000000"), ("mu 0", "mu 1000000"), ("150.000000", "235.000000")], "accepted bound 235.000000"),
    ([], [("pi 0", "pi 8000000"), ("mu 0", "mu 1000000"), ("150.000000", "235.000001")], "certificate: C4 node 1"),
    ([('ramp_up_limit": 40', 'ramp_up_limit": 12')], [("pi 0", "pi 8000000"), ("mu 0", "mu 1000000"), ("150.000000", "253.000000")],
     "accepted bound 253.000000"),
    ([('ramp_up_limit": 40', 'ramp_up_limit": 12')], [("pi 0", "pi 8000000"), ("mu 0", "mu 1000000"), ("150.000000", "253.000001")],
     "certificate: C4 node 1"),
    # at the scale 1 a slope of $10 for 3 MW is rounded down; of both values with their ramps the greater counts
    ([('ramp_down_limit": 5,', 'ramp_down_limit": 7,'), ('"mw": 50, "cost": 500', '"mw": 13, "cost": 110')],
     [("table 1000000", "table 1"), ("150.000000", "109.000000")], "accepted bound 109.000000"),
    ([('ramp_down_limit": 5,', 'ramp_down_limit": 7,'), ('"mw": 50, "cost": 500', '"mw": 13, "cost": 110')],
     [("table 1000000", "table 1"), ("150.000000", "109.000001")], "certificate: C4 node 1"),
    ([('ramp_down_limit": 5,', 'ramp_down_limit": 7,'), ('"mw": 50, "cost": 500', '"mw": 13, "cost": 110'), ('must_run": 0', 'must_run": 1')],
     [("table 1000000", "table 1"), ("ramps 0", "ramps 1\nramp 1 1 0 4"), ("150.000000", "110.000000")], "accepted bound 110.000000"),
    ([('ramp_down_limit": 5,', 'ramp_down_limit": 7,'), ('"mw": 50, "cost": 500', '"mw": 13, "cost": 110'), ('must_run": 0', 'must_run": 1')],
     [("table 1000000", "table 1"), ("ramps 0", "ramps 1\nramp 1 1 0 4"), ("150.000000", "110.000001")], "certificate: C4 node 1"),
    # a stop in the second of two hours: for it 15 MW in the first are enough
    ([('"time_periods": 1', '"time_periods": 2'), ("[30]", "[30, 30]"), ("[0]", "[0, 0]")],
     [("size 1", "size 2"), ("pi 0", "pi 0 0"), ("mu 0", "mu 0 0")], "accepted bound 150.000000"),
    ([('"time_periods": 1', '"time_periods": 2'), ("[30]", "[30, 30]"), ("[0]", "[0, 0]")],
     [("size 1", "size 2"), ("pi 0", "pi 0 0"), ("mu 0", "mu 0 0"), ("150.000000", "150.000001")], "certificate: C4 node 1"),
    # 15 MW at least are more than 5 MW, and no more than 15 MW
    ([("[30]", "[5]")],
     [("claim bound 150.000000", "claim infeasible"), ("table 1000000", "table 0"), ("pi 0", "pi -1"), ("exact 1", "exact-ray 1")],
     INFEASIBLE),
    ([("[30]", "[5]")],
     [("claim bound 150.000000", "claim infeasible"), ("table 1000000", "table 0"), ("pi 0", "pi -1"), ("exact 1", "ray 1")],
     "certificate: C5 node 1"),
    ([("[30]", "[15]")],
     [("claim bound 150.000000", "claim infeasible"), ("table 1000000", "table 0"), ("pi 0", "pi -1"), ("exact 1", "exact-ray 1")],
     "certificate: C5 node 1"),
    # it can't fall below 15 MW, and gives 12 MW at most
    ([('"mw": 50, "cost": 500', '"mw": 12, "cost": 120')], [("claim bound 150.000000", "claim infeasible"), ("exact 1", "exact-empty 1")], INFEASIBLE),
    ([('"mw": 50, "cost": 500', '"mw": 12, "cost": 120')], [("claim bound 150.000000", "claim infeasible"), ("exact 1", "empty 1")],
     "certificate: C6 node 1"),
    ([('"mw": 50, "cost": 500', '"mw": 12, "cost": 120')], [("150.000000", "999999.000000")], "accepted bound 999999.000000"),
    # the lines
    ([], [("uc-certificate 3", "uc-certificate 2")], "certificate: line 9: form"),
    ([], [("uc-certificate 3", "uc-certificate 1")], "certificate: line 9: form"),
    ([], [("exact 1", "exact 2")], "certificate: line 9: form"),
    ([], [("exact 1", "exact-ray 2")], "certificate: line 9: form"),
    ([], [("exact 1", "exact-empty 2")], "certificate: line 9: form"),
    ([], [("exact 1", "exact 01")], "certificate: line 9: form"),
    ([], [("exact 1", "exact-bound 1")], "certificate: line 9: form"),
    ([], [("exact 1", "exact-split 1 1")], "certificate: line 9: form"),
    ([], [("schedule none", "schedule none over 2")], "certificate: line 4: form"),
]


SHED, BOTH = "--shed 100", "--shed 100 --spill-reserve 20"

# `short.json` beside a certificate of it, checked with options; each change of the certificate is a text and what stands there instead.
WITH_PRICES = [
    (SHED, "short", [], "accepted cost 1950.000000 bound 1950.000000"),
    ("--shed=100", "short", [], "accepted cost 1950.000000 bound 1950.000000"),
    (BOTH, "short_of_both", [], "accepted cost 1600.000000 bound 1600.000000"),
    # over a denominator of 2: $99 for half a megawatt-hour and for half a watt more, which is rounded up
    ("--shed 99", "short_by_halves", [], "accepted cost 1935.000045 bound 1935.000000"),
    ("--shed 99", "short_by_halves", [("1935.000045", "1935.000044")], "certificate: C3 written 1935.000044 computed 1935.000045"),
    ("--shed 99", "short_by_halves", [("d 30000001", "d 30000000")], "certificate: C2 M14 period 1"),
    ("--shed 99", "short_by_halves", [("10000000:0", "9999999:0")], "certificate: C2 M15 period 1"),
    ("--shed 99", "short_by_halves", [("t 69999999:10000000:0", "t -:"), ("d 30000001", "d 120000001")], "certificate: line 6: form"),
    ("--shed 99", "short_by_halves", [("e 0", "e 1")], "certificate: C2 M17 period 1"),
    # the prices
    ("", "short", [], "certificate: C10"),
    ("--shed 99", "short", [], "certificate: C10"),
    ("--spill-reserve 100", "short", [], "certificate: C10"),
    (BOTH, "short", [], "certificate: C10"),
    (SHED, "short_of_both", [], "certificate: C10"),
    (SHED, "short", [("penalty 100 0\n", ""), ("d 15000000\ne 0\n", "")], "certificate: C10"),
    (SHED, "short", [("size 1 1 0", "size 2 1 0"), ("0:0\nd", "0:0 -\nd"), ("d 15000000\ne 0", "d 15000000 0\ne 0 0"),
                     ("100000000", "0 0"), ("90000000", "0 0")], "certificate: C9"),
    ("--shed 99", "short", [("pi 1", "pi 900000000")], "certificate: C10"),
    (SHED, "short", [("pi 1", "pi 900000000")], "certificate: C1 table 1"),
    ("--shed 200000000", "short", [], check.USAGE),
    ("--shed 0", "short", [], check.USAGE),
    # the rules, and the cost
    (SHED, "short", [("35000000:", "34999999:")], "certificate: C2 M14 period 1"),
    (SHED, "short", [("d 15000000", "d 14999999")], "certificate: C2 M14 period 1"),
    (SHED, "short", [("35000000:5", "35000000:4")], "certificate: C2 M15 period 1"),
    (SHED, "short", [("e 0", "e 1")], "certificate: C2 M17 period 1"),
    (SHED, "short", [("e 0", "e -1"), ("5000000:0", "5000001:0"), ("35000000", "34999999"), ("d 15000000", "d 15000001")],
     "certificate: C2 M17 period 1"),
    (SHED, "short", [("t 35000000:5000000:0", "t -"), ("d 15000000", "d 60000001")], "certificate: C2 M14 period 1"),
    ("--spill-reserve 20", "short", [("penalty 100 0", "penalty 0 20")], "certificate: C2 M16 period 1"),
    (BOTH, "short_of_both", [("e 5000000", "e 4999999")], "certificate: C2 M15 period 1"),
    (BOTH, "short_of_both", [("e 5000000", "e 5000001")], "certificate: C2 M17 period 1"),
    (BOTH, "short_of_both", [("t 40000000:0:0", "t -"), ("d 10000000", "d 60000000"), ("schedule 1600", "schedule 6100")],
     "accepted cost 6100.000000 bound 1600.000000"),
    (SHED, "short", [("schedule 1950", "schedule 450")], "certificate: C3 written 450.000000 computed 1950.000000"),
    (BOTH, "short_of_both", [("schedule 1600", "schedule 1500")], "certificate: C3 written 1500.000000 computed 1600.000000"),
    # the value
    (SHED, "short", [("bound 1950.000000", "bound 1950.000001")], "certificate: C4 node 1"),
    (BOTH, "short_of_both", [("bound 1600.000000", "bound 1600.000001")], "certificate: C4 node 1"),
    (SHED, "short", [("pi 100000000", "pi 110000000"), ("bound 1950", "bound 1450")], "accepted cost 1950.000000 bound 1450.000000"),
    (SHED, "short", [("pi 100000000", "pi 110000000"), ("bound 1950.000000", "bound 1450.000001")], "certificate: C4 node 1"),
    (BOTH, "short_of_both", [("mu 90", "mu 20")], "accepted cost 1600.000000 bound 1600.000000"),
    (SHED, "short", [("bound 1950.000000", "infeasible"), ("schedule 1950.000000", "schedule none"), ("t 35000000:5000000:0\nd 15000000\ne 0\n", ""),
                     ("table 1000000", "table 0"), ("pi 100000000", "pi 1"), ("mu 90000000", "mu 0"), ("bound 1\n", "ray 1\n")],
     "certificate: C5 node 1"),
    # the lines
    (SHED, "short", [("penalty 100 0", "penalty 0 0")], "certificate: line 4: form"),
    (SHED, "short", [("penalty 100 0", "penalty 100")], "certificate: line 4: form"),
    (SHED, "short", [("penalty 100 0", "penalty 100 1000001")], "certificate: line 4: form"),
    (SHED, "short", [("penalty 100 0", "penalty 100 -1")], "certificate: line 4: form"),
    (SHED, "short", [("penalty 100 0", "penalty 100 0\npenalty 100 0")], "certificate: line 5: form"),
    (SHED, "short", [("penalty 100 0\n", "")], "certificate: line 6: form"),
    (SHED, "short", [("d 15000000\n", "")], "certificate: line 7: form"),
    (SHED, "short", [("d 15000000", "d 15000000 0")], "certificate: line 7: form"),
    (SHED, "short", [("e 0\n", "")], "certificate: line 8: form"),
    (SHED, "short", [("e 0", "e")], "certificate: line 8: form"),
]

# Of an instance that is like `short.json` but for a text, checked with options beside `short.cert`.
INSTANCES_WITH_PRICES = [
    ("--shed 1000000", "60", "1000000", "certificate: C10"),
    ("--shed 1000000", "60", "2000000", "certificate: C10"),
    ("--shed 1000000", "60", "2000000.000001", "instance: I9"),
    (f"{SHED} --spill-reserve 400000", "[5]", "[5000000]", "instance: I9"),
    ("--spill-reserve 1000000", "60", "2000001", "certificate: C10"),
    (SHED, "60", "10000000.000001", "instance: I4 demand 1"),
    ("--shed 1000000", '[60],\n  "reserves": [5]', '[3000000],\n  "reserves": []', "instance: I6 reserves"),
    (SHED, "[5]", "[-5]", "certificate: C4 node 1"),
]


def changed(name, *changes):
    text = (STORED / name).read_bytes()
    for old, new in changes:
        if text.count(old.encode()) != 1:
            raise AssertionError(f"{name}: {old!r} doesn't stand there once")
        text = text.replace(old.encode(), new.encode())
    return text


def cases():
    for instance, certificate, verdict in AS_THEY_STAND:
        yield "", changed(f"{instance}.json"), changed(f"{certificate}.cert"), verdict
    for name, old, new, verdict in CHANGED_CERTIFICATES:
        yield "", changed(f"{name}.json"), changed(f"{name}.cert", (old, new)), verdict
    for old, new, verdict in CHANGED_DIFFERENCES:
        yield "", changed("starts.json"), changed("starts_by_changes.cert", (old, new)), verdict
    for old, new, verdict in DIVIDED:
        yield "", changed("halves.json"), changed("halves.cert", (old, new)), verdict
    for instance, certificate, verdict in EXACT:
        yield "", changed("slow_fall.json", *instance), changed("slow_fall.cert", *certificate), verdict
    for name, old, new, verdict in CHANGED_INSTANCES:
        yield "", changed(f"{name}.json", (old, new)), changed(f"{name}.cert"), verdict
    for options, name, changes, verdict in WITH_PRICES:
        yield options, changed("short.json"), changed(f"{name}.cert", *changes), verdict
    for options, old, new, verdict in INSTANCES_WITH_PRICES:
        yield options, changed("short.json", (old, new)), changed("short.cert"), verdict


def status_of(verdict):
    return {"a": 0, "i": 4, "u": 5, "c": 9}[verdict[0]]


class Verdicts(unittest.TestCase):
    def answer(self, command, options, instance, certificate):
        with tempfile.TemporaryDirectory() as folder:
            files = pathlib.Path(folder, "instance.json"), pathlib.Path(folder, "written.cert")
            for file, content in zip(files, (instance, certificate)):
                file.write_bytes(content)
            ran = subprocess.run([*command, *options.split(), *files], capture_output=True, text=True)
        self.assertEqual("", ran.stderr if ran.returncode == 0 else ran.stdout)
        return ran.returncode, " ".join((ran.stdout + ran.stderr).splitlines())

    def test_verdicts(self):
        commands = [[sys.executable, HERE / "check.py"], *([it, "check"] for it in PROGRAMS)]
        for options, instance, certificate, verdict in cases():
            for command in commands:
                with self.subTest(command=command, options=options, verdict=verdict, certificate=certificate):
                    status, answer = self.answer(command, options, instance, certificate)
                    # each program has a usage of its own
                    self.assertEqual((status_of(verdict), verdict), (status, verdict if status == 5 else answer))

    def test_bytes_that_are_no_json(self):
        text = (STORED / "floor.json").read_bytes()
        for bad in (text[:-3], b"\xef\xbb\xbf" + text, text.replace(b"5]", b"05]"), text.replace(b"wind", b"\\ud800"), text.replace(b"5]", b"NaN]"),
                    text.replace(b'"reserves"', b'"demand"'), b"[" * 65 + b"]" * 65, text.replace(b"wind", b"\xff"), b"[" * 10**5):
            with self.subTest(text=bad[:80]), self.assertRaises(check.Refused) as refused:
                check.json_of(bad)
            self.assertEqual(4, refused.exception.status)

    def test_files_that_are_missing(self):
        with self.assertRaisesRegex(check.Refused, "read failed: instance"):
            check.verdict([str(STORED / "none.json"), str(STORED / "floor.cert")])
        with self.assertRaisesRegex(check.Refused, "read failed: certificate"):
            check.verdict([str(STORED / "floor.json"), str(STORED / "none.cert")])


PROGRAMS = []

if __name__ == "__main__":
    PROGRAMS = [str(pathlib.Path(it).resolve()) for it in sys.argv[1:]]
    unittest.main(argv=sys.argv[:1])
