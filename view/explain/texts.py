"""What statuses, codes, rules and fields mean, each in a sentence or a part of one."""
from __future__ import annotations

STATUSES = {
    0: "The answer is there: of `solve` and `demo` a schedule whose gap is within what was asked for, of `check` a certificate that holds, "
       "of `roll` a schedule of all periods.",
    1: "A schedule was found, the budget is spent, and the gap is larger than was asked for. Raise --units or --gap.",
    2: "The budget is spent and no schedule was found; whether there is one stays open. The report's last line has a hint: "
       "`view/uc-why INSTANCE REPORT` tells what it means. Raise --units, or give --shed and --spill-reserve.",
    3: "No schedule exists, and the certificate has the reason: `view/uc-why INSTANCE CERT` puts it into words.",
    4: "The instance was refused, and nothing was written.",
    5: "The words are none that the program takes, and nothing was read.",
    6: "A file couldn't be read, and nothing was written.",
    7: "The certificate's file or the output couldn't be written.",
    8: "Memory was refused, and no answer is there.",
    9: "The certificate was refused.",
    10: "The windows of `roll` came to one without a schedule; its line tells which. Take longer windows, shorter steps or a larger budget.",
}

JSON_KINDS = {
    "not UTF-8": "the bytes from here on are no UTF-8",
    "no JSON": "no JSON text goes on like this",
    "nested too deep": "this bracket opens level 65, and at most 64 are taken",
    "key twice": "the object has this key already",
    "unpaired surrogate": "this escape is half of a pair, and the other half is missing",
}

# what a field is, and which values it takes
FIELDS = {
    "time_periods": ("the number of periods", "a whole number from 1 to 168"),
    "demand": ("demand by period, in MW", "an array with a number for each period"),
    "reserves": ("the reserve needed by period, in MW", "an array with a number for each period"),
    "thermal_generators": ("the thermal units by name", "an object"),
    "renewable_generators": ("the renewable units by name", "an object"),
    "must_run": ("whether the unit has to be on in every period", "0 or 1"),
    "power_output_minimum": ("the least output while on, in MW", "a number from 0"),
    "power_output_maximum": ("the greatest output, in MW", "a number not below the minimum"),
    "ramp_up_limit": ("the most that output rises in an hour, in MW", "a number from 0"),
    "ramp_down_limit": ("the most that output falls in an hour, in MW", "a number from 0"),
    "ramp_startup_limit": ("the greatest output in the hour of a start, in MW", "a number from 0"),
    "ramp_shutdown_limit": ("the greatest output in the hour before a stop, in MW", "a number from 0"),
    "time_up_minimum": ("the fewest hours that the unit stays on", "a whole number of hours"),
    "time_down_minimum": ("the fewest hours that the unit stays off", "a whole number of hours"),
    "power_output_t0": ("the output before the first period, in MW", "a number"),
    "unit_on_t0": ("whether the unit is on before the first period", "0 or 1"),
    "time_up_t0": ("for how many hours the unit has been on before the first period", "a whole number of hours"),
    "time_down_t0": ("for how many hours the unit has been off before the first period", "a whole number of hours"),
    "startup": ("the categories of a start", "an array of 1 to 16 objects with `lag` and `cost`"),
    "startup.lag": ("the hours off from which a category counts", "a whole number of hours"),
    "startup.cost": ("the cost of a start, in dollars", "a number"),
    "piecewise_production": ("the points of the production cost", "an array of 1 to 64 objects with `mw` and `cost`"),
    "piecewise_production.mw": ("the output of a point, in MW", "a number not below that of the row before"),
    "piecewise_production.cost": ("the cost of an hour at a point, in dollars", "a number"),
}
# of a renewable unit
RENEWABLE_FIELDS = {
    "power_output_minimum": ("the least output by period, in MW", "an array with a number for each period"),
    "power_output_maximum": ("the greatest output by period, in MW", "an array with a number for each period"),
}
FLAGS = ("must_run", "unit_on_t0")
TIMES = ("time_up_minimum", "time_down_minimum", "time_up_t0", "time_down_t0", "startup.lag")
COSTS = ("startup.cost", "piecewise_production.cost")

INSTANCE_CODES = {
    "I1": "is missing",
    "I2": "is of another kind than wanted",
    "I3": "isn't whole",
    "I4": "is past its limit",
    "I5": "is outside its range",
    "I6": "is shorter than there are periods",
    "I7": "is more than the program takes",
    "I8": "has more than six decimals, and --exact refuses to round",
    "I9": "the prices of --shed and --spill-reserve are too high for this instance",
}

RULES = {
    "M1": "a unit that must run is on in every period",
    "M2": "a unit that is on before the first period stays on for what is left of its minimum time on",
    "M3": "a unit that is off before the first period stays off for what is left of its minimum time off",
    "M4": "a unit that starts stays on for its minimum time",
    "M5": "a unit that stops stays off for its minimum time",
    "M6": "each start has one category that its hours off allow, and nothing else has one",
    "M7": "a unit is within its maximum before the first period, and stops in the first one only from its limit of stops",
    "M8": "the output of a unit lies within its points, its reserve isn't below 0, and a unit that is off gives nothing",
    "M9": "output and reserve of a unit are within its maximum, and in the hour of a start within its limit of starts",
    "M10": "output and reserve of a unit are within its maximum, and in the hour before a stop within its limit of stops",
    "M11": "output with reserve rises by no more than the ramp up",
    "M12": "output falls by no more than the ramp down",
    "M13": "a renewable unit gives what lies between its least and its greatest output",
    "M14": "all outputs, and the demand that stays unserved, add up to demand",
    "M15": "all reserve, and what is missing of it, is as much as is needed",
    "M16": "unserved demand lies between 0 and demand, and is 0 without --shed",
    "M17": "missing reserve lies between 0 and the reserve needed, and is 0 without --spill-reserve",
}

CERTIFICATE_CODES = {
    "C1": "a number of {0} is past its limit: K is at most 10^9, the others at most 10^14 in size, and mu and ramps aren't below 0",
    "C2": "the schedule breaks rule {0}{1}: {2}",
    "C3": "the schedule's cost is written as {0}, and adds up to {1}",
    "C4": "the leaf at {0} doesn't carry the claimed bound: its table has K = 0, or gives less than the claim",
    "C5": "the leaf at {0} says by a ray that no schedule is left there, and the ray doesn't show it: its K is above 0, or its value isn't above 0",
    "C6": "the leaf at {0} says that a unit has nothing that its rules allow there, and it has",
    "C7": "{0} splits on a unit and period that is decided on the way to it",
    "C8": "claim, schedule and leaves don't go together: infeasibility has neither a schedule nor a leaf with a bound, and a bound has such a leaf",
    "C9": "it is of another instance: its periods, thermal or renewable units are others in number",
    "C10": "it was made with other prices of what may be short: give `check` the --shed and --spill-reserve of the run, or none where it had none",
    "C11": "it holds, and has no schedule, so there are no uplifts",
    "C12": "it holds, and its schedule is over a denominator, which `uplift` doesn't take",
    "C13": "it holds, and has no table of the number of --table",
    "C14": "it holds, and this table is a ray, whose numbers are no prices: take another --table",
}

LINE_KINDS = {
    "form": "the line may not stand there",
    "cut short": "the file ends before this line does: it was cut, or its last line feed is missing",
    "bytes after the end": "something follows the line `end`, which is the last one",
}

USAGE = (
    "`solve` wants an instance and --cert FILE; `check` and `uplift` an instance and a certificate; "
    "`upgrade` a certificate and --cert FILE; `roll` an instance, --window and --step; `demo` a seed. Of the numbers --units is from 1 to "
    "1,000,000, --workers from 1 to 64, --gap from 0 to 1,000,000, --window and --step from 1 to 168, and a price from 1 to 1,000,000; all are "
    "whole. Each option stands once at most. Asking for help gives this, too."
)
READ_FAILED = "the file can't be opened or read: look at its name, at its rights, and at whether it is a folder"
WRITE_FAILED = {
    "certificate": "The certificate's file can't be written: its folder is missing or takes no new file, the disk is full, it may not be written, or it "
                   "is a file that the run reads or prints to. An earlier file there is as it was.",
    "output": "The report can't be written: the disk is full, or what reads the output has ended. The certificate is whole.",
}
MEMORY = "The system gave no more memory. Take fewer --units or --workers, or a machine with more."
TOO_LONG = {
    "instance": "The instance is longer than 67,108,864 bytes (2^26), the most that is read.",
    "certificate": "The certificate is longer than 70,368,744,177,664 bytes (2^46), the most that is read.",
}
