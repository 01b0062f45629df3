"""What the hint of a report without a schedule means: why the most-on commitment has no dispatch."""
from __future__ import annotations

import re
from typing import List, Tuple

from schedule_view.report import Stuck

COMMITMENT = (
    "The most-on commitment has each unit on in as many hours as its own rules allow. "
    "Hour by hour it is given outputs, each from those of the hour before."
)
FOUND_OUT = (
    "This is the first thing in the way of one commitment, and no proof that there is no schedule: "
    "other commitments may do, or other outputs in the hours before."
)
_RULES = {
    "1": "must run", "2": "has to stay on for what is left of its minimum time on", "3": "has to stay off for what is left of its minimum time off",
    "4": "stays on for its minimum time once started", "5": "stays off for its minimum time once stopped",
    "7": "may stop in hour 1 only from its limit of stops, and is never above its maximum",
}
# the pattern of a hint's end, what it says of an hour, and what may help
_MEANINGS = (
    (
        r"thermal (.*) breaks M(\d+)",
        "unit {0} breaks rule M{1}: a unit {rule}.",
        "Look at its times, its output and its state before hour 1.",
    ),
    (
        r"thermal (.*) needs at least (\S+) and at most (\S+) above its minimum",
        "unit {0} can fall no lower than {1} MW above its minimum, and may be no higher than {2} MW above it.",
        "Look at its ramps, at its limits of starts and stops, and at its output before hour 1.",
    ),
    (
        r"least output (\S+) above demand (\S+)",
        "with all these units on, their least outputs are {0} MW together, more than the demand of {1} MW.",
        "Some unit has to be off in this hour, and none was found that can be. Units that must run, and minimum times, are the first to look at.",
    ),
    (
        r"most output (\S+) below demand (\S+)",
        "even at their most these units give {0} MW, less than the demand of {1} MW.",
        "Look at the demand of this hour, and at the ramps and limits of starts that lead up to it. `--shed PRICE` tells what stays unserved.",
    ),
    (
        r"reserve (\S+) below need (\S+)",
        "what demand leaves free is {0} MW of reserve, less than the {1} MW that are needed.",
        "Look at the reserve of this hour, and at the ramps up, which limit reserve. `--spill-reserve PRICE` tells what is missing.",
    ),
)


def stuck_words(stuck: Stuck) -> List[str]:
    """Sentences on the hint: the commitment, what is in its way, what may help, and what it doesn't say."""
    what, helps = _meaning(stuck)
    return [COMMITMENT, f"In hour {stuck.period} {what}", helps, FOUND_OUT]


def _meaning(stuck: Stuck) -> Tuple[str, str]:
    why = stuck.text.split(": ", 1)[1]
    for pattern, what, helps in _MEANINGS:
        found = re.fullmatch(pattern, why, re.DOTALL)
        if found:
            rule = _RULES.get(found[2], "") if "breaks" in pattern else ""
            return what.format(*(_short(part) for part in found.groups()), rule=rule), helps
    return why, ""


def _short(text: str) -> str:
    """An amount without zeros at its end; other texts as they are."""
    return re.sub(r"\.?0+$", "", text) if re.fullmatch(r"-?[0-9]+\.[0-9]{6}", text) else text
