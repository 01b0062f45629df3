"""Numbers that are far from those beside them, as where kilowatts or gigawatts stand for megawatts, and signs that mean nothing."""
from __future__ import annotations

from fractions import Fraction
from statistics import median
from typing import Callable, List, Sequence, Tuple

from schedule_view.amounts import MILLION, nearest_text
from schedule_view.refusal import shown

from .findings import Finding, Findings, dollars, megawatts, thermal
from .units import System

# a factor of 1000 away from a number that is itself within the factor 3 of the median
FAR = 300
# how often all units together may give the greatest demand, and what a megawatt-hour costs the median unit at least, in micro-dollars
MOST_CAPACITY, LEAST_PRICE = 30, MILLION // 2
KILOWATTS = "power is in MW: a number in kW counts a thousandfold"
GIGAWATTS = "power is in MW: a number in GW counts a thousandth"

# a number with its place
_Placed = Tuple[str, Fraction]


def look_at_magnitudes(system: System) -> Findings:
    """Outputs, demands and costs far from the median of their kind, and capacity far above demand."""
    thermals = [(thermal(unit.name, "power_output_maximum"), Fraction(unit.maximum)) for unit in system.units]
    winds = [
        (f"renewable {shown(unit.name)} power_output_maximum", Fraction(max(unit.greatest))) for unit in system.instance.renewable
    ]
    demands = [(f"demand {t}", Fraction(demand)) for t, demand in enumerate(system.instance.demand, 1)]
    return (
        _far(thermals, _power("median unit's"), (KILOWATTS, GIGAWATTS))
        + _far(winds, _power("median renewable unit's"), (KILOWATTS, GIGAWATTS))
        + _far(demands, _power("median hour's"), (KILOWATTS, GIGAWATTS))
        + _capacity(system)
        + _costs(system)
        + _signs(system)
    )


def _power(of: str) -> Callable[[Fraction, Fraction], str]:
    """What tells a power beside the median of its kind."""
    return lambda number, middle: f"{megawatts(int(number))}, where the {of} is {megawatts(int(middle))}"


def _far(numbers: Sequence[_Placed], told: Callable[[Fraction, Fraction], str], effects: Tuple[str, str]) -> Findings:
    """Numbers above nought that are far above or below the median of those, of which there are three or more."""
    positive = [(place, number) for place, number in numbers if number > 0]
    if len(positive) < 3:
        return []
    middle = median(number for _, number in positive)
    found: List[Finding] = []
    for place, number in positive:
        if number >= FAR * middle or number * FAR <= middle:
            found.append(Finding(place, told(number, middle), effects[number < middle]))
    return found


def _capacity(system: System) -> Findings:
    instance = system.instance
    capacity = sum(unit.maximum for unit in system.units) + sum(max(unit.greatest) for unit in instance.renewable)
    greatest = max(instance.demand)
    if greatest <= 0 or capacity < MOST_CAPACITY * greatest:
        return []
    what = f"all units give {megawatts(capacity)}, and the greatest demand is {megawatts(greatest)}"
    return [Finding("demand", what, "power is in MW: units in kW, or demand in GW, make demand a trifle")]


def _costs(system: System) -> Findings:
    """What a megawatt-hour costs at the last point, which is a cost of the hour and not of the megawatt-hour."""
    prices = [
        (thermal(unit.name, f"piecewise_production {len(unit.points)} cost"), Fraction(unit.points[-1][1] * MILLION, unit.points[-1][0]))
        for unit in system.units
        if unit.points[-1][0] > 0
    ]
    positive = [price for _, price in prices if price > 0]
    if positive and median(positive) < LEAST_PRICE:
        what = f"the median unit's last point costs ${_price(median(positive))} a MWh"
        return [Finding("thermal", what, "a point's cost is for the whole hour at its output, not for a MWh")]

    def told(price: Fraction, middle: Fraction) -> str:
        return f"${_price(price)} a MWh, where the median unit's last point has ${_price(middle)}"

    dear, cheap = "a cost is in dollars for the hour: the unit runs last", "a cost is in dollars for the hour: the unit runs first"
    return _far(prices, told, (dear, cheap))


def _price(micros: Fraction) -> str:
    return nearest_text(micros / MILLION)


def _signs(system: System) -> Findings:
    """Reserve that asks for nothing or for more than demand, and least outputs that count as 0."""
    found = []
    instance = system.instance
    for t, (demand, reserve) in enumerate(zip(instance.demand, instance.reserves), 1):
        if reserve < 0:
            found.append(Finding(f"reserves {t}", megawatts(reserve), "it asks for nothing, as 0 does"))
        elif reserve > max(demand, 0):
            what = f"{megawatts(reserve)}, above the demand of the hour, {megawatts(demand)}"
            found.append(Finding(f"reserves {t}", what, "so much room is kept free beside the output"))
    return found
