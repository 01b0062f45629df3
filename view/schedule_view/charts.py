"""The charts over the hours: stacked output, curtailed power, reserve, costs, prices, and demand alone where there is no schedule."""
from __future__ import annotations

from fractions import Fraction
from typing import Dict, List, Optional, Tuple

from .amounts import MILLION, Watts, dollars_text, nearest_text, short_text
from .certificate import Prices
from .costs import HourlyCosts
from .instance import Instance
from .layers import SINGLE_UNITS, Layer
from .report import Schedule
from .shortages import Shortage
from .svg import Frame, described, element, percent, text, title

OUTPUT_HEIGHT, DEMAND_HEIGHT, RESERVE_HEIGHT, CURTAILED_HEIGHT, COST_HEIGHT, PRICE_HEIGHT = 340, 220, 110, 90, 150, 150
# pixels of a plot in a narrow page and in a wide one, in which a name has room, and those that hatchings are made for
NARROW_PLOT, WIDE_PLOT, HATCHED_PLOT = 440, 980, 1100
# colours are repeated with another hatching after so many
COLOURS = 8
NAME_HEIGHT, LETTER_WIDTH = 13, 6.4
SWATCH = 14
_HATCHES = ("", "M0 0L6 6M-1 5L1 7M5 -1L7 1", "M0 3H6", "M0 6L6 0M-1 1L1 -1M5 7L7 5")


def output_chart(instance: Instance, stack: List[Layer]) -> str:
    """Outputs on top of each other, and the demand that they add up to."""
    frame = Frame.around(instance.periods, OUTPUT_HEIGHT, instance.demand, MILLION)
    bottoms: List[Watts] = [0] * instance.periods
    bars, names = [], []
    for layer in stack:
        bars.append(element("g", _bars(frame, layer, bottoms), **_paint(layer.look, "")))
        names.append(_name_inside(frame, layer, bottoms))
        bottoms = [bottom + output for bottom, output in zip(bottoms, layer.outputs)]
    plot = (
        element("defs", "".join(_hatching(layer.look, "", _upright(frame)) for layer in stack))
        + frame.bars("".join(bars), "outputs")
        + "".join(names)
        + frame.group(frame.steps(instance.demand, "demand"))
    )
    return frame.chart(plot, "Output by unit and demand", "MW", _hour_titles(instance))


def legend(stack: List[Layer]) -> str:
    """The layers from the bottom, each with its colour and hatching."""
    return element("ul", "".join(_legend_entry(layer) for layer in stack), class_="legend")


def reserve_chart(instance: Instance, schedule: Schedule, missing: Shortage) -> str:
    """Reserve given as bars, what is missing on top of it, reserve needed as a line."""
    columns = ([row.cells[t] for row in schedule.thermal] for t in range(instance.periods))
    given = [sum(cell.reserve for cell in column if cell) for column in columns]
    tops = [size + lack for size, lack in zip(given, missing.watts)]
    frame = Frame.around(instance.periods, RESERVE_HEIGHT, tops + instance.reserves, MILLION)
    bars = "".join(
        frame.bar(t, 0, size, f"hour {t + 1}: {short_text(size)} MW given, {short_text(need)} MW needed")
        for t, (size, need) in enumerate(zip(given, instance.reserves))
    )
    lacks = "".join(
        frame.bar(t, given[t], lack, f"hour {t + 1}: {short_text(lack)} MW missing") for t, lack in enumerate(missing.watts) if lack
    )
    drawn = frame.bars(bars, "reserves", "given") + (frame.bars(lacks, "missing", missing.look) if lacks else "")
    plot = drawn + frame.group(frame.steps(instance.reserves, "need"))
    return frame.chart(plot, "Reserve given and reserve needed", "MW")


def curtailed_chart(curtailed: List[Watts]) -> str:
    """The power that renewable units could give and don't."""
    frame = Frame.around(len(curtailed), CURTAILED_HEIGHT, curtailed, MILLION)
    bars = (frame.bar(t, 0, size, f"hour {t + 1}: {short_text(size)} MW curtailed") for t, size in enumerate(curtailed) if size)
    plot = frame.bars("".join(bars), "curtailed", "renewable")
    return frame.chart(plot, "Curtailed renewable power", "MW")


def cost_chart(costs: HourlyCosts) -> str:
    """What production costs, on top of that what starts cost, and then what is short; amounts below nought hang from nought."""
    parts = costs.parts
    hours = list(zip(*(amounts for _, _, amounts in parts)))
    sums = [sum(max(sign * amount, 0) * sign for amount in hour) for hour in hours for sign in (1, -1)]
    frame = Frame.around(len(hours), COST_HEIGHT, sums, MILLION)
    titles = [
        f"hour {t + 1}: " + ", ".join(f"{name} {dollars_text(amount)}" for (name, _, _), amount in zip(parts, hour))
        for t, hour in enumerate(hours)
    ]
    tops, bottoms, groups = [0] * len(hours), [0] * len(hours), []
    for name, look, amounts in parts:
        bars = []
        for t, amount in enumerate(amounts):
            if amount:
                bottoms[t] += min(amount, 0)
                bars.append(frame.bar(t, tops[t] if amount > 0 else bottoms[t], abs(amount), titles[t]))
                tops[t] += max(amount, 0)
        groups.append(frame.bars("".join(bars), name.replace(" ", "-"), look))
    return frame.chart("".join(groups), "Cost by hour", "$")


def demand_chart(instance: Instance, stuck: Optional[int]) -> str:
    """What an instance without a schedule asks for; a period that a commitment got stuck in, from 1, is marked."""
    frame = Frame.around(instance.periods, DEMAND_HEIGHT, instance.demand + instance.reserves, MILLION)
    mark = frame.bar(stuck - 1, frame.low, frame.high - frame.low, class_="stuck") if stuck else ""
    lines = frame.steps(instance.demand, "demand") + frame.steps(instance.reserves, "need")
    plot = frame.group(mark + lines + frame.columns(_hour_titles(instance)))
    return frame.chart(plot, "Demand and reserve needed", "MW")


def price_chart(prices: Prices) -> str:
    """The prices of demand and of reserve; the axis is in dollars a megawatt-hour."""
    periods = len(prices.demand)
    frame = Frame.around(periods, PRICE_HEIGHT, prices.demand + prices.reserve, prices.scale)
    pairs = [
        (nearest_text(Fraction(demand, prices.scale)), nearest_text(Fraction(reserve, prices.scale)))
        for demand, reserve in zip(prices.demand, prices.reserve)
    ]
    titles = [f"hour {t + 1}: demand {pi} $/MWh, reserve {mu} $/MWh" for t, (pi, mu) in enumerate(pairs)]
    lines = frame.steps(prices.reserve, "mu") + frame.steps(prices.demand, "pi")
    plot = frame.group(lines + frame.columns(titles), id="prices")
    return frame.chart(plot, "Prices of demand and reserve", "$/MWh")


def share_bar(number: int, most: int, look: str, words: str) -> str:
    """A lying bar whose width is the number's part of the greatest one."""
    bar = element("rect", title(words), width=f"{100 * number / most:.6g}%", height=SWATCH, class_=look)
    return element("svg", bar, height=SWATCH, **described(words))


def _hour_titles(instance: Instance) -> List[str]:
    return [
        f"hour {t + 1}: demand {short_text(demand)} MW, reserve needed {short_text(need)} MW"
        for t, (demand, need) in enumerate(zip(instance.demand, instance.reserves))
    ]


def _bars(frame: Frame, layer: Layer, bottoms: List[Watts]) -> str:
    return "".join(frame.bar(t, bottoms[t], output, layer.titles[t]) for t, output in enumerate(layer.outputs) if output)


def _name_inside(frame: Frame, layer: Layer, bottoms: List[Watts]) -> str:
    """The layer's name at the thickest place where it fits in, where it may be for narrow pages too; nothing where there is none."""
    for width, look in ((NARROW_PLOT, "narrow"), (WIDE_PLOT, "wide")):
        hours = int((len(layer.name) + 1) * LETTER_WIDTH * frame.periods / width) + 1
        places: List[Tuple[Watts, int, Watts]] = []
        for t in range(frame.periods - hours + 1):
            low = max(bottoms[t : t + hours])
            high = min(bottom + output for bottom, output in zip(bottoms[t : t + hours], layer.outputs[t : t + hours]))
            places.append((high - low, -t, low))
        size, start, low = max(places, default=(0, 0, 0))
        if size * frame.scale >= NAME_HEIGHT:
            x, y = percent(hours / 2 - start, frame.periods), frame.y(low + size // 2) + 4
            return element("text", text(layer.name), x=x, y=y, class_=f"name {look} on-{_colour(layer.look)}")
    return ""


def _legend_entry(layer: Layer) -> str:
    swatch = element("rect", width=SWATCH, height=SWATCH, **_paint(layer.look, "key-"))
    icon = element("svg", _hatching(layer.look, "key-", "") + swatch, width=SWATCH, height=SWATCH, aria_hidden="true")
    return element("li", icon + text(layer.name) + element("small", text(layer.note)))


def _upright(frame: Frame) -> str:
    """What turns the units of the frame's group back into pixels, to the right those of a plot as wide as hatchings are made for."""
    return f"scale({frame.periods / HATCHED_PLOT:.10g} {1 / frame.upwards:.10g})"


def _place(look: str) -> int:
    """The place of a unit's look among the single units, and -1 of any other look."""
    return int(look[1:]) if look[0] == "c" else -1


def _colour(look: str) -> str:
    return f"c{_place(look) % COLOURS}" if look[0] == "c" else look


def _paint(look: str, prefix: str) -> Dict[str, str]:
    """The attribute that paints a look: its class, or its pattern where it has one."""
    return {"fill": f"url(#{prefix}{look})"} if _place(look) >= COLOURS else {"class_": look}


def _hatching(look: str, prefix: str, transform: str) -> str:
    """The pattern of a look that has one: its colour under lines."""
    if _place(look) < COLOURS:
        return ""
    tile = element("rect", width=6, height=6, class_=_colour(look))
    lines = element("path", d=_HATCHES[_place(look) // COLOURS], class_="hatch")
    place = {"patternUnits": "userSpaceOnUse", "patternTransform": transform or "scale(1)"}
    return element("pattern", tile + lines, id=prefix + look, width=6, height=6, **place)


assert SINGLE_UNITS <= COLOURS * len(_HATCHES)
