"""The pieces that the charts are drawn with: elements, scales, axes, step lines.

A plot's data stands in a group whose units are hours to the right and the data's own upwards, as megawatts, with all their decimals,
so that the heights in the file are exact, parts of a watt to a thousandth of one; the group's matrix alone brings them to pixels.
`data-grain` tells how many whole numbers of the data, as watts, are one such unit.

Plots are as wide as the page lets them be: data is stretched over the hours, and texts, which aren't, have their places in percent.
"""
from __future__ import annotations

import html
import math
from dataclasses import dataclass
from fractions import Fraction
from typing import Dict, Iterable, List, Sequence, Tuple, Union

from .amounts import Watts, nearest_text, thousandths
from .refusal import printable

HOURS_HEIGHT, TOP, AXIS_Y, SIDE_GAP = 20, 22, 10, 8
# pixels beside the plots: names and axes in a wide and in a narrow page, which the style has too, and the page's margins
SIDE_WIDTH, NARROW_SIDE_WIDTH, NARROW_PAGE, MARGINS = 120, 74, 760, 68
# pixels that an hour needs for its label, for a start's category and for lines around its bars
LABEL_SPACE, CATEGORY_SPACE, OUTLINE_SPACE = 24, 14, 5
HOURS_A_DAY, TICKS = 24, 6
# every so many hours have a label where there is room for no more; each number divides the next one
LABEL_STEPS = (1, 2, 4, 12, 24)


def text(words: str) -> str:
    """Words of a file as they may stand in the page."""
    return html.escape(printable(words))


def element(name: str, content: str = "", **attributes: Union[str, int, float]) -> str:
    """An element; an underscore in an attribute's name stands for a hyphen, and one at its end for nothing."""
    written = "".join(f' {key.rstrip("_").replace("_", "-")}="{_number(value)}"' for key, value in attributes.items())
    return f"<{name}{written}>{content}</{name}>"


def _number(value: Union[str, int, float]) -> str:
    return f"{value:.10g}" if isinstance(value, float) else str(value)


def title(words: str) -> str:
    """What shows when the pointer rests on the element around it."""
    return element("title", text(words))


def described(words: str) -> Dict[str, str]:
    """The attributes that tell those who can't see it what a drawing shows."""
    return {"role": "img", "aria_label": text(words)}


def percent(hours: float, periods: int) -> str:
    """How far to the right of a plot a place in its hours is."""
    return f"{100 * hours / periods:.6g}%"


def hour_labels(periods: int, y: float, titles: Sequence[str] = ()) -> str:
    """The numbers of the hours, from 1, on a line, for `narrow_rules` to thin out; their titles, where given, tell more."""
    return "".join(
        element(
            "text",
            (title(titles[t]) if titles else "") + str(t + 1),
            x=percent(t + 0.5, periods),
            y=y,
            class_=f"hour every-{max(step for step in LABEL_STEPS if t % step == 0)}",
        )
        for t in range(periods)
    )


def narrow_rules(periods: int) -> str:
    """The rules of the page's style that leave out what hours are too narrow for: labels, categories in cells, lines around bars."""
    rules = [(LABEL_SPACE / step, f".every-{step} {{ display: none; }}") for step in LABEL_STEPS[:-1]]
    rules += [(CATEGORY_SPACE, ".category { display: none; }"), (OUTLINE_SPACE, ".bars path { stroke: none; }")]
    return "".join(f"@media (max-width: {_narrowest(periods, pixels)}px) {{ {rule} }}\n" for pixels, rule in rules)


def _narrowest(periods: int, pixels: float) -> int:
    """The width of a page below which an hour has fewer pixels than that."""
    plot = math.ceil(pixels * periods) + MARGINS
    return plot + (NARROW_SIDE_WIDTH if plot + NARROW_SIDE_WIDTH <= NARROW_PAGE else SIDE_WIDTH)


def day_lines(periods: int, height: float) -> str:
    """A line between each day of 24 hours and the next."""
    places = (percent(t, periods) for t in range(HOURS_A_DAY, periods, HOURS_A_DAY))
    return "".join(element("line", x1=x, x2=x, y2=height, class_="day") for x in places)


def stretched(periods: int, height: float, content: str) -> str:
    """A drawing whose units are hours to the right and pixels downwards, over the whole width of a plot."""
    return element("svg", content, viewBox=f"0 0 {periods} {height:g}", preserveAspectRatio="none", height=height)


@dataclass(frozen=True)
class Frame:
    """The plane of a chart: periods to the right, numbers from `low` to `high` upwards, `unit` of which are one on the axis."""

    periods: int
    height: int
    low: Watts
    high: Watts
    unit: int

    @staticmethod
    def around(periods: int, height: int, values: Iterable[Watts], unit: int) -> Frame:
        """A plane that holds nought and all values with some room around them, and where all are nought one unit of the axis."""
        numbers = [0, *values]
        low, high = min(numbers), max(numbers)
        room = (high - low) // 25 + 1 if low < high else unit
        return Frame(periods, height, low - room if low else 0, high + room, unit)

    @property
    def scale(self) -> float:
        """Pixels for one of the data."""
        return float(self.height / (self.high - self.low))

    @property
    def decimals(self) -> int:
        """The decimals of the group's numbers: browsers draw nothing past some 2^31, so these stay within 10^6."""
        return next(k for k in range(0, 60, 3) if max(-self.low, self.high) <= 10 ** (k + 6))

    def y(self, value: Union[int, Fraction]) -> float:
        """The pixel of a number of the data."""
        return TOP + float(self.high - value) * self.scale

    def number(self, value: Watts) -> str:
        """A number of the data in units of the group, exact where it is whole."""
        is_whole = isinstance(value, int)
        size, decimals = abs(value if is_whole else thousandths(value)), self.decimals + (0 if is_whole else 3)
        digits = f"{size:0{decimals + 1}}"
        cut = len(digits) - decimals
        return ("-" if value < 0 else "") + f"{digits[:cut]}.{digits[cut:]}".rstrip("0").rstrip(".")

    @property
    def upwards(self) -> float:
        """Pixels, counted downwards, for a unit of the group."""
        return -self.scale * 10**self.decimals

    def bars(self, content: str, name: str, look: str = "") -> str:
        """A group of bars, with a name and a class besides its own."""
        return self.group(content, id=name, class_=f"bars {look}".rstrip())

    def group(self, content: str, **attributes: Union[str, int, float]) -> str:
        """A group in hours and units of the data, over the whole width of the plot."""
        matrix = f"matrix(1 0 0 {self.upwards:.10g} 0 {self.y(0):.10g})"
        group = element("g", content, transform=matrix, data_grain=10**self.decimals, **attributes)
        return stretched(self.periods, TOP + self.height, group)

    def bar(self, period: int, bottom: Watts, size: Watts, words: str = "", **attributes: str) -> str:
        """A bar over one hour, for `group`. It is a path, since browsers cap the height of a rectangle."""
        outline = f"M{period} {self.number(bottom)}v{self.number(size)}h1v{self.number(-size)}z"
        return element("path", title(words) if words else "", d=outline, **attributes)

    def steps(self, values: Sequence[Watts], look: str) -> str:
        """A line that steps from hour to hour, for `group`."""
        numbers = [self.number(value) for value in values]
        return element("path", d=f"M0 {numbers[0]}" + "".join(f"V{y}H{t + 1}" for t, y in enumerate(numbers)), class_=look)

    def columns(self, titles: Sequence[str]) -> str:
        """A column over the whole height for each hour, which shows nothing but its title, for `group`."""
        size = self.high - self.low
        return "".join(self.bar(t, self.low, size, words, class_="touch") for t, words in enumerate(titles))

    def ticks(self) -> List[Fraction]:
        """Round numbers of the axis, with at most `TICKS` steps between them."""
        span = Fraction(self.high - self.low, self.unit)
        power = Fraction(10) ** math.floor(math.log10(span / TICKS))
        step = next(m * power for m in (1, 2, 5, 10, 20) if m * power * TICKS >= span)
        first, last = math.ceil(Fraction(self.low, self.unit) / step), math.floor(Fraction(self.high, self.unit) / step)
        return [k * step for k in range(first, last + 1)]

    def chart(self, plot: str, label: str, axis: str, titles: Sequence[str] = ()) -> str:
        """The chart: an axis, and the plot beside it."""
        ticks = [(self.y(tick * self.unit), nearest_text(tick)) for tick in self.ticks()]
        grid = "".join(element("line", x2="100%", y1=y, y2=y, class_="line") for y, _ in ticks)
        bottom = TOP + self.height
        plot = grid + day_lines(self.periods, bottom) + plot + hour_labels(self.periods, bottom + 15, titles)
        numbers = "".join(_beside(words, y + 4) for y, words in ticks) + _beside(text(axis), AXIS_Y)
        height = bottom + HOURS_HEIGHT
        return element(
            "div",
            element("svg", numbers, height=height, aria_hidden="true") + element("svg", plot, height=height, **described(label)),
            class_="chart",
        )


def _beside(words: str, y: float) -> str:
    """A word of an axis, which ends a little before the plot."""
    return element("text", words, x="100%", dx=-SIDE_GAP, y=y, class_="tick")
