"""Axes, lines and marks as texts of SVG, as they stand in a page.

Hues are names of classes, whose colours `batching.style` has for light and dark pages."""

from __future__ import annotations

import math
from dataclasses import dataclass, field
from html import escape
from itertools import count
from typing import Iterable

# The widths of a character, in pixels: ticks are told by digits, names by letters.
DIGIT, LETTER = 6.6, 6.4
# Outlines of marks about 0, some 9 pixels across.
MARKS = [
    "M-4 0a4 4 0 1 0 8 0a4 4 0 1 0-8 0z",
    "M-3.6-3.6h7.2v7.2h-7.2z",
    "M0-4.8L4.6 3.4h-9.2z",
    "M0-5L5 0L0 5L-5 0z",
    "M0 4.8L4.6-3.4h-9.2z",
    "M-1.6-4.6h3.2v3h3v3.2h-3v3h-3.2v-3h-3v-3.2h3z",
    "M-4.8 0L3.4-4.6v9.2z",
    "M4.8 0L-3.4-4.6v9.2z",
    "M-4.4-2.2L-2.2-4.4L0-2.2L2.2-4.4L4.4-2.2L2.2 0L4.4 2.2L2.2 4.4L0 2.2L-2.2 4.4L-4.4 2.2L-2.2 0z",
    "M0-5.2L1.4-1.7L5-1.6L2.2 .7L3.1 4.3L0 2.2L-3.1 4.3L-2.2 .7L-5-1.6L-1.4-1.7z",
]


def shown(value: float) -> str:
    """A number as the ticks of an axis have it."""
    return format(value, ",.10g")


@dataclass(frozen=True)
class Scale:
    """Where the values from `low` to `high` stand along an axis of so many pixels."""

    low: float
    high: float
    length: float
    is_logarithmic: bool = False

    def at(self, value: float) -> float:
        """The pixels from the beginning of the axis."""
        low, high, value = map(math.log, (self.low, self.high, value)) if self.is_logarithmic else (self.low, self.high, value)
        return (value - low) / (high - low) * self.length

    def ticks(self, room: float) -> list[float]:
        """The values that are told, whose labels want so many pixels each."""
        most = max(2, int(self.length / room))
        return self.powers(most) if self.is_logarithmic else self.multiples(most)

    def multiples(self, most: int) -> list[float]:
        """Whole multiples of 1, 2 or 5 by a power of ten."""
        step = next(step for power in count() for step in (10**power, 2 * 10**power, 5 * 10**power)
                    if (self.high - self.low) / step <= most)
        return [step * it for it in range(math.ceil(self.low / step), math.floor(self.high / step) + 1)]

    def short_ticks(self) -> list[float]:
        """The values of a logarithmic scale that have a tick and no label."""
        if not self.is_logarithmic:
            return []
        first, last = math.floor(math.log10(self.low)), math.ceil(math.log10(self.high))
        factors = range(1, 10) if last - first <= 6 else (1,)
        return [it for it in (factor * 10.0**power for power in range(first, last + 1) for factor in factors)
                if self.low <= it <= self.high]

    def powers(self, most: int) -> list[float]:
        """Powers of ten, with twice and five times these where there are few, and not each where there are many."""
        first, last = math.floor(math.log10(self.low)), math.ceil(math.log10(self.high))
        factors = (1, 2, 5) if 3 * math.log10(self.high / self.low) <= min(most, 6) else (1,)
        every = math.ceil((last - first + 1) / most)
        # 10 to a negative power is not exact, and the quotient is the nearest number to it.
        power = lambda it: 10**it if it >= 0 else 1 / 10**-it
        found = [factor * power(it) for it in range(first, last + 1) if it % every == 0 for factor in factors]
        return [it for it in found if self.low <= it <= self.high]


def logarithmic(values: Iterable[float], length: float) -> Scale:
    """A scale that all these values stand on, with some room at both ends."""
    known = [*values] or [1, 10]
    return Scale(min(known) / 1.6, max(known) * 1.6, length, True)


def text(x: float, y: float, words: str, kind: str = "", anchor: str = "start", turned: bool = False) -> str:
    """Words at a place, turned to run upwards if so asked."""
    turn = f' transform="rotate(-90 {x:.1f} {y:.1f})"' if turned else ""
    style = f' class="{kind}"' if kind else ""
    return f'<text x="{x:.1f}" y="{y:.1f}" text-anchor="{anchor}"{style}{turn}>{escape(words)}</text>'


def line(x: float, y: float, to_x: float, to_y: float, kind: str) -> str:
    return f'<path class="{kind}" d="M{x:.1f} {y:.1f}L{to_x:.1f} {to_y:.1f}"/>'


def drawn(width: float, height: float, parts: Iterable[str]) -> str:
    """A whole plot."""
    size = f'width="{width:.0f}" height="{height:.0f}" viewBox="0 0 {width:.0f} {height:.0f}"'
    return f'<svg xmlns="http://www.w3.org/2000/svg" class="plot" {size}>{"".join(parts)}</svg>'


def legend(keys: Iterable[tuple[str, str, str]]) -> str:
    """A list of what hues and marks stand for: of each its class, its shape as SVG about 0, and what it is."""
    size = 'width="18" height="12" viewBox="-9 -6 18 12"'
    items = (f'<li><svg class="key {hue}" {size} aria-hidden="true">{shape}</svg>{escape(words)}</li>' for hue, shape, words in keys)
    return f'<ul class="legend">{"".join(items)}</ul>'


def mark(number: int, place: str = "") -> str:
    """The mark of this number, at 0 or moved to a place by an attribute. Where there are no more outlines, they begin anew hollow."""
    rounds, which = divmod(number, len(MARKS))
    hollow = ' class="hollow"' if rounds % 2 else ""
    return f'<path{hollow}{place} d="{MARKS[which]}"/>'


@dataclass
class Axes:
    """A frame with ticks and labels, to which lines and marks are added by their values."""

    x: Scale
    y: Scale
    x_label: str
    y_label: str
    parts: list[str] = field(default_factory=list)
    # Above and right of the frame, for labels that reach over it.
    TOP, RIGHT, BOTTOM = 14, 22, 44

    def __post_init__(self) -> None:
        self.y_ticks = self.y.ticks(34)
        self.left = 34 + DIGIT * max((len(shown(it)) for it in self.y_ticks), default=1)
        self.parts += self.frame()

    def place(self, x: float, y: float) -> tuple[float, float]:
        """Where two values stand in the plot, in pixels."""
        return self.left + self.x.at(x), self.TOP + self.y.length - self.y.at(y)

    def frame(self) -> Iterable[str]:
        """The grid, the ticks with their labels, and what the axes are."""
        left, right, top, bottom = self.left, self.left + self.x.length, self.TOP, self.TOP + self.y.length
        widest = max(map(len, map(shown, self.x.ticks(60))), default=1)
        for it in self.x.ticks(max(30, DIGIT * widest + 12)):
            x = left + self.x.at(it)
            yield line(x, top, x, bottom + 4, "grid") + text(x, bottom + 17, shown(it), anchor="middle")
        for it in self.y_ticks:
            y = bottom - self.y.at(it)
            yield line(left - 4, y, right, y, "grid") + text(left - 7, y + 4, shown(it), anchor="end")
        short = [f"M{left + self.x.at(it):.1f} {bottom:.1f}v3" for it in self.x.short_ticks()]
        short += [f"M{left:.1f} {bottom - self.y.at(it):.1f}h-3" for it in self.y.short_ticks()]
        yield f'<path class="frame" d="M{left:.1f} {top}V{bottom:.1f}H{right:.1f}{"".join(short)}"/>'
        yield text((left + right) / 2, bottom + 36, self.x_label, "label", "middle")
        yield text(13, (top + bottom) / 2, self.y_label, "label", "middle", turned=True)

    def svg(self) -> str:
        return drawn(self.left + self.x.length + self.RIGHT, self.TOP + self.y.length + self.BOTTOM, self.parts)
