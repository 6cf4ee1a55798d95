"""Draws figures as an SVG, with a curve for each engine: microseconds an article, or memory.

The same figures give the same bytes. The picture has colours for light and for
dark pages, and brings its own ground for each.
"""

from __future__ import annotations

import math
from dataclasses import dataclass
from html import escape
from typing import Callable, Iterable

from figures import Curve, Figure, curves_of

WIDTH, HEIGHT = 720, 430
LEFT, RIGHT, TOP, BOTTOM = 84, 700, 66, 376
# Between the frame and the ends of the axes.
INSET_ACROSS, INSET_DOWN = 40, 28
MARGIN = 24
# What a number above a point takes.
ROOM_ABOVE = 32

# The marks of the curves in turn: a disc, a square, a triangle, a diamond.
MARKS = ("M-5 0a5 5 0 1 0 10 0a5 5 0 1 0-10 0", "M-4.5-4.5h9v9h-9z", "M0-6L6 5H-6z", "M0-6.5L6.5 0L0 6.5L-6.5 0z")


@dataclass(frozen=True)
class Colours:
    """Of the ground, the writing, what is less important, the grid, and the curves in turn."""

    ground: str
    ink: str
    quiet: str
    grid: str
    curves: tuple[str, ...]


LIGHT = Colours("#fff", "#1f2328", "#59636e", "#d8dee4", ("#0969da", "#bc4c00", "#8250df", "#1a7f37"))
DARK = Colours("#0d1117", "#e6edf3", "#9198a1", "#30363d", ("#58a6ff", "#f0883e", "#bc8cff", "#3fb950"))
SHAPES = ("text{font:13px system-ui,sans-serif;paint-order:stroke;stroke-width:4px}"
          ".head{font-size:16px;font-weight:600}.value{font-size:12px}"
          ".curve{fill:none;stroke:currentColor;stroke-width:2.5}.mark{fill:currentColor}")


@dataclass(frozen=True)
class Axis:
    """An axis from a number to another, and where its ends stand in the picture."""

    first: float
    last: float
    start: float
    end: float

    def place(self, value: float) -> float:
        """Where a value stands."""
        part = (self.scaled(value) - self.first) / (self.last - self.first)
        return round(self.start + part * (self.end - self.start), 1)

    def scaled(self, value: float) -> float:
        """The value as the axis counts."""
        return value

    def ticks(self) -> list[float]:
        """The numbers that are written on the axis."""
        step = even_step(self.last)
        return [step * count for count in range(round(self.last / step) + 1)]


@dataclass(frozen=True)
class Decades(Axis):
    """A logarithmic axis over whole decades."""

    def scaled(self, value: float) -> float:
        return math.log10(value)

    def ticks(self) -> list[float]:
        return [10.0 ** power for power in range(round(self.first), round(self.last) + 1)]


# An axis that has some values, and where it is to begin and to end in the picture.
Maker = Callable[[Iterable[float], float, float], Axis]


def decades(values: Iterable[float], start: float, end: float) -> Axis:
    """The fewest decades that have all the values, and at least one."""
    logarithms = [math.log10(value) for value in values]
    first = math.floor(min(logarithms))
    return Decades(first, max(math.ceil(max(logarithms)), first + 1), start, end)


def even(values: Iterable[float], start: float, end: float) -> Axis:
    """An axis from 0, in even steps."""
    most = max(values)
    step = even_step(most)
    return Axis(0, step * math.ceil(most / step), start, end)


def roomy(values: Iterable[float], start: float, end: float) -> Axis:
    """One that leaves room for names beyond the greatest value."""
    return even([1.2 * max(values)], start, end)


def even_step(most: float) -> float:
    """A step of a 1, a 2 or a 5 with noughts, at most five of which reach that far."""
    power = 10.0 ** math.floor(math.log10(most / 5))
    return next(power * part for part in (1, 2, 5, 10) if most / (power * part) <= 5)


@dataclass(frozen=True)
class Sheet:
    """What a picture is of: its heads, what stands along its axis, and how its axes are made."""

    title: str
    under: str
    along: str
    across: Maker
    up: Maker


SPEED = Sheet("Microseconds per article",
              "articles of 400 words, one a line; the best of ten passes; both axes are logarithmic",
              "registered queries", decades, decades)
MEMORY = Sheet("Resident memory in MiB", "1,000 ids get other queries over and over, and articles are matched between",
               "replaced queries", even, roomy)


@dataclass(frozen=True)
class Plane:
    """Both axes: what was measured at across, and the numbers up."""

    across: Axis
    up: Axis

    @staticmethod
    def over(sheet: Sheet, figures: list[Figure]) -> Plane:
        """The axes that have all the figures."""
        return Plane(sheet.across((figure.at for figure in figures), LEFT + INSET_ACROSS, RIGHT - INSET_ACROSS),
                     sheet.up((figure.number for figure in figures), BOTTOM - INSET_DOWN, TOP + INSET_DOWN))

    def grid(self, along: str) -> list[str]:
        """The lines and numbers of both axes."""
        parts = []
        for value in self.up.ticks():
            down = self.up.place(value)
            parts += [f'<path class="grid" d="M{LEFT} {down:g}H{RIGHT}"/>',
                      text(LEFT - 10, down + 4.5, plain(value), "quiet", "end")]
        for value in self.across.ticks():
            across = self.across.place(value)
            parts += [f'<path class="grid" d="M{across:g} {TOP}V{BOTTOM}"/>',
                      text(across, BOTTOM + 18, plain(value), "quiet", "middle")]
        return parts + [text((LEFT + RIGHT) / 2, BOTTOM + 40, along, "quiet", "middle")]


def plain(value: float) -> str:
    """A number as people write it."""
    return f"{value:,.0f}" if value >= 10 else f"{value:.3g}"


def rules(colours: Colours) -> str:
    """The style rules of some colours."""
    curves = "".join(f".c{place}{{color:{colour}}}" for place, colour in enumerate(colours.curves))
    return (f".ground{{fill:{colours.ground}}}text{{fill:{colours.ink};stroke:{colours.ground}}}"
            f".quiet{{fill:{colours.quiet}}}.grid{{stroke:{colours.grid}}}{curves}")


def text(across: float, down: float, words: str, kind: str = "", anchor: str = "start") -> str:
    """Words in the picture."""
    kinds = f' class="{kind}"' if kind else ""
    anchored = "" if anchor == "start" else f' text-anchor="{anchor}"'
    return f'<text x="{across:g}" y="{down:g}"{kinds}{anchored}>{escape(words, quote=False)}</text>'


def mark(kind: int, across: float, down: float) -> str:
    """The mark of a point."""
    return f'<path class="mark c{kind}" transform="translate({across:g} {down:g})" d="{MARKS[kind]}"/>'


def number(figure: Figure, figures: list[Figure], plane: Plane) -> str:
    """The number at a point: below the least of those across from it, above others where there is room, or to the
    right."""
    words = plain(figure.number)
    across, down = plane.across.place(figure.at), plane.up.place(figure.number)
    rivals = [other.number for other in figures if other.at == figure.at]
    if figure.number <= min(rivals):
        return text(across, down + 22, words, "value", "middle")
    greater = [plane.up.place(rival) for rival in rivals if rival > figure.number]
    if not greater or down - max(greater) >= ROOM_ABOVE:
        return text(across, down - 12, words, "value", "middle")
    return text(across + 11, down + 9, words, "value")


def lines_of(kind: int, curve: Curve, plane: Plane) -> list[str]:
    """A curve with its marks."""
    points = [(plane.across.place(figure.at), plane.up.place(figure.number)) for figure in curve.figures]
    line = "L".join(f"{across:g} {down:g}" for across, down in points)
    return [f'<path class="curve c{kind}" d="M{line}"/>', *(mark(kind, across, down) for across, down in points)]


def name(place: int, kind: int, curve: Curve) -> list[str]:
    """The name of an engine with its mark, in the corner that rising curves leave free."""
    down = TOP + 20 + 22 * place
    return [mark(kind, LEFT + 16, down), text(LEFT + 30, down + 4.5, curve.engine)]


def told(along: str, curves: list[Curve]) -> str:
    """All figures in words."""
    return " ".join(f"{curve.engine}: " + ", ".join(f"{plain(figure.number)} at {plain(figure.at)} {along}"
                                                    for figure in curve.figures) + "." for curve in curves)


def picture_of(sheet: Sheet, figures: Iterable[Figure]) -> str:
    """The picture of some figures, of which there is at least one."""
    curves = curves_of(figures)
    least = [figure for curve in curves for figure in curve.figures]
    plane = Plane.over(sheet, least)
    parts = [f'<svg xmlns="http://www.w3.org/2000/svg" width="{WIDTH}" height="{HEIGHT}" '
             f'viewBox="0 0 {WIDTH} {HEIGHT}" role="img" aria-labelledby="title told">',
             f'<title id="title">{sheet.title} by {sheet.along}</title>',
             f'<desc id="told">{escape(told(sheet.along, curves), quote=False)}</desc>',
             f"<style>{SHAPES}{rules(LIGHT)}@media(prefers-color-scheme:dark){{{rules(DARK)}}}</style>",
             f'<rect class="ground" width="{WIDTH}" height="{HEIGHT}" rx="8"/>', *plane.grid(sheet.along),
             text(MARGIN, 30, sheet.title, "head"), text(MARGIN, 50, sheet.under, "quiet")]
    for place, curve in enumerate(curves):
        kind = place % len(MARKS)
        parts += lines_of(kind, curve, plane) + name(place, kind, curve)
    return "\n".join([*parts, *(number(figure, least, plane) for figure in least), "</svg>", ""])
