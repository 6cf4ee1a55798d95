"""Figures of a picture: a number of an engine at another number, as microseconds an article at registered queries.

A file of figures has one on each line, as `engine at number`, so `pressclip
1000 186`; the engine's name may have spaces. Lines that are empty or begin with
`#` say none.
"""

from __future__ import annotations

import math
from dataclasses import dataclass
from pathlib import Path
from typing import Iterable


@dataclass(frozen=True)
class Figure:
    """A number, and what it was measured at."""

    engine: str
    at: int
    number: float


@dataclass(frozen=True)
class Curve:
    """The figures of one engine, by what they were measured at."""

    engine: str
    figures: list[Figure]


def figure_of(line: str) -> Figure:
    """The figure of a line."""
    engine, at, number = line.rsplit(maxsplit=2)
    figure = Figure(engine.strip(), int(at.replace(",", "")), float(number.replace(",", "")))
    if figure.at < 1 or not 0 < figure.number < math.inf:
        raise ValueError(line)
    return figure


def read_figures(path: Path) -> list[Figure]:
    """The figures of a file; a `ValueError` names a line that says none."""
    found = []
    for number, line in enumerate(path.read_text("utf-8").splitlines(), 1):
        if line.strip() and not line.startswith("#"):
            try:
                found.append(figure_of(line))
            except ValueError:
                raise ValueError(f"{path}, line {number}: not `engine at number`") from None
    return found


def write_figures(path: Path, figures: Iterable[Figure]) -> None:
    """Writes the figures of `curves_of`, in the form that `read_figures` takes."""
    lines = [f"{figure.engine} {figure.at} {figure.number:.1f}\n"
             for curve in curves_of(figures) for figure in curve.figures]
    path.write_text("".join(lines), "utf-8")


def curves_of(figures: Iterable[Figure]) -> list[Curve]:
    """A curve for each engine, in the order in which the engines come first. Of several figures of an engine that were
    measured at one number the least counts."""
    least: dict[str, dict[int, Figure]] = {}
    for figure in figures:
        known = least.setdefault(figure.engine, {})
        if figure.at not in known or figure.number < known[figure.at].number:
            known[figure.at] = figure
    return [Curve(engine, [known[at] for at in sorted(known)]) for engine, known in least.items()]
