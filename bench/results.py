"""What the commands that measure found, in files from which `bench/pages` writes the tables of the pages.

A file has a JSON object on each line, for each row and engine.
"""

from __future__ import annotations

import json
import statistics
from dataclasses import asdict, dataclass
from pathlib import Path
from typing import Iterable


@dataclass(frozen=True)
class Found:
    """What an engine took for a row: queries that it registered a second, microseconds an article of each pass or of a
    line, microseconds of processor time, and the bytes that it grew by in all."""

    row: str
    engine: str
    queries: int
    registered: float
    passes: list[float]
    cpu: float
    grown: int

    @property
    def median(self) -> float:
        """The median pass."""
        return statistics.median(self.passes)

    @property
    def best(self) -> float:
        """The best pass."""
        return min(self.passes)


def write_results(path: Path, results: Iterable[Found]) -> None:
    """Writes the file."""
    path.write_text("".join(json.dumps(asdict(found)) + "\n" for found in results), "utf-8")


def read_results(path: Path) -> list[Found]:
    """The results of a file; a `ValueError` names a line that is none."""
    results = []
    for number, line in enumerate(path.read_text("utf-8").splitlines(), 1):
        try:
            results.append(Found(**json.loads(line)))
        except (TypeError, ValueError):
            raise ValueError(f"{path}, line {number}: no result") from None
    return results
