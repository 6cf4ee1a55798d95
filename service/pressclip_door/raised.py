"""Articles of which queries hold, as the engine's replies tell them."""

from __future__ import annotations

import json
from dataclasses import dataclass
from functools import cached_property
from typing import Any, Mapping, Sequence

Json = dict[str, Any]


class Matched:
    """The articles of a line, which is read where one asks for their fields."""

    def __init__(self, line: bytes) -> None:
        self.line = line

    @cached_property
    def fields(self) -> list[Mapping[str, str]]:
        """The fields of each article."""
        return [article["fields"] for article in json.loads(self.line)["articles"]]


@dataclass(frozen=True)
class Raised:
    """An article with the queries that hold of it, their hits where the engine shows them, and when that was."""

    article: str
    queries: Sequence[str]
    hits: Sequence[Sequence[Json]] | None
    at: float
    matched: Matched
    place: int

    @property
    def fields(self) -> Mapping[str, str]:
        """The article's fields."""
        return self.matched.fields[self.place]

    def part(self, start: int, most: int) -> Raised:
        """The article with so many of its queries, from one on."""
        chosen = slice(start, start + most)
        hits = None if self.hits is None else self.hits[chosen]
        return Raised(self.article, self.queries[chosen], hits, self.at, self.matched, self.place)


def raised_by(line: bytes, alerts: Sequence[Json], at: float, with_hits: bool = True) -> list[Raised]:
    """The articles of a line of which queries hold, by the alerts of its reply, with their hits or without."""
    matched = Matched(line)
    return [Raised(alert["article"], alert["queries"], alert.get("hits") if with_hits else None, at, matched, place)
            for place, alert in enumerate(alerts) if alert["queries"]]
