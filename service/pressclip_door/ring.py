"""The last alerts, each with a number, so that who listens may go on where it was."""

from __future__ import annotations

import json
from collections import deque
from dataclasses import dataclass, field
from typing import Any, Callable

from .raised import Raised

Json = dict[str, Any]
# An article with more queries has several alerts.
MOST_QUERIES = 1_000
_BYTES_BESIDE = 500
_MOST_TITLE = 200


@dataclass
class Alert:
    """Queries that hold of an article, under a number. `excerpts` are made where somebody asks for them."""

    number: int
    raised: Raised
    excerpts: list[Json] | None = field(default=None)

    def size(self) -> int:
        """About how many bytes it takes."""
        raised = self.raised
        hits = 100 * sum(map(len, raised.hits)) if raised.hits else 0
        return _BYTES_BESIDE + hits + sum(map(len, raised.queries)) + len(raised.matched.line)

    def document(self, prefix: str, with_excerpts: bool) -> Json | None:
        """It as JSON, with the queries whose ids begin so alone; None where none does. With excerpts it has its time
        too, in seconds of the epoch, and the field `title` where there is one."""
        raised = self.raised
        queries = [query for query in raised.queries if query.startswith(prefix)] if prefix else list(raised.queries)
        if not queries:
            return None
        said: Json = {"article": raised.article, "queries": queries}
        if with_excerpts:
            named = set(queries)
            said["excerpts"] = [one for one in self.excerpts or () if one["query"] in named]
            said["at"] = round(raised.at, 3)
            if "title" in raised.fields:
                said["title"] = raised.fields["title"][:_MOST_TITLE]
        return said


def compact(value: Json) -> str:
    """A value as a line of JSON."""
    return json.dumps(value, ensure_ascii=False, separators=(",", ":"))


class Ring:
    """The last so many alerts, and so many bytes. `epoch` names this life of the door, as numbers begin anew in each."""

    def __init__(self, epoch: str, most: int, most_bytes: int) -> None:
        self.epoch = epoch
        self.next_number = 1
        self.wakes: list[Callable[[], None]] = []
        self._alerts: deque[Alert] = deque()
        self._sizes: deque[int] = deque()
        self._bytes = 0
        self._most = most
        self._most_bytes = most_bytes

    def add(self, raised: Raised) -> None:
        """Takes the next alert, and wakes whoever listens. The oldest go where there are too many."""
        for start in range(0, len(raised.queries), MOST_QUERIES):
            alert = Alert(self.next_number, raised.part(start, MOST_QUERIES))
            self.next_number += 1
            self._alerts.append(alert)
            self._sizes.append(alert.size())
            self._bytes += self._sizes[-1]
        while len(self._alerts) > self._most or (self._bytes > self._most_bytes and len(self._alerts) > 1):
            self._alerts.popleft()
            self._bytes -= self._sizes.popleft()
        for wake in self.wakes:
            wake()

    @property
    def first_number(self) -> int:
        """The number of the oldest that is there, or the next where none is."""
        return self.next_number - len(self._alerts)

    def after(self, number: int, most: int) -> list[Alert]:
        """Those behind a number that are still there, in order, up to so many."""
        start = max(0, number + 1 - self.first_number)
        return [self._alerts[place] for place in range(start, min(start + most, len(self._alerts)))]

    def name_of(self, number: int) -> str:
        """How an alert is named to those who listen."""
        return f"{self.epoch}-{number}"

    def number_of(self, name: str) -> int | None:
        """The number of an alert by its name; None where it was of another life, or is no name."""
        epoch, _, number = name.partition("-")
        if epoch != self.epoch or not number.isascii() or not number.isdigit():
            return None
        return int(number[:18])
