"""How many segments the engine holds after its lines. Replies do not tell it: it is worked out here, by the rule of
merging. After each change that is accepted the oldest four neighbouring segments of one level become one, or, where
there are no such four, all from the oldest on behind which one has a higher level, until there are none either. What
becomes of them has those of their entries that are live, and there is none where none is."""

from __future__ import annotations

import json
from typing import Iterable

MERGED_AT_ONCE = 4


def level(entries: int) -> int:
    """How many divisions by 4, rounding down, bring a number of entries below 4."""
    divisions = 0
    while entries >= MERGED_AT_ONCE:
        entries //= MERGED_AT_ONCE
        divisions += 1
    return divisions


class Shelf:
    """Segments as lists of seqs, and the live seq of each id."""

    def __init__(self) -> None:
        self.segments: list[list[int]] = []
        self._live: dict[str, int] = {}
        self._seqs: set[int] = set()
        self._listed = 0

    def take(self, lines: Iterable[bytes]) -> None:
        """The changes of some lines, each with its merge turns. Every change is taken to be accepted."""
        for line in lines:
            request = json.loads(line)
            if request["op"] == "register":
                self._register([query["id"] for query in request["queries"]])
                self._merge()
            elif request["op"] == "delete":
                for id in request["ids"]:
                    self._seqs.discard(self._live.pop(id, 0))
                self._merge()

    def _register(self, ids: list[str]) -> None:
        first = self._listed + 1
        for id in ids:
            self._listed += 1
            self._seqs.discard(self._live.get(id, 0))
            self._live[id] = self._listed
            self._seqs.add(self._listed)
        if ids:
            self.segments.append([seq for seq in range(first, self._listed + 1) if seq in self._seqs])

    def _merge(self) -> None:
        while (turn := self._turn()) is not None:
            first, past = turn
            merged = [seq for segment in self.segments[first:past] for seq in segment if seq in self._seqs]
            self.segments[first:past] = [merged] if merged else []

    def _turn(self) -> tuple[int, int] | None:
        """The place of the first segment that a turn merges, and that past the last."""
        levels = [level(len(segment)) for segment in self.segments]
        for first in range(len(levels) - MERGED_AT_ONCE + 1):
            if len(set(levels[first:first + MERGED_AT_ONCE])) == 1:
                return first, first + MERGED_AT_ONCE
        for first, here in enumerate(levels):
            if any(here < behind for behind in levels[first:]):
                return first, len(levels)
        return None


def segments_after(passes: Iterable[list[bytes]]) -> int:
    """The number of segments after all lines."""
    shelf = Shelf()
    for lines in passes:
        shelf.take(lines)
    return len(shelf.segments)
