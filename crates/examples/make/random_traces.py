"""Random events, with many merges and batches open, and the replies that they are to have.

Each query is one word, and an article is one word. What a batch is to give is
worked out from the plain list of the commands before its look; whether a merge
begins, is installed or is stale from lists of segments.
"""

from __future__ import annotations

import random
from typing import Iterator

from lines import Turn
from segments import MERGED_AT_ONCE, level

EVENTS = 3000
IDS = 8
WORDS = ["tea", "coffee", "milk", "mat"]
MOST_OPEN = 4


class Engine:
    """The registered words by id, the entries of segments, and what is open."""

    def __init__(self, dice: random.Random) -> None:
        self.dice = dice
        self.registered: dict[str, tuple[str, int]] = {}
        self.listed = 0
        self.segments: list[list[int]] = []
        self.merges: dict[int, tuple[list[list[int]], list[int]]] = {}
        self.batches: dict[int, tuple[str, list[str], bool]] = {}

    def live(self) -> set[int]:
        """The numbers of the entries that are registered now."""
        return {entry for _, entry in self.registered.values()}

    def kept(self, segment: list[int]) -> list[int]:
        """The live entries of a segment."""
        live = self.live()
        return [entry for entry in segment if entry in live]

    def id(self) -> str:
        """An id."""
        return f"q{self.dice.randrange(IDS)}"

    def register(self) -> Turn:
        """A register of one query."""
        id, word = self.id(), self.dice.choice(WORDS)
        self.listed += 1
        self.registered[id] = word, self.listed
        self.segments.append([self.listed])
        return Turn({"op": "register", "queries": [{"id": id, "query": word}]}, {"registered": 1})

    def delete(self) -> Turn:
        """A delete of one id."""
        id = self.id()
        return Turn({"op": "delete", "ids": [id]}, {"deleted": int(self.registered.pop(id, None) is not None)})

    def clear(self) -> Turn:
        """A clear: no segment is left."""
        count = len(self.registered)
        self.registered, self.segments = {}, []
        return Turn({"op": "clear"}, {"cleared": count})

    def purge(self) -> Turn:
        """A purge: a segment without dead entries stays as it is."""
        purged = [segment if self.kept(segment) == segment else self.kept(segment) for segment in self.segments]
        self.segments = [segment for segment in purged if segment]
        return Turn({"op": "purge"}, {"step": "purged"})

    def begin(self) -> Turn:
        """A merge of the oldest four neighbours of one level, under a number that is free or used."""
        number = self.dice.randrange(MOST_OPEN)
        if number in self.merges:
            return Turn({"op": "begin", "merge": number}, {"step": "used"})
        levels = [level(len(segment)) for segment in self.segments]
        for first in range(len(levels) - MERGED_AT_ONCE + 1):
            if len(set(levels[first:first + MERGED_AT_ONCE])) == 1:
                sources = self.segments[first:first + MERGED_AT_ONCE]
                self.merges[number] = sources, [entry for segment in sources for entry in self.kept(segment)]
                return Turn({"op": "begin", "merge": number}, {"step": "begun"})
        return Turn({"op": "begin", "merge": number}, {"step": "nothing"})

    def install(self) -> Turn:
        """A merge is installed where its sources still stand next to each other, each the very segment that it was."""
        number = self.dice.randrange(MOST_OPEN)
        if number not in self.merges:
            return Turn({"op": "install", "merge": number}, {"step": "unknown"})
        sources, entries = self.merges.pop(number)
        for first in range(len(self.segments) - MERGED_AT_ONCE + 1):
            if all(here is source for here, source in zip(self.segments[first:], sources)):
                self.segments[first:first + MERGED_AT_ONCE] = [entries] if entries else []
                return Turn({"op": "install", "merge": number}, {"step": "installed"})
        return Turn({"op": "install", "merge": number}, {"step": "stale"})

    def look(self) -> Turn:
        """A batch of one article, and what it is to give whenever it is finished."""
        number, word = self.dice.randrange(MOST_OPEN), self.dice.choice(WORDS)
        event = {"op": "look", "batch": number, "articles": [{"id": "a1", "fields": {"text": word}}]}
        if number in self.batches:
            return Turn(event, {"step": "used"})
        due = sorted(id for id, (wanted, _) in self.registered.items() if wanted == word)
        self.batches[number] = "a1", due, False
        return Turn(event, {"step": "looked"})

    def piece(self) -> Turn:
        """The article of a batch is matched, if it is not yet."""
        number = self.dice.randrange(MOST_OPEN)
        article, due, is_matched = self.batches.get(number, ("", [], True))
        if is_matched:
            return Turn({"op": "piece", "batch": number}, {"step": "unknown"})
        self.batches[number] = article, due, True
        return Turn({"op": "piece", "batch": number}, {"step": "matched"})

    def finish(self) -> Turn:
        """A batch is finished."""
        number = self.dice.randrange(MOST_OPEN)
        if number not in self.batches:
            return Turn({"op": "finish", "batch": number}, {"step": "unknown"})
        article, due, _ = self.batches.pop(number)
        return Turn({"op": "finish", "batch": number}, {"alerts": [{"article": article, "queries": due}]})

    def turn(self) -> Turn:
        """A random event, and its reply but for the number of its line."""
        shares = {self.register: 36, self.delete: 9, self.clear: 1, self.purge: 4, self.begin: 12, self.install: 9,
                  self.look: 13, self.piece: 5, self.finish: 11}
        return self.dice.choices([*shares], weights=[*shares.values()])[0]()


def turns(seed: int) -> Iterator[Turn]:
    """Events with their replies."""
    engine = Engine(random.Random(seed))
    return (engine.turn() for _ in range(EVENTS))
