"""Queries that take the place of others, over and over, and articles matched between.

A change gives some of 1,000 ids in turn other texts, each with a word that no
other change has, so neither texts nor terms come twice.
"""

from __future__ import annotations

import json
from typing import Iterator, Sequence

from workload import line_of

IDS = 1_000
CHANGED_AT_ONCE = 100
WORDS = 250


def id_of(place: int) -> str:
    """An id; they are in the byte order of their places."""
    return f"q{place:03}"


def word_of(place: int, change: int) -> int:
    """Which word the query that a change put there asks for."""
    return (7 * place + change) % WORDS


def register_line(places: Sequence[int], change: int) -> bytes:
    """The change that gives these places their queries, each 33 bytes or a few more."""
    return line_of({"op": "register", "queries": [
        {"id": id_of(place), "query": f'+tea +w{word_of(place, change)} -"iced coffee{change}"'} for place in places]})


def match_line(change: int) -> bytes:
    """An article with one of the words."""
    text = f"Tea of w{change % WORDS} is dear again, and iced coffee{change + 1} is not."
    return line_of({"op": "match", "articles": [{"id": f"a{change}", "fields": {"text": text}}]})


class Replacing:
    """The changes in their order, with what is due after each."""

    def __init__(self) -> None:
        self._change = 0
        self._of = [0] * IDS

    def first(self) -> bytes:
        """The register that gives each id its first query."""
        return register_line(range(IDS), 0)

    def lines(self, replaced: int) -> Iterator[bytes]:
        """The changes that replace so many queries, and an article after each."""
        for _ in range(replaced // CHANGED_AT_ONCE):
            self._change += 1
            first = self._change * CHANGED_AT_ONCE % IDS
            places = range(first, first + CHANGED_AT_ONCE)
            for place in places:
                self._of[place] = self._change
            yield register_line(places, self._change)
            yield match_line(self._change)

    def due(self) -> list[str]:
        """The ids of the queries that hold of the last article."""
        word = self._change % WORDS
        return [id_of(place) for place, change in enumerate(self._of) if word_of(place, change) == word]

    def is_right(self, reply: bytes) -> bool:
        """Whether it is the reply to the last article."""
        return bool(json.loads(reply).get("alerts") == [{"article": f"a{self._change}", "queries": self.due()}])
