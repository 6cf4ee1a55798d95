"""Random requests, with the replies that a plain filter gives.

Each query is one word, or two of which either will do, and an article is a few
words; the registered queries are a dictionary.
"""

from __future__ import annotations

import random
from typing import Iterator

from lines import Turn, Value
from plain import LISTENERS, Plain, Standing
from reading import Question

IDS = 40
WORDS = 8
LINES = 600


def asking(words: set[str]) -> Question:
    """Whether an article has one of the words."""
    return lambda fields: bool(words & set(fields["text"]))


class Changes:
    """Random requests, and the replies of a plain engine."""

    def __init__(self, dice: random.Random) -> None:
        self.dice = dice
        self.plain = Plain()

    def id(self) -> str:
        """An id."""
        return f"q{self.dice.randrange(IDS)}"

    def words(self, most: int) -> list[str]:
        """Up to so many words, one at least."""
        return [f"w{self.dice.randrange(WORDS)}" for _ in range(self.dice.randint(1, most))]

    def register(self) -> Turn:
        """A register of one to three queries, and its reply."""
        listed, queries = [], []
        for _ in range(self.dice.randint(1, 3)):
            id, words = self.id(), self.words(2)
            listener = self.dice.choice([None, *LISTENERS])
            text = " ".join(words)
            listed.append({"id": id, "query": text} | ({"listener": listener} if listener else {}))
            queries.append((id, Standing(text, asking(set(words)), listener)))
        return Turn({"op": "register", "queries": listed}, self.plain.register(queries))

    def delete(self) -> Turn:
        """A delete of one or two ids, and its reply."""
        ids = [self.id() for _ in range(self.dice.randint(1, 2))]
        return Turn({"op": "delete", "ids": ids}, self.plain.delete(ids))

    def match(self) -> Turn:
        """A match of one to three articles, and its reply."""
        articles = [(f"a{number}", self.words(3)) for number in range(self.dice.randint(1, 3))]
        listed = [{"fields": {"text": " ".join(words)}, "id": id} for id, words in articles]
        reply = self.plain.match([(id, {"text": words}) for id, words in articles])
        return Turn({"op": "match", "articles": listed}, reply)

    def turn(self) -> Turn:
        """A random request, and its reply but for the number of its line."""
        roll = self.dice.randrange(100)
        if roll == 0:
            return Turn({"op": "clear"}, self.plain.clear())
        if roll < 5:
            return Turn({"op": "purge"}, {"purged": True})
        if roll < 15:
            return self.delete()
        if roll < 20:
            return Turn({"op": "count"}, self.plain.count())
        return self.match() if roll < 50 else self.register()


def turns(seed: int) -> Iterator[Turn]:
    """Requests with their replies."""
    changes = Changes(random.Random(seed))
    return (changes.turn() for _ in range(LINES))
