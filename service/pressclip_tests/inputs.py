"""Random inputs: lines of every kind, with ids that are hard to put together again."""

from __future__ import annotations

import json
from random import Random
from typing import Callable

WORDS = [f"w{number}" for number in range(24)]
ODD_IDS = ["x in y", "x", "y in z", "z", "a/b", "a", "b/c", "quote\"d", "back\\slash", "tab\there", "\u007f", "\u0001",
           "é", "ﬀ", "\U0001f375", "\uffff", "ä in é", " ", "line\nfeed", ",\"line\":7", "q" * 256]
LISTENERS = ["mail", "feed"]
LONG = 1_048_576


def dumped(value: object, dice: Random) -> bytes:
    """The value as JSON in one of several spellings."""
    spaced = dice.random() < 0.2
    return json.dumps(value, ensure_ascii=dice.random() < 0.3, separators=None if spaced else (",", ":")).encode()


class Source:
    """Lines from a seed."""

    def __init__(self, seed: int, ids: int = 120) -> None:
        self.dice = Random(f"service {seed}")
        self.ids = [f"q{number}" for number in range(ids)] + ODD_IDS
        self.turns: list[tuple[Callable[[], bytes], int]] = [
            (self.register, 40), (self.match, 30), (self.delete, 9), (self.show, 6), (self.count, 4), (self.purge, 2),
            (self.refused, 7), (self.blank, 2)]

    def lines(self, count: int) -> list[bytes]:
        """So many lines without their line feeds, a clear now and then among them."""
        turns, shares = zip(*self.turns)
        lines = [turn() for turn in self.dice.choices(turns, shares, k=count)]
        for place in self.dice.sample(range(count), max(1, count // 300)):
            lines[place] = b'{"op":"clear"}'
        return lines

    def id(self) -> str:
        """An id, often one that was used before."""
        return self.dice.choice(self.ids)

    def text(self, most: int) -> str:
        """A query's text."""
        dice = self.dice
        parts = [dice.choice(["", "", "+", "-"]) + dice.choice(WORDS) for _ in range(dice.randint(1, most))]
        return " ".join(parts) if dice.random() < 0.9 else dice.choice(WORDS)[:1] + "*"

    def listing(self) -> dict[str, str]:
        """A query as a register lists it."""
        listing = {"id": self.id(), "query": self.text(3)}
        if self.dice.random() < 0.5:
            listing["listener"] = self.dice.choice(LISTENERS)
        return listing

    def register(self) -> bytes:
        """A register of none to six queries."""
        listed = [self.listing() for _ in range(self.dice.randint(0, 6))]
        return dumped({"op": "register", "queries": listed}, self.dice)

    def delete(self) -> bytes:
        """A delete of none to four ids, some of them twice."""
        return dumped({"ids": [self.id() for _ in range(self.dice.randint(0, 4))] * self.dice.choice([1, 1, 2]),
                       "op": "delete"}, self.dice)

    def article(self) -> dict[str, object]:
        """An article, in one field or in two."""
        words = " ".join(self.dice.choices(WORDS, k=self.dice.randint(0, 12)))
        fields = {"text": words} if self.dice.random() < 0.8 else {"text": words, "title": "W1 w2"}
        return {"id": self.id() if self.dice.random() < 0.5 else f"a{self.dice.randint(0, 99)}", "fields": fields}

    def match(self) -> bytes:
        """A match of none to a few articles."""
        count = self.dice.choice([0, 1, 1, 1, 1, 2, 3, 8])
        return dumped({"op": "match", "articles": [self.article() for _ in range(count)]}, self.dice)

    def show(self) -> bytes:
        """A show."""
        return dumped({"op": "show", "id": self.id()}, self.dice)

    def count(self) -> bytes:
        """A count."""
        return b'{"op":"count"}'

    def purge(self) -> bytes:
        """A purge."""
        return b'{"op":"purge"}'

    def blank(self) -> bytes:
        """A line that has no reply."""
        return self.dice.choice([b"", b" ", b"\t\r", b"\r", b"  \t "])

    def refused(self) -> bytes:
        """A line that is refused, for any of the reasons, or just not."""
        return self.dice.choice(REFUSED)(self)

    def late_fault(self) -> bytes:
        """A register whose last query is refused, or has an unknown listener."""
        last = self.dice.choice([{"id": "q1", "query": "tea~"}, {"id": "q1", "query": ""},
                                 {"id": "q1", "query": "tea", "listener": "fax"},
                                 {"id": "q1", "query": "\"", "listener": "fax"}])
        return dumped({"op": "register", "queries": [self.listing(), self.listing(), last]}, self.dice)


REFUSED: tuple[Callable[[Source], bytes], ...] = (
    lambda source: b'{"op":"register","queries":[{"id":"q1","query":"w1"}',
    lambda source: b'{"op":"count"}}',
    lambda source: b'{"op":"show","id":"\xff"}',
    lambda source: b'{"op":"show","id":"\\ud800"}',
    lambda source: b"\xef\xbb\xbf" + b'{"op":"count"}',
    lambda source: b"[" * 200,
    lambda source: b"[]",
    lambda source: b'{"op":"look"}',
    lambda source: b'{"op":"count","id":"q1"}',
    lambda source: b'{"op":"delete","ids":["q1",7]}',
    lambda source: b'{"op":"register","queries":[{"id":"q1","query":"w1","listener":null}]}',
    lambda source: b'{"op":"match","articles":[{"id":"a1","fields":{"text":1}}]}',
    lambda source: b'{"op":"delete","ids":["q1",""]}',
    lambda source: dumped({"op": "delete", "ids": ["q2", "q" * 257]}, source.dice),
    lambda source: dumped({"op": "delete", "ids": ["q3"] * 1_025}, source.dice),
    lambda source: dumped({"op": "match", "articles": [source.article()] * 257}, source.dice),
    lambda source: b'{"op":"match","articles":[{"id":"a1","fields":{"1x":"w1"}}]}',
    lambda source: b'{"op":"count"}\r',
    lambda source: b'{"op":"clear","op":"count"}',
    lambda source: b'{"op":"show","id":"q2","\\u0069d":"q\\u0031"}',
    lambda source: b'{"op":"register","queries":[{"id":"q1","id":"q4","query":"w1","query":"w2"}]}',
    Source.late_fault,
    Source.late_fault,
)


def long_lines(dice: Random) -> list[bytes]:
    """Lines at the limit of a line's length, and beyond it."""
    whole = b'{"op":"count"}'
    return [whole.ljust(LONG), whole.ljust(LONG + 1), b" " * LONG, b" " * (LONG + 1),
            b"x" * (3 * LONG + dice.randint(0, 9))]


def with_long_lines(lines: list[bytes], dice: Random) -> list[bytes]:
    """The lines, with a few long ones among them."""
    for line in long_lines(dice):
        lines.insert(dice.randint(0, len(lines)), line)
    return lines


def joined(lines: list[bytes]) -> bytes:
    """The lines as input."""
    return b"".join(line + b"\n" for line in lines)
