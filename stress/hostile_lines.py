"""Random lines for an engine, most of them broken, each with what is due to it."""

from __future__ import annotations

import json
import random
from typing import Callable, NamedTuple, Union

from lines import Value, line_of
from plain import LISTENERS, Plain, Standing
from reading import Drawing, Fields, Question

IDS, LONGEST, DEEPEST = 60, 1_048_576, 127
# One line in so many changes what is registered, since the engine keeps a history of changes, and one is too long.
CHANGE_IN, LONG_IN = 400, 20_000
# Queries of other forms than rows have.
FORMS: list[tuple[str, Question]] = [
    ("te*", lambda fields: any(word.startswith("te") for word in fields["text"])),
    ("title:[mat TO tea}", lambda fields: any("mat" <= word < "tea" for word in fields["title"])),
    ('"tea milk"', lambda fields: ("tea", "milk") in zip(fields["text"], fields["text"][1:])),
    ("*:* -tea", lambda fields: "tea" not in fields["text"]),
]
# Values that are no request.
MISSHAPEN: list[object] = [
    [], {}, None, 3, "tea", True, [{"op": "count"}], {"op": None}, {"op": "counts"}, {"op": ["count"]}, {"Op": "count"},
    {"op": "count", "x": 1}, {"op": "show"}, {"op": "show", "id": 1}, {"op": "delete", "ids": "q1"},
    {"op": "delete", "ids": [1]}, {"op": "register"}, {"op": "register", "queries": [{"id": "q1"}]},
    {"op": "register", "queries": [{"id": 1, "query": "tea"}]},
    {"op": "register", "queries": [{"id": "q1", "query": "tea", "listener": None}]}, {"op": "register", "queries": {}},
    {"op": "match"}, {"op": "match", "articles": [{"id": "a1"}]},
    {"op": "match", "articles": [{"id": "a1", "fields": []}]},
    {"op": "match", "articles": [{"id": "a1", "fields": {"text": 1}}]},
    {"op": "begin", "merge": 1}, {"op": "piece", "batch": 1},
]
# Bytes with which no JSON value and no blank line begins.
NO_START = b"\x00\x01\x1f\x7f\x80\xc3\xff}]:,x'"


class Any:
    """The due of a line whose reply is free: one of a request that changes nothing, or a refusal."""


ANY = Any()


class Line(NamedTuple):
    """A line without its line feed, and its reply but for the number; no reply, or any."""

    kind: str
    text: bytes
    due: Union[Value, None, Any]


def refused(word: str) -> Value:
    """The reply of a refusal."""
    return {"refused": word}


def spelled(value: object) -> bytes:
    """A value as a line."""
    return line_of(value).rstrip("\n").encode()


class Lines:
    """Draws lines; the plain engine beside it has what was registered."""

    def __init__(self, seed: int) -> None:
        self.dice = random.Random(seed)
        self.rows = Drawing(self.dice)
        self.plain = Plain()
        self.changes = 0
        broken = [self.cut, self.garbled, self.noise, self.misshapen, self.nested, self.beyond, self.bad_query,
                  self.unlisted, self.flipped, self.blank]
        self.kinds: list[Callable[[], Line]] = [*broken, self.match, self.match, self.count, self.show]

    def next(self) -> Line:
        """The next line."""
        if self.dice.randrange(LONG_IN) == 0:
            return self.long()
        if self.dice.randrange(CHANGE_IN) == 0:
            self.changes += 1
            return self.change()
        return self.dice.choice(self.kinds)()

    # Good lines.

    def id(self) -> str:
        """An id."""
        return f"q{self.dice.randrange(IDS)}"

    def query(self) -> tuple[str, Question]:
        """A query's text, and the question that it asks."""
        while True:
            text, question = self.dice.choice(FORMS) if self.dice.randrange(4) == 0 else self.rows.row()
            if question:
                return text, question

    def filled(self) -> Line:
        """A register of a query under each id."""
        return self.register([f"q{number}" for number in range(IDS)])

    def register(self, ids: list[str]) -> Line:
        """A register of these ids, some with a listener."""
        listed, queries = [], []
        for id in ids:
            text, question = self.query()
            listener = self.dice.choice([None, *LISTENERS])
            listed.append({"id": id, "query": text} | ({"listener": listener} if listener else {}))
            queries.append((id, Standing(text, question, listener)))
        return Line("register", spelled({"op": "register", "queries": listed}), self.plain.register(queries))

    def change(self) -> Line:
        """A register, a delete or a purge; a clear is followed by registers soon enough."""
        roll = self.dice.randrange(20)
        if roll == 0:
            return Line("clear", spelled({"op": "clear"}), self.plain.clear())
        if roll < 3:
            return Line("purge", spelled({"op": "purge"}), {"purged": True})
        ids = [self.id() for _ in range(self.dice.randint(1, 8))]
        if roll < 6:
            return Line("delete", spelled({"op": "delete", "ids": ids}), self.plain.delete(ids))
        return self.register(ids)

    def match(self) -> Line:
        """A match of up to two articles."""
        articles = [(f"a{number}", self.rows.fields()) for number in range(self.dice.randint(0, 2))]
        return Line("match", self.match_text(articles), self.plain.match(articles))

    def match_text(self, articles: list[tuple[str, Fields]]) -> bytes:
        """The request that matches the articles."""
        texts = [(id, {name: " ".join(words) for name, words in fields.items()}) for id, fields in articles]
        listed = [{"id": id, "fields": fields} for id, fields in texts]
        return spelled({"op": "match", "articles": listed})

    def count(self) -> Line:
        """A count."""
        return Line("count", spelled({"op": "count"}), self.plain.count())

    def show(self) -> Line:
        """A show."""
        id = self.dice.choice([self.id(), "q", "tea"])
        return Line("show", spelled({"op": "show", "id": id}), self.plain.show(id))

    # Broken lines.

    def harmless(self) -> bytes:
        """A request that changes nothing."""
        return self.dice.choice([self.match, self.count, self.show])().text

    def cut(self) -> Line:
        """A request without its end."""
        text = self.harmless()
        return Line("cut", text[:self.dice.randrange(1, len(text))], refused("json"))

    def garbled(self) -> Line:
        """A request with a byte that is no text."""
        text = self.harmless()
        at = self.dice.randrange(len(text) + 1)
        return Line("garbled", text[:at] + self.dice.choice([b"\xff", b"\xc3", b"\x80", b"\xed\xa0\x80"]) + text[at:],
                    refused("json"))

    def noise(self) -> Line:
        """Bytes."""
        rest = bytes(self.dice.randrange(256) for _ in range(self.dice.randrange(60))).replace(b"\n", b"")
        return Line("noise", bytes([self.dice.choice(NO_START)]) + rest, refused("json"))

    def misshapen(self) -> Line:
        """A value that is no request."""
        return Line("misshapen", spelled(self.dice.choice(MISSHAPEN)), refused("shape"))

    def nested(self) -> Line:
        """Lists in lists."""
        below, above = self.dice.randint(1, DEEPEST), self.dice.randint(DEEPEST + 1, 5_000)
        depth = self.dice.choice([below, DEEPEST, DEEPEST + 1, above])
        return Line("nested", depth * b"[" + depth * b"]", refused("shape" if depth <= DEEPEST else "json"))

    def beyond(self) -> Line:
        """A request beyond a limit."""
        id = self.dice.choice(["", 257 * "i", 129 * "é"])
        field = self.dice.choice(["", "9a", "a-b", "é", " text", 65 * "f"])
        value = self.dice.choice([
            {"op": "show", "id": id},
            {"op": "delete", "ids": ["q1", id]},
            {"op": "register", "queries": [{"id": id, "query": "("}]},
            {"op": "match", "articles": [{"id": id, "fields": {}}]},
            {"op": "match", "articles": [{"id": "a1", "fields": {field: "tea"}}]},
            {"op": "match", "articles": [{"id": "a1", "fields": {f"f{number}": "" for number in range(17)}}]},
            {"op": "match", "articles": 257 * [{"id": "a1", "fields": {}}]} if self.dice.randrange(20) == 0 else
            {"op": "delete", "ids": (1_025 if self.dice.randrange(20) == 0 else 1) * [id]},
        ])
        return Line("beyond", spelled(value), refused("limit"))

    def bad_query(self) -> Line:
        """A register of queries that can all be read but for the last."""
        texts = [self.query()[0] for _ in range(self.dice.randrange(3))]
        while True:
            text, question = self.rows.row()
            if not question:
                break
        listed = [{"id": self.id(), "query": text} for text in (*texts, text)]
        due = {**refused("query"), "which": len(texts)}
        return Line("bad query", spelled({"op": "register", "queries": listed}), due)

    def unlisted(self) -> Line:
        """A register for a listener that is not there."""
        listed = [{"id": self.id(), "query": self.query()[0], "listener": name} for name in ("mail", "fax")]
        return Line("unlisted", spelled({"op": "register", "queries": listed}), {**refused("listener"), "which": 1})

    def flipped(self) -> Line:
        """A request with up to three bytes changed, which change it to none that changes anything."""
        text = bytearray(self.harmless())
        for _ in range(self.dice.randint(1, 3)):
            text[self.dice.randrange(len(text))] = self.dice.choice([byte for byte in range(256) if byte != 10])
        return Line("flipped", bytes(text), ANY)

    def blank(self) -> Line:
        """Nothing but blanks."""
        return Line("blank", self.dice.choice([b"", b" ", b"\t\r", 300 * b" "]), None)

    def long(self) -> Line:
        """A request of too many bytes."""
        text = spelled({"op": "count"})
        return Line("long", text + (LONGEST + self.dice.randint(1, 9) - len(text)) * b" ", refused("long"))


def is_free_reply(reply: Value) -> bool:
    """Whether a reply but for its number is a refusal, or one of a request that changes nothing."""
    members = set(reply)
    return members in ({"refused"}, {"count"}, {"query"}, {"alerts", "notes"})


def is_due(line: Line, number: int, reply: bytes) -> bool:
    """Whether this is the reply to the line of this number."""
    if isinstance(line.due, dict):
        return reply == spelled({**line.due, "line": number})
    value = json.loads(reply)
    return value.pop("line") == number and is_free_reply(value)
