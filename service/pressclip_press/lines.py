"""Lines of the protocol, with queries of the dialect and plain articles, as lines for the engine."""

from __future__ import annotations

import json
import re
from collections.abc import Collection, Mapping, Sequence
from dataclasses import dataclass
from typing import Any

from pressclip_service.lines import MOST_LINE_BYTES
from pressclip_service.live import text_of

from .backwards import backwards
from .filtering import BACKWARDS, Filter
from .preparing import Prepared, Preparer
from .sources import Source, as_written, with_source
from .translating import Translated, translate
from .tree import Refused

# What no engine takes as a query: it stands for one that can't be said, so that the engine answers in its order.
_NO_QUERY = '"'
_MOST_FIELDS = 16
_NAME = re.compile(r"[A-Za-z_][A-Za-z0-9_]{0,63}")
# Fields of which there is one backwards, where it is not known which are asked for.
_BACKWARDS_OF = ("text", "title", "body", "host", "url")


@dataclass(frozen=True)
class Listed:
    """A query of a register line: its id, what decides beside the engine, and why it can't be said where it can't."""

    id: str
    source: Source
    translated: Translated | None
    refused: Refused | None

    @property
    def filter(self) -> Filter | None:
        """What decides beside the engine."""
        return self.translated.filter if self.translated else None

    @property
    def query(self) -> str:
        """The engine's query, or what it refuses as one."""
        return with_source(self.translated.query, self.source) if self.translated else _NO_QUERY


@dataclass(frozen=True)
class Register:
    """A register line: the engine's, and the queries."""

    line: bytes
    queries: Sequence[Listed]


@dataclass(frozen=True)
class Match:
    """A match line: the engine's lines, of which each has some of the articles, and the articles prepared."""

    lines: Sequence[bytes]
    articles: Sequence[Prepared]


@dataclass(frozen=True)
class Delete:
    """A delete line, and its ids."""

    line: bytes
    ids: Sequence[str]


@dataclass(frozen=True)
class Passed:
    """A line that the engine gets as it came, and its operation, where it has one."""

    line: bytes
    operation: str


@dataclass(frozen=True)
class NotAsked:
    """A line that the engine is not asked: the word of its refusal, and why."""

    word: str
    why: str


def _no_constant(word: str) -> None:
    raise ValueError(word)


class Rewriter:
    """Makes the engine's lines. What is no register or match of the protocol's shape is passed on, and the engine
    refuses it."""

    def __init__(self, preparer: Preparer) -> None:
        self._preparer = preparer
        # Fields of days and numbers whose text was none, each once, until they are told.
        self.unread: dict[str, str] = {}

    def rewritten(self, line: bytes, fields: Collection[str] | None) -> Register | Match | Delete | Passed | NotAsked:
        """The line for the engine, its articles with the fields that are asked for, or with all."""
        if len(line) > MOST_LINE_BYTES:
            return Passed(line, "")
        try:
            value = json.loads(line.decode(), parse_constant=_no_constant)
        except (ValueError, RecursionError):
            return Passed(line, "")
        if not isinstance(value, dict):
            return Passed(line, "")
        operation = value.get("op")
        try:
            if operation == "register" and value.keys() == {"op", "queries"} and _are_listings(value["queries"]):
                return self._register(value["queries"])
            if operation == "match" and value.keys() == {"op", "articles"} and _are_articles(value["articles"]):
                return self._match(value["articles"], fields)
        except UnicodeEncodeError:
            return Passed(line, "")
        if operation == "delete" and value.keys() == {"op", "ids"} and _are_texts(value["ids"]):
            return Delete(line, value["ids"])
        return Passed(line, operation if isinstance(operation, str) else "")

    def _register(self, listings: Sequence[dict[str, str]]) -> Register | NotAsked:
        queries = [self.listed(listing) for listing in listings]
        written = [{**listing, "query": listed.query} for listing, listed in zip(listings, queries)]
        line = text_of({"op": "register", "queries": written})
        if len(line) > MOST_LINE_BYTES:
            return NotAsked("long", "its queries, translated, are longer than a line may be")
        return Register(line, queries)

    def listed(self, listing: dict[str, str]) -> Listed:
        """A query as a register line lists it. One of the engine's, as of a dump, is what the desk wrote in it."""
        source = Source(as_written(listing["query"]), "listener" in listing)
        source.query.encode()
        try:
            return Listed(listing["id"], source, translate(source.query, self._preparer), None)
        except Refused as refused:
            return Listed(listing["id"], source, None, refused)

    def _made_too(self, fields: Mapping[str, str]) -> str | None:
        """The first field of an article that is made of others too."""
        made = [*self._preparer.made_too(fields), *(name for name in fields if name.endswith(BACKWARDS))]
        return made[0] if made else None

    def _match(self, articles: Sequence[dict[str, Any]], fields: Collection[str] | None) -> Match | NotAsked:
        for article in articles:
            if made := self._made_too(article["fields"]):
                return NotAsked("shape", f"article {article['id']!r} has a field {made}, which is made of others")
        prepared = [self._preparer.prepared(article["fields"]) for article in articles]
        for article, one in zip(articles, prepared):
            for name in one.unread():
                self.unread.setdefault(name, article["id"])
        written = [text_of({"id": article["id"], "fields": fields_of(one, fields)})
                   for article, one in zip(articles, prepared)]
        front, back = b'{"op":"match","articles":[', b"]}"
        room = MOST_LINE_BYTES - len(front) - len(back)
        groups: list[list[bytes]] = [[]]
        size = 0
        for item in written:
            if len(item) > room:
                return NotAsked("long", "an article, prepared, is longer than a line may be")
            if size + len(item) + 1 > room:
                groups.append([])
                size = 0
            groups[-1].append(item)
            size += len(item) + 1
        return Match([front + b",".join(group) + back for group in groups], prepared)


def fields_of(article: Prepared, names: Collection[str] | None) -> dict[str, str]:
    """An article's fields for the engine: those of the names, or all."""
    if names is None:
        made = article.fields()
        made.update({_backwards_name(name): backwards(text) for name, text in made.items() if name in _BACKWARDS_OF})
        return made
    made = article.fields([name for name in names if not name.endswith(BACKWARDS)])
    for name in names:
        if name.endswith(BACKWARDS):
            forward = name.removesuffix(BACKWARDS).rstrip("_") or "text"
            if text := article.fields((forward,)).get(forward):
                made[name] = backwards(text)
    return made


def _backwards_name(name: str) -> str:
    return BACKWARDS if name == "text" else f"{name}_{BACKWARDS}"


def _are_texts(value: object) -> bool:
    return isinstance(value, list) and all(isinstance(one, str) for one in value)


def _are_listings(value: object) -> bool:
    return isinstance(value, list) and all(
        isinstance(one, dict) and {"id", "query"} <= one.keys() <= {"id", "query", "listener"}
        and all(isinstance(text, str) for text in one.values()) for one in value)


def _are_articles(value: object) -> bool:
    """Whether articles have the protocol's shape, and no more fields and no others than it takes."""
    return isinstance(value, list) and all(
        isinstance(one, dict) and one.keys() == {"id", "fields"} and isinstance(one["id"], str)
        and isinstance(one["fields"], dict) and len(one["fields"]) <= _MOST_FIELDS
        and all(isinstance(text, str) and _NAME.fullmatch(name) for name, text in one["fields"].items())
        for one in value)
