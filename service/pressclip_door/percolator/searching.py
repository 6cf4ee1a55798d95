"""Searches: which queries hold of documents, and which of them are shown."""

from __future__ import annotations

import asyncio
import json
import time
from dataclasses import dataclass
from typing import Any, Sequence

from ..asking import ask
from ..trial import line_of
from .asked import Found, Percolating, Search, asked_of
from .documents import Document, document_of
from .holding import fields_of, holds
from .index import Held, Index
from .indices import Indices
from .mapping import Kind
from .marking import Marker, marker_of
from .part import Part
from .reader import Reader
from .tree import Group, Node
from .trouble import Trouble

Json = dict[str, Any]
MOST_ARTICLES = 256
MOST_LINE_BYTES = 1_000_000
_TRIED_AT_ONCE = 1_000
SHARDS: Json = {"total": 1, "successful": 1, "skipped": 0, "failed": 0}


@dataclass(frozen=True)
class Hit:
    """A document whose query holds, and of which of those that were percolated."""

    index: Index
    id: str
    held: Held
    slots: tuple[int, ...] = ()


@dataclass(frozen=True)
class Hits:
    """All hits in an index, and what was percolated there."""

    hits: Sequence[Hit]
    articles: Sequence[Json]
    found: Found


class Searcher:
    """Answers searches."""

    def __init__(self, indices: Indices) -> None:
        self._indices = indices
        self._door = indices.door

    async def count(self, names: str, query: Part | None) -> int:
        """How many documents of indices a query finds."""
        return sum([len((await self._hits(index, query)).hits) for index in self._indices.named(names)])

    async def search(self, names: str, search: Search) -> Json:
        """The answer to a search."""
        start = time.monotonic()
        indices = self._indices.named(names)
        markers = {index.name: marker_of(search.highlight, index.fields) for index in indices}
        found = [await self._hits(index, search.query) for index in indices]
        all_hits = [(hit, hits) for hits in found for hit in hits.hits]
        score = None if search.is_sorted else found[0].found.score if found else 1.0
        shown = [await self._shown(hit, hits, (search, score, markers[hit.index.name]))
                 for hit, hits in all_hits[search.first:search.first + search.size]]
        return {"took": int(1e3 * (time.monotonic() - start)), "timed_out": False, "_shards": SHARDS,
                "hits": {"total": {"value": len(all_hits), "relation": "eq"}, "max_score": score if all_hits else None,
                         "hits": shown}}

    async def _hits(self, index: Index, query: Part | None) -> Hits:
        """The documents of an index that a query finds, in the order in which they were kept."""
        found = asked_of(query, index.fields)
        reader = Reader(index.fields, self._indices.cutter)
        filters = [await reader.read(part) for part in found.filters]
        articles: list[Json] = []
        if found.percolating is None:
            hits = [Hit(index, name, held) for name, held in index.all_current(self._door.catalog)]
        else:
            articles = articles_of(index, found.percolating)
            hits = await self._percolated(index, articles)
        if filters:
            hits = await self._filtered(index, hits, Group(must=tuple(filters)))
        return Hits(hits, articles, found)

    async def _percolated(self, index: Index, articles: Sequence[Json]) -> list[Hit]:
        """The documents whose queries hold of articles."""
        slots: dict[str, list[int]] = {}
        front = index.engine_id("")
        for part in parts_of(articles):
            reply = await ask(self._door, {"op": "match", "articles": part}, is_quiet=True)
            for alert in reply["alerts"]:
                for name in alert["queries"]:
                    if name.startswith(front):
                        slots.setdefault(name[len(front):], []).append(int(alert["article"]))
        hits = [Hit(index, name, held, tuple(at)) for name, at in slots.items()
                if (held := index.current(self._door.catalog, name))]
        return sorted(hits, key=lambda hit: hit.held.row.seq)

    async def _filtered(self, index: Index, hits: Sequence[Hit], node: Node) -> list[Hit]:
        """Those hits whose documents a filter holds of. Cost: reads the source of each hit."""
        looked_at = fields_of(node)
        found: list[Hit] = []
        for count, hit in enumerate(hits, 1):
            if count % _TRIED_AT_ONCE == 0:
                await asyncio.sleep(0)
            source = json.loads(self._indices.store.source(hit.held.row.seq))
            document = document_of(index.fields, Part(source, "_source"))
            if holds(node, await self._words(index, document, looked_at)):
                found.append(hit)
        return found

    async def _words(self, index: Index, document: Document, looked_at: set[str]) -> dict[str, list[str]]:
        """The words of those fields that a filter looks at."""
        texts = document.article_fields(index.fields, looked_at)
        of_texts = {one.engine for one in index.fields.fields.values() if one.kind is Kind.TEXT}
        return {name: [cut.word for cut in await self._indices.cutter.cut(text)] if name in of_texts else text.split()
                for name, text in texts.items()}

    async def _shown(self, hit: Hit, hits: Hits, way: tuple[Search, float | None, Marker | None]) -> Json:
        """A hit as a search shows it, with its score and its marks."""
        search, score, marker = way
        shown: Json = {"_index": hit.index.name, "_type": "_doc", "_id": hit.id, "_score": score}
        if search.source.is_shown:
            shown["_source"] = search.source.of(json.loads(self._indices.store.source(hit.held.row.seq)))
        if hits.found.percolating is not None:
            shown["fields"] = {hits.found.percolating.slots: list(hit.slots)}
            if marker is not None and (marked := await self._marked(hit, hits, marker)):
                shown["highlight"] = marked
        return shown

    async def _marked(self, hit: Hit, hits: Hits, marker: Marker) -> Json:
        """The texts of the documents that a hit holds of, marked."""
        articles = [hits.articles[slot] for slot in hit.slots]
        marked: Json = {}
        for part in parts_of(articles):
            reply = await self._door.trial.hits(hit.held.row.query, part)
            if "alerts" not in reply:
                raise Trouble("illegal_argument_exception", f"what is hit can't be marked: {reply.get('refused')}")
            for article, alert in zip(part, reply["alerts"]):
                is_one = len(hits.articles) == 1
                front = "" if is_one else f"{article['id']}_"
                for path, pieces in (await marker.marked(article, alert, self._indices.cutter)).items():
                    marked[front + path] = pieces
        return marked


def articles_of(index: Index, percolating: Percolating) -> list[Json]:
    """Documents as articles, whose ids are their places; of their fields those that some query looks at."""
    fields, looked_at = index.fields, sorted(index.looked_at)
    return [{"id": str(place), "fields": document_of(fields, part).article_fields(fields, looked_at)}
            for place, part in enumerate(percolating.documents)]


def parts_of(articles: Sequence[Json]) -> list[list[Json]]:
    """Articles in lists, each of which one line of the engine has room for; `Trouble` where one alone has none."""
    found: list[list[Json]] = []
    room = 0
    for article in articles:
        cost = len(line_of(article)) + 1
        if cost > MOST_LINE_BYTES:
            raise Trouble("illegal_argument_exception", f"document {article['id']} has over {MOST_LINE_BYTES} bytes")
        if not found or cost > room or len(found[-1]) == MOST_ARTICLES:
            found.append([])
            room = MOST_LINE_BYTES
        found[-1].append(article)
        room -= cost
    return found
