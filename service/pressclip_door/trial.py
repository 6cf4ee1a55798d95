"""Trying a query that is not registered on articles, by an engine of its own."""

from __future__ import annotations

import asyncio
import json
from typing import Any, Awaitable, Sequence

from .engine import Batch, Engine, Room

Json = dict[str, Any]
_CLEAR = b'{"op":"clear"}'


class _Nobody:
    """Follows nothing."""

    def follow(self, batch: Batch) -> Awaitable[None] | None:
        """Takes nothing."""
        return None

    def told(self, text: str) -> None:
        """Passes it over."""

    def began(self, seconds: float) -> None:
        """Nothing is heard."""

    def ended(self, status: int) -> None:
        """Passes it over."""


class Trial:
    """An engine that shows hits and is cleared after each question."""

    def __init__(self, command: Sequence[str]) -> None:
        self._engine = Engine(command, Room(), _Nobody())

    async def start(self) -> None:
        """Starts its engine."""
        await self._engine.start()

    async def stop(self) -> None:
        """Ends its engine."""
        await self._engine.stop()

    async def hits(self, query: str, articles: Sequence[Json]) -> Json:
        """The engine's reply to a match of these articles by the one query, whose id is `query`, with hits; or its
        refusal of the query or of the articles. `Behind` and `Ended` as of an engine."""
        register = line_of({"op": "register", "queries": [{"id": "query", "query": query}]})
        match = line_of({"op": "match", "articles": list(articles)})
        replies = await asyncio.gather(*(self._engine.ask(line) for line in (register, match, _CLEAR)))
        registered, matched, _ = (json.loads(reply) for reply in replies)
        refused: Json = registered if "refused" in registered else matched
        return refused


def line_of(value: Json) -> bytes:
    """A value as a line of the protocol."""
    return json.dumps(value, ensure_ascii=False, separators=(",", ":")).encode(errors="surrogatepass")
