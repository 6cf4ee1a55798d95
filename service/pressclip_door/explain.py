"""`/explain`, `/words` and `/try`: what a query means, how a text is cut, and where an unsaved query holds."""

from __future__ import annotations

from typing import Any

from aiohttp import web

from .bodies import object_of, of_json, with_members
from .dialects import dialect_of
from .door import Door
from .guard import needs
from .marking import Marker, by_query
from .problems import Problem
from .settings import PRESS
from .tokens import Role

Json = dict[str, Any]
_EVERY = "*:*"


class Explaining:
    """The handlers."""

    def __init__(self, door: Door) -> None:
        self._door = door

    @needs(Role.READ)
    async def explain(self, request: web.Request) -> web.Response:
        """How a query's text is read, or its fault."""
        dialect = dialect_of(self._door, request)
        body = with_members(await object_of(self._door, request), {"query": str})
        explain = self._door.desk.explain if dialect == PRESS else self._door.explainer.explain
        return told(await explain(body["query"]))

    @needs(Role.READ)
    async def words(self, request: web.Request) -> web.Response:
        """The words of a text."""
        body = with_members(await object_of(self._door, request), {"text": str})
        return told(await self._door.explainer.words(body["text"]))

    @needs(Role.READ)
    async def attempt(self, request: web.Request) -> web.Response:
        """Whether a query that is not registered holds of an article, and where."""
        dialect = dialect_of(self._door, request)
        body = with_members(await object_of(self._door, request), {"query": str, "article": dict})
        if dialect == PRESS:
            return await self._by_desk(body["query"], body["article"])
        reply = await self._door.trial.hits(body["query"], [body["article"]])
        if "refused" in reply:
            raise await self._refusal(body["query"], reply)
        alert = reply["alerts"][0]
        marker = Marker(self._door.explainer, body["article"]["fields"])
        marked = [one for query, hits in by_query(alert) for one in await marker.marked(query, hits)]
        return of_json({"holds": bool(alert["queries"]), "marked": marked})

    async def _by_desk(self, query: str, article: Json) -> web.Response:
        """Whether a query of the press dialect holds. The engine says whether the article can be taken at all."""
        read = await self._door.desk.explain(query)
        if "fault" in read:
            raise Problem("query", read["says"], fault=read["fault"], at=read["at"], member="query")
        reply = await self._door.trial.hits(_EVERY, [article])
        if "refused" in reply:
            raise Problem(reply["refused"], member="article")
        return of_json({"holds": await self._door.desk.holds(query, article["fields"]), "marked": []})

    async def _refusal(self, query: str, reply: Json) -> Problem:
        """The problem that a refusal of the query or of the article is."""
        if reply["refused"] != "query":
            return Problem(reply["refused"], member="article")
        read = await self._door.explainer.explain(query)
        return Problem("query", read.get("says", ""), fault=read.get("fault"), at=read.get("at"), member="query")


def told(said: Json) -> web.Response:
    """What the explaining program said; `Problem` where it refused the line itself, as one that is too long."""
    if "refused" in said:
        raise Problem(said["refused"], said.get("says", ""))
    return of_json(said)


def routes(door: Door) -> list[web.RouteDef]:
    """The routes of explaining."""
    explaining = Explaining(door)
    return [web.post("/explain", explaining.explain), web.post("/words", explaining.words),
            web.post("/try", explaining.attempt)]
