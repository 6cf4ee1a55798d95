"""`/queries`: registering, showing, listing and deleting."""

from __future__ import annotations

import asyncio
from itertools import islice
from typing import Any

from aiohttp import web

from .asking import ask
from .bodies import limit_of, object_of, of_json, with_members
from .dialects import need_own
from .door import Door
from .guard import needs
from .problems import Problem
from .tokens import Role

Json = dict[str, Any]
MOST_LISTED = 1_000
USUAL_LISTED = 100
_SEARCHED_AT_ONCE = 5_000


class Queries:
    """The handlers."""

    def __init__(self, door: Door) -> None:
        self._door = door

    async def put(self, request: web.Request) -> web.Response:
        """Registers a query under an id, or replaces it."""
        need_own(self._door, request)
        name = request.match_info["id"]
        body = with_members(await object_of(self._door, request), {"query": str}, {"listener": str})
        is_new = self._door.catalog.get(name) is None
        await ask(self._door, {"op": "register", "queries": [{"id": name, **body}]})
        return of_json({"id": name, **body}, status=201 if is_new else 200)

    async def get(self, request: web.Request) -> web.Response:
        """Shows the query under an id."""
        name = request.match_info["id"]
        shown = await ask(self._door, {"op": "show", "id": name})
        if shown["query"] is None:
            raise Problem("missing", "no query is under this id")
        listing = self._door.catalog.get(name)
        more = {} if listing is None or listing.listener is None else {"listener": listing.listener}
        return of_json({"id": name, "query": shown["query"], **more})

    async def delete(self, request: web.Request) -> web.Response:
        """Deletes the query under an id."""
        done = await ask(self._door, {"op": "delete", "ids": [request.match_info["id"]]})
        if not done["deleted"]:
            raise Problem("missing", "no query is under this id")
        return of_json(done)

    async def post(self, request: web.Request) -> web.Response:
        """Registers many, all or none."""
        need_own(self._door, request)
        body = with_members(await object_of(self._door, request), {"queries": list})
        return of_json(await ask(self._door, {"op": "register", "queries": body["queries"]}))

    @needs(Role.ADMIN)
    async def clear(self, request: web.Request) -> web.Response:
        """Deletes all."""
        return of_json(await ask(self._door, {"op": "clear"}))

    async def list(self, request: web.Request) -> web.Response:
        """A page of the ids with their queries, in byte order: those behind `after`, that begin with `prefix`, and
        whose id or text has `search` in any case."""
        limit = limit_of(request, USUAL_LISTED, MOST_LISTED)
        prefix, search = request.query.get("prefix", ""), request.query.get("search", "").casefold()
        found: list[Json] = []
        after = max(request.query.get("after", ""), prefix[:-1] if prefix else "")
        for count, listing in enumerate(self._door.catalog.after(after), 1):
            if count % _SEARCHED_AT_ONCE == 0:
                await asyncio.sleep(0)
            if prefix and not listing.id.startswith(prefix):
                if listing.id > prefix:
                    break
                continue
            if search in listing.id.casefold() or search in listing.query.casefold():
                found.append(listing.document())
                if len(found) > limit:
                    break
        more = {"next": found[limit - 1]["id"]} if len(found) > limit else {}
        page = list(islice(found, limit))
        return of_json({"count": len(self._door.catalog), "queries": page, **more})


def routes(door: Door) -> list[web.RouteDef]:
    """The routes of queries."""
    queries = Queries(door)
    return [web.put("/queries/{id}", queries.put), web.get("/queries/{id}", queries.get),
            web.delete("/queries/{id}", queries.delete), web.get("/queries", queries.list),
            web.post("/queries", queries.post), web.delete("/queries", queries.clear)]
