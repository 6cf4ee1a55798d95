"""`/articles`: matching them, with hits and marked text where asked, and the last ones that came."""

from __future__ import annotations

import json
from typing import Any

from aiohttp import web

from .asking import ask_line
from .bodies import body_of, is_asked, limit_of, object_in, of_json, with_members
from .door import Door
from .marking import Marker, by_query, size_of
from .problems import Problem
from .settings import CLASSIC

Json = dict[str, Any]
USUAL_LISTED = 20
MOST_LISTED = 100
NO_PLACES = "in the press dialect they are places in prepared articles, and not in those that came"


class Articles:
    """The handlers."""

    def __init__(self, door: Door) -> None:
        self._door = door

    async def post(self, request: web.Request) -> web.Response:
        """Says which queries hold of each article; with `hits=true` also where, with `marked=true` in the texts."""
        text = await body_of(self._door, request)
        body = object_in(text)
        articles = with_members(body, {"articles": list})["articles"] if "articles" in body else [body]
        wants_hits, wants_marks = is_asked(request, "hits"), is_asked(request, "marked")
        if (wants_hits or wants_marks) and not self._door.shows_hits:
            is_classic = self._door.settings.dialect == CLASSIC
            raise Problem("hits", "start it with an engine as `pressclip run 4 hits`" if is_classic else NO_PLACES)
        if not self._door.spool_has_room():
            raise Problem("behind", "too many alerts wait for their delivery", {"Retry-After": "10"})
        reply = await ask_line(self._door, line_with(text, "articles" in body))
        if wants_marks:
            await self._mark(articles, reply["alerts"])
        if not wants_hits and self._door.engine.shows_hits:
            for alert in reply["alerts"]:
                del alert["hits"]
        return of_json(reply)

    async def _mark(self, articles: list[Json], alerts: list[Json]) -> None:
        """Puts marked texts beside the alerts; `Problem` where these are too large to be held."""
        size, most = 0, self._door.settings.limits.stream_bytes
        for article, alert in zip(articles, alerts):
            marker = Marker(self._door.explainer, article["fields"])
            alert["marked"] = []
            for query, hits in by_query(alert):
                marked = await marker.marked(query, hits)
                alert["marked"] += marked
                size += size_of(marked)
                if size > most:
                    raise Problem("large", f"the marked texts have over {most:,} characters: send fewer articles")

    async def last(self, request: web.Request) -> web.Response:
        """The last articles that were matched, the newest first."""
        limit = limit_of(request, USUAL_LISTED, MOST_LISTED)
        found: list[Json] = []
        for line in reversed(self._door.following.last_matches):
            found += reversed(json.loads(line)["articles"])
            if len(found) >= limit:
                break
        return of_json({"articles": found[:limit]})


def line_with(text: bytes, is_list: bool) -> bytes:
    """The line that matches the articles of a text, which is a JSON object: an article, or one whose only member is a
    list of them. The text goes into it as it is, but for line feeds, which stand between lexemes alone."""
    flat = text.replace(b"\n", b" ").strip()
    return b'{"op":"match",' + flat[1:] if is_list else b'{"op":"match","articles":[' + flat + b"]}"


def routes(door: Door) -> list[web.RouteDef]:
    """The routes of articles."""
    articles = Articles(door)
    return [web.post("/articles", articles.post), web.get("/articles", articles.last)]
