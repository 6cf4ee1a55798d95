"""`/openapi.json`: what is asked and answered, for programs that make clients."""

from __future__ import annotations

from typing import Any, Mapping, Sequence

from aiohttp import web

from pressclip_service import VERSION

from .bodies import of_json
from .door import Door
from .guard import needs
from .problems import TYPE, WORDS
from .settings import DIALECTS
from .tokens import Role

Json = dict[str, Any]
LINES = "application/x-ndjson"
EVENTS = "text/event-stream"
TEXT: Json = {"type": "string"}
NUMBER: Json = {"type": "integer"}
BOOLEAN: Json = {"type": "boolean"}


def record(needed: Mapping[str, Json], more: Mapping[str, Json] | None = None) -> Json:
    """The form of an object with these members."""
    return {"type": "object", "properties": {**needed, **(more or {})}, "required": list(needed),
            "additionalProperties": False}


def many(item: Json) -> Json:
    """The form of a list."""
    return {"type": "array", "items": item}


def known(name: str) -> Json:
    """A form by its name."""
    return {"$ref": f"#/components/schemas/{name}"}


def maybe(form: Json) -> Json:
    """A form, or null."""
    return {"anyOf": [form, {"type": "null"}]}


QUERY = record({"query": TEXT}, {"listener": TEXT})
LISTING = record({"id": TEXT, "query": TEXT}, {"listener": TEXT})
ARTICLE = record({"id": TEXT, "fields": {"type": "object", "additionalProperties": TEXT}})
HIT = record({"field": TEXT, "position": NUMBER})
MARKED = record({"query": TEXT, "field": TEXT, "pieces": many(TEXT)})
ALERT = record({"article": TEXT, "queries": many(TEXT)}, {"hits": many(many(HIT)), "marked": many(MARKED)})
PROBLEM = record({"type": TEXT, "title": TEXT, "status": NUMBER, "refused": {"enum": sorted(WORDS)}},
                 {"detail": TEXT, "request": TEXT, "member": TEXT, "which": NUMBER, "fault": TEXT, "at": NUMBER})
WORD = record({"start": NUMBER, "end": NUMBER, "word": TEXT})
DELIVERY = record({"name": TEXT, "prefix": TEXT, "waiting": NUMBER, "oldest_seconds": maybe({"type": "number"}),
                   "failure": maybe(TEXT)})
SCHEMAS: Json = {"Query": QUERY, "Listing": LISTING, "Article": ARTICLE, "Hit": HIT, "Marked": MARKED, "Alert": ALERT,
                 "Problem": PROBLEM, "Word": WORD, "Delivery": DELIVERY}


def asked(name: str, says: str, form: Json = TEXT, place: str = "query") -> Json:
    """A member of an address or of a header."""
    more = {"required": True} if place == "path" else {}
    return {"name": name, "in": place, "description": says, "schema": form, **more}


def answered(says: str, form: Json | None, kind: str = "application/json") -> Json:
    """An answer."""
    return {"description": says, **({"content": {kind: {"schema": form}}} if form is not None else {})}


def act(says: str, answers: Mapping[int, Json], words: Sequence[str] = (), body: Json | None = None,
        parameters: Sequence[Json] = (), kind: str = "application/json") -> Json:
    """An operation, with the words of the refusals that are its own."""
    found: Json = {"summary": says, "responses": {str(status): answer for status, answer in answers.items()}}
    by_status: dict[int, list[str]] = {}
    for word in words:
        by_status.setdefault(WORDS[word][0], []).append(word)
    for status, told in by_status.items():
        found["responses"][str(status)] = answered(f"Refused: {', '.join(told)}", known("Problem"), TYPE)
    found["responses"]["default"] = answered("Refused", known("Problem"), TYPE)
    if body is not None:
        found["requestBody"] = {"required": True, "content": {kind: {"schema": body}}}
    if parameters:
        found["parameters"] = list(parameters)
    return found


ID = asked("id", "the query's id", place="path")
LIMIT = asked("limit", "how many at most", NUMBER)
DIALECT = asked("dialect", "the dialect of the query, where it is not the service's own", {"enum": list(DIALECTS)})
ENGINE_WORDS = ("long", "json", "shape", "limit", "query", "listener", "full", "behind", "ended")
READ_WORDS = ("json", "shape", "ended")
LISTED = record({"count": NUMBER, "queries": many(known("Listing"))}, {"next": TEXT})
MATCHED = record({"alerts": many(known("Alert")), "notes": many(TEXT)})
READING = {"type": "object"}
TRIED = record({"holds": BOOLEAN, "marked": many(known("Marked"))})
HEALTH = record({"is_alive": BOOLEAN, "dialects": many({"enum": list(DIALECTS)})})
READY = record({"is_ready": BOOLEAN, "queries": NUMBER, "shows_hits": BOOLEAN, "changes": maybe(NUMBER)})

PATHS: Json = {
    "/queries/{id}": {
        "put": act("Registers a query, or replaces it",
                   {200: answered("replaced", known("Listing")), 201: answered("registered", known("Listing"))},
                   (*ENGINE_WORDS, "dialect"), known("Query"), [ID, DIALECT]),
        "get": act("Shows a query", {200: answered("the query", known("Listing"))}, ("missing", "ended"), None, [ID]),
        "delete": act("Deletes a query", {200: answered("deleted", record({"deleted": NUMBER}))},
                      ("missing", "ended"), None, [ID])},
    "/queries": {
        "get": act("Lists queries in the byte order of their ids", {200: answered("a page", LISTED)}, ("shape",), None,
                   [asked("after", "the `next` of the page before"), LIMIT, asked("prefix", "how the ids begin"),
                    asked("search", "a text in the id or in the query, in any case")]),
        "post": act("Registers many queries, all or none", {200: answered("done", record({"registered": NUMBER}))},
                    (*ENGINE_WORDS, "dialect"), record({"queries": many(known("Listing"))}), [DIALECT]),
        "delete": act("Deletes all queries", {200: answered("done", record({"cleared": NUMBER}))}, ("ended",))},
    "/articles": {
        "post": act("Matches one article or many", {200: answered("the alerts", MATCHED)},
                    (*ENGINE_WORDS, "hits", "large", "spool"),
                    {"anyOf": [known("Article"), record({"articles": many(known("Article"))})]}, [
                        asked("hits", "whether to show where each query holds", BOOLEAN),
                        asked("marked", "whether to show it in the texts", BOOLEAN)]),
        "get": act("The last articles, the newest first",
                   {200: answered("the articles", record({"articles": many(known("Article"))}))}, ("shape",), None,
                   [LIMIT])},
    "/lines": {"post": act("Answers lines of the protocol, streamed both ways",
                           {200: answered("a reply line to each line", TEXT, LINES)}, ("type", "streams", "ended"),
                           TEXT, kind=LINES)},
    "/alerts": {"get": act("Streams alerts as they come, also by WebSocket",
                           {200: answered("server-sent events", TEXT, EVENTS), 101: answered("a WebSocket", None)},
                           ("shape", "streams"), None,
                           [asked("Last-Event-ID", "the last that was heard", place="header"),
                            asked("last_event_id", "the last that was heard, where no header can be sent"),
                            asked("last", "how many of the last alerts to begin with", NUMBER),
                            asked("last", "how many of those before it come first", NUMBER),
                            asked("prefix", "how the ids of the queries begin"),
                            asked("excerpts", "whether to show marked excerpts", BOOLEAN)])},
    "/explain": {"post": act("Says how a query is read, or its fault", {200: answered("the reading", READING)},
                             (*READ_WORDS, "dialect", "limit"), record({"query": TEXT}), [DIALECT])},
    "/words": {"post": act("Says how a text is cut into words",
                           {200: answered("the words", record({"words": many(known("Word"))}))}, READ_WORDS,
                           record({"text": TEXT}))},
    "/try": {"post": act("Says whether a query that is not registered holds of an article",
                         {200: answered("whether, and where", TRIED)}, (*READ_WORDS, "dialect", "limit", "query"),
                         record({"query": TEXT, "article": known("Article")}), [DIALECT])},
    "/deliveries": {"get": act("Says what waits to be delivered", {200: answered(
        "the routes", record({"deliveries": many(known("Delivery"))}))})},
    "/healthz": {"get": act("Says that the service lives", {200: answered("it does", HEALTH)})},
    "/readyz": {"get": act("Says whether the service answers now",
                           {200: answered("it does", READY), 503: answered("not now", READY)})},
    "/metrics": {"get": act("Figures for Prometheus", {200: answered("the figures", TEXT, "text/plain")})},
    "/openapi.json": {"get": act("This document", {200: answered("the document", READING)})},
}

for _path in ("/healthz", "/readyz", "/openapi.json"):
    PATHS[_path]["get"]["security"] = []

DOCUMENT: Json = {
    "openapi": "3.1.0",
    "info": {"title": "pressclip", "version": VERSION, "summary": "Standing queries over HTTP",
             "license": {"name": "Apache 2.0", "identifier": "Apache-2.0"}},
    "paths": PATHS,
    "components": {"schemas": SCHEMAS, "securitySchemes": {"token": {"type": "http", "scheme": "bearer"}}},
    "security": [{"token": []}, {}],
}


@needs(Role.OPEN)
async def document(request: web.Request) -> web.Response:
    """Gives the document."""
    return of_json(DOCUMENT)


def routes(door: Door) -> list[web.RouteDef]:
    """The route of the document."""
    return [web.get("/openapi.json", document)]
