"""How the percolator's address reads requests and answers them."""

from __future__ import annotations

import json
import sqlite3
from typing import Any, Awaitable, Callable, Iterable

from aiohttp import web

from ..bodies import read_all
from ..door import Door
from ..engine import Behind
from ..pipe import Ended
from ..problems import Problem
from .part import Part
from .trouble import Trouble

Json = dict[str, Any]
Handler = Callable[[web.Request], Awaitable[web.StreamResponse]]
JSON_TYPES = ("application/json", "application/vnd.elasticsearch+json")
LINE_TYPES = ("application/x-ndjson", "application/vnd.elasticsearch+x-ndjson", *JSON_TYPES)
# What any request may say beside what it asks for, and what changes nothing here.
_ALWAYS = {"pretty", "human", "error_trace", "format", "refresh", "timeout", "master_timeout", "wait_for_active_shards",
           "ignore_unavailable", "allow_no_indices", "expand_wildcards", "preference", "routing", "request_cache",
           "typed_keys", "ignore_throttled", "search_type", "batched_reduce_size", "max_concurrent_shard_requests",
           "pre_filter_shard_size", "ccs_minimize_roundtrips", "track_total_hits", "allow_partial_search_results",
           "include_type_name", "local", "flat_settings", "include_defaults", "realtime", "require_alias", "force",
           "wait_if_ongoing", "allow_mapping_change", "write_index_only"}
_KINDS = {"behind": "es_rejected_execution_exception", "rate": "es_rejected_execution_exception",
          "json": "json_parse_exception", "full": "cluster_block_exception",
          "ended": "process_cluster_event_timeout_exception"}


def answer(request: web.Request, value: Json, status: int = 200) -> web.Response:
    """A JSON answer with the header by which clients know the product."""
    text = json.dumps(value, ensure_ascii=False, indent=2 if is_asked(request, "pretty") else None)
    accepted = request.headers.get("Accept", "")
    kind = accepted if accepted.startswith("application/vnd.elasticsearch+json") else "application/json; charset=UTF-8"
    return web.Response(body=text.encode(errors="backslashreplace"), status=status,
                        headers={"Content-Type": kind.replace("\r", "").replace("\n", ""),
                                 "X-Elastic-Product": "Elasticsearch"})


def is_asked(request: web.Request, name: str) -> bool:
    """Whether the address has a word that is not said to be false."""
    return request.query.get(name, "false") != "false"


def checked(request: web.Request, names: Iterable[str] = ()) -> None:
    """Refuses what the address says beside these names and those that change nothing."""
    for name in request.query:
        if name not in _ALWAYS and name not in names:
            raise Trouble("illegal_argument_exception", f"request [{request.path}] contains unrecognized parameter:"
                                                        f" [{name}], or one that is not served")


def of_address(request: web.Request, name: str) -> Part | None:
    """What the address says under a name."""
    return Part(request.query[name], name) if name in request.query else None


async def bytes_of(door: Door, request: web.Request, types: Iterable[str]) -> bytes:
    """The body, whose type has to be one of these, where it is not empty."""
    text = await read_all(door, request)
    if text and request.content_type not in types:
        raise Trouble("media_type_header_exception",
                      f"Content-Type header [{request.headers.get('Content-Type', '')}] is not supported", 406)
    return text


async def object_of(door: Door, request: web.Request, place: str, is_needed: bool = True) -> Part:
    """The body as an object; an empty one where it may lack."""
    text = await bytes_of(door, request, JSON_TYPES)
    if not text.strip() and not is_needed:
        return Part({}, place)
    part = Part(value_of(text, place), place)
    part.members()
    return part


def value_of(text: bytes, place: str) -> Any:
    """The value of a JSON text, in whose objects each name stands once."""
    try:
        return json.loads(text, object_pairs_hook=object_with, parse_constant=no_number)
    except (ValueError, RecursionError) as error:
        raise Trouble("json_parse_exception", f"[{place}] is no JSON: {error}") from None


def object_with(members: list[tuple[str, Any]]) -> Json:
    """The object of these members; `ValueError` where one is there twice."""
    found: Json = {}
    for name, value in members:
        if name in found:
            raise ValueError(f"the member {name} is there twice")
        found[name] = value
    return found


def no_number(text: str) -> Any:
    """Refuses what is no number of JSON."""
    raise ValueError(f"{text} is no number")


def handled(handler: Handler) -> Handler:
    """A handler whose refusals are told in Elasticsearch's form."""

    async def handle(request: web.Request) -> web.StreamResponse:
        try:
            return await handler(request)
        except Exception as error:
            trouble = trouble_of(error)
            if trouble is None:
                raise
            response = answer(request, trouble.document(), trouble.status)
            if trouble.status in (429, 503):
                response.headers["Retry-After"] = "1"
            return response

    return handle


def trouble_of(error: Exception) -> Trouble | None:
    """An error as Elasticsearch tells it; None where it is not one of those that are expected."""
    if isinstance(error, Trouble):
        return error
    if isinstance(error, sqlite3.Error):
        return Trouble("cluster_block_exception", f"what is kept beside the queries can't be read or written: {error}",
                       503)
    if isinstance(error, RecursionError):
        return Trouble("json_parse_exception", "objects and lists stand in each other too deep")
    if isinstance(error, Behind):
        error = Problem("behind")
    elif isinstance(error, Ended):
        error = Problem("ended", str(error))
    if not isinstance(error, Problem):
        return None
    document = error.document()
    return Trouble(_KINDS.get(error.word, "illegal_argument_exception"), document.get("detail", document["title"]),
                   error.status)
