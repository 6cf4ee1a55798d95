"""The handlers of the percolator's address."""

from __future__ import annotations

import json
import time
from typing import Any

from aiohttp import web

from ..door import Door
from .answers import LINE_TYPES, answer, bytes_of, checked, is_asked, object_of, of_address
from .asked import search_of, source_of
from .bulk import SHARDS, Bulk, actions_of, new_id, written
from .index import Held, Index
from .indices import Indices
from .part import Options, Part
from .searching import SHARDS as SEARCHED
from .searching import Searcher
from .trouble import Trouble

Json = dict[str, Any]
_SOURCES = ("_source", "_source_includes", "_source_excludes")
ABOUT: Json = {
    "name": "pressclip", "cluster_name": "pressclip", "cluster_uuid": "_na_",
    "version": {"number": "7.17.6", "build_flavor": "default", "build_type": "tar", "build_hash": "pressclip",
                "build_date": "1970-01-01T00:00:00Z", "build_snapshot": False, "lucene_version": "8.11.1",
                "minimum_wire_compatibility_version": "6.8.0", "minimum_index_compatibility_version": "6.0.0-beta1"},
    "tagline": "You Know, for Search"}
HEALTH: Json = {
    "cluster_name": "pressclip", "status": "green", "timed_out": False, "number_of_nodes": 1, "number_of_data_nodes": 1,
    "active_primary_shards": 1, "active_shards": 1, "relocating_shards": 0, "initializing_shards": 0,
    "unassigned_shards": 0, "number_of_pending_tasks": 0, "active_shards_percent_as_number": 100.0}


class OfIndices:
    """What is asked of indices."""

    def __init__(self, indices: Indices) -> None:
        self._indices = indices
        self._door: Door = indices.door

    async def about(self, request: web.Request) -> web.Response:
        """What this is, in the words that clients look for."""
        checked(request)
        return answer(request, ABOUT)

    async def health(self, request: web.Request) -> web.Response:
        """That it is well, which clients wait for."""
        checked(request, ("wait_for_status",))
        await self._indices.load()
        return answer(request, HEALTH)

    async def create(self, request: web.Request) -> web.Response:
        """Makes an index with a percolator's mapping."""
        checked(request)
        await self._indices.load()
        body = await object_of(self._door, request, "body", is_needed=False)
        name = request.match_info["index"]
        await self._indices.create(name, body.value)
        return answer(request, {"acknowledged": True, "shards_acknowledged": True, "index": name})

    async def get(self, request: web.Request) -> web.Response:
        """Shows indices."""
        checked(request)
        await self._indices.load()
        found = self._indices.named(request.match_info["index"])
        return answer(request, {index.name: index.described() for index in found})

    async def drop(self, request: web.Request) -> web.Response:
        """Drops an index with its queries. Patterns are refused."""
        checked(request)
        await self._indices.load()
        names = request.match_info["index"].split(",")
        for name in names:
            self._indices.get(name)
        for name in names:
            await self._indices.drop(name)
        return answer(request, {"acknowledged": True})

    async def mapping(self, request: web.Request) -> web.Response:
        """Shows mappings."""
        checked(request)
        await self._indices.load()
        found = self._indices.named(request.match_info["index"])
        return answer(request, {index.name: {"mappings": index.body["mappings"]} for index in found})

    async def extend(self, request: web.Request) -> web.Response:
        """Adds fields to a mapping."""
        checked(request)
        await self._indices.load()
        index = self._indices.get(request.match_info["index"])
        body = await object_of(self._door, request, "body")
        await self._indices.extend(index.name, body)
        return answer(request, {"acknowledged": True})

    async def refresh(self, request: web.Request) -> web.Response:
        """Nothing is to be done: what was answered is seen by each later request."""
        checked(request)
        await self._indices.load()
        self._indices.named(request.match_info.get("index", "_all"))
        return answer(request, {"_shards": SHARDS})

    async def unknown(self, request: web.Request) -> web.Response:
        """Refuses an address that is not served."""
        raise Trouble("illegal_argument_exception", f"no handler found for uri [{request.path}] and method"
                                                    f" [{request.method}], or one that is not served")


class OfDocuments:
    """What is asked of documents."""

    def __init__(self, indices: Indices) -> None:
        self._indices = indices
        self._door: Door = indices.door
        self._bulk = Bulk(indices)

    async def _index(self, request: web.Request) -> Index:
        """The index of the address."""
        await self._indices.load()
        return self._indices.get(request.match_info["index"])

    async def put(self, request: web.Request) -> web.Response:
        """Keeps a document with its query."""
        checked(request, ("op_type",))
        index = await self._index(request)
        name = request.match_info.get("id") or new_id()
        source = await object_of(self._door, request, "body")
        only_new = request.query.get("op_type") == "create" or "/_create/" in request.path
        done = (await self._indices.put(index, [await self._indices.wanted(index, name, source)], only_new))[0]
        if isinstance(done, Trouble):
            raise done
        return answer(request, written(done.row, "created" if done.is_new else "updated"), 201 if done.is_new else 200)

    async def get(self, request: web.Request) -> web.Response:
        """Shows a document."""
        checked(request, _SOURCES)
        index = await self._index(request)
        name = request.match_info["id"]
        held = index.current(self._door.catalog, name)
        if held is None:
            return answer(request, {"_index": index.name, "_type": "_doc", "_id": name, "found": False}, 404)
        source = source_of(source_part(request))
        shown: Json = {"_source": source.of(self._source(held))} if source.is_shown else {}
        return answer(request, {"_index": index.name, "_type": "_doc", "_id": name, "_version": held.row.version,
                                "_seq_no": held.row.seq, "_primary_term": 1, "found": True, **shown})

    async def source(self, request: web.Request) -> web.Response:
        """Shows what was sent as a document."""
        checked(request, _SOURCES)
        index = await self._index(request)
        held = index.current(self._door.catalog, request.match_info["id"])
        if held is None:
            raise Trouble("resource_not_found_exception", f"Document not found [{index.name}]/[_doc]/"
                                                          f"[{request.match_info['id']}]", 404)
        return answer(request, source_of(source_part(request)).of(self._source(held)))

    def _source(self, held: Held) -> Json:
        source: Json = json.loads(self._indices.store.source(held.row.seq))
        return source

    async def delete(self, request: web.Request) -> web.Response:
        """Drops a document with its query."""
        checked(request)
        index = await self._index(request)
        name = request.match_info["id"]
        row = (await self._indices.delete(index, [name]))[0]
        if row is None:
            return answer(request, {"_index": index.name, "_type": "_doc", "_id": name, "_version": 1,
                                    "result": "not_found", "_shards": SHARDS}, 404)
        return answer(request, written(row, "deleted"))

    async def bulk(self, request: web.Request) -> web.Response:
        """Keeps and drops many documents."""
        checked(request)
        await self._indices.load()
        start = time.monotonic()
        text = await bytes_of(self._door, request, LINE_TYPES)
        items = await self._bulk.run(actions_of(text, request.match_info.get("index")))
        has_errors = any("error" in about for one in items for about in one.values())
        return answer(request, {"took": int(1e3 * (time.monotonic() - start)), "errors": has_errors, "items": items})


class OfSearches:
    """What is asked by searches."""

    def __init__(self, indices: Indices) -> None:
        self._indices = indices
        self._door: Door = indices.door
        self._searcher = Searcher(indices)

    async def search(self, request: web.Request) -> web.Response:
        """Which queries hold of documents, or which documents are kept."""
        checked(request, ("from", "size", *_SOURCES, "rest_total_hits_as_int"))
        await self._indices.load()
        body = await object_of(self._door, request, "body", is_needed=False)
        search = search_of(body, of_address(request, "from"), of_address(request, "size"), source_part(request))
        found = await self._searcher.search(request.match_info["index"], search)
        if is_asked(request, "rest_total_hits_as_int"):
            found["hits"]["total"] = found["hits"]["total"]["value"]
        return answer(request, found)

    async def count(self, request: web.Request) -> web.Response:
        """How many documents a query finds; all where there is none."""
        checked(request)
        await self._indices.load()
        body = await object_of(self._door, request, "body", is_needed=False)
        options = Options(body, "count")
        query = options.take("query")
        options.end()
        count = await self._searcher.count(request.match_info["index"], query)
        return answer(request, {"count": count, "_shards": SEARCHED})


def source_part(request: web.Request) -> Part | None:
    """What the address says of the source, as a search says it."""
    shown = request.query.get("_source")
    if shown == "false":
        return Part(False, "_source")
    included = request.query.get("_source_includes") or (None if shown == "true" else shown)
    excluded = request.query.get("_source_excludes")
    if not included and not excluded:
        return None
    return Part({"includes": included.split(",") if included else None,
                 "excludes": excluded.split(",") if excluded else None}, "_source")
