"""All indices: they are made, changed and dropped, and documents are kept with their queries."""

from __future__ import annotations

import asyncio
import json
import time
from dataclasses import dataclass
from typing import Any, Sequence
from uuid import uuid4

from ..asking import ask
from ..catalog import Listing
from ..door import Door
from ..problems import Problem
from . import compound, exact, full_text, query_strings
from .cutting import ExplainerCutter
from .holding import fields_of
from .index import MOST_ID_BYTES, Held, Index, checked_body, checked_name
from .mapping import merged
from .part import Part
from .reader import Reader
from .store import IndexRow, Row, Store
from .trouble import Trouble, no_index
from .writing import text_of

Json = dict[str, Any]
MOST_AT_ONCE = 512
MOST_LINE_BYTES = 900_000
FORMS_ARE_IN = (compound, exact, full_text, query_strings)


@dataclass(frozen=True)
class Wanted:
    """A document that is to be kept: its id, its source, and its query as the engine reads it."""

    id: str
    source: str
    query: str
    fields: tuple[str, ...]


@dataclass(frozen=True)
class Done:
    """What became of a document."""

    row: Row

    @property
    def is_new(self) -> bool:
        """Whether nothing was under its id before."""
        return self.row.version == 1


class Indices:
    """All indices of a door. One change is made at a time."""

    def __init__(self, door: Door) -> None:
        self.door = door
        self.cutter = ExplainerCutter(door.explainer)
        self._store: Store | None = None
        self._indices: dict[str, Index] = {}
        self._changing = asyncio.Lock()
        self._seq = 0

    async def load(self) -> None:
        """Reads what was kept, once. `Problem` while the engine is started, since what it has is not known then."""
        if not self.door.engine.is_ready:
            raise Problem("ended", "the engine is started, and answers soon", {"Retry-After": "1"})
        if self._store is None:
            async with self._changing:
                if self._store is None:
                    self._store = await asyncio.to_thread(self._loaded)

    def _loaded(self) -> Store:
        """The store, from which the indices are read. Of the documents under an id the last counts whose query the
        engine has."""
        settings = self.door.settings
        store = Store(settings.journal or (settings.spool.parent if settings.spool else None))
        for row in store.indices():
            body, fields = checked_body(json.loads(row.body))
            self._indices[row.name] = Index(row, body, fields)
        for kept in store.rows():
            name, _, document = kept.engine.partition("/")
            listing = self.door.catalog.get(kept.engine)
            index = self._indices.get(name)
            if index is None or listing is None or listing.query != kept.query:
                store.leave([kept.seq])
            elif (before := index.hold(document, Held(kept, listing))) is not None:
                store.leave([before])
        self._seq = store.last_seq()
        return store

    @property
    def store(self) -> Store:
        """The store, once it is loaded."""
        assert self._store is not None
        return self._store

    def get(self, name: str) -> Index:
        """The index of a name; `Trouble` where there is none."""
        found = self._indices.get(name)
        if found is None:
            raise no_index(name)
        return found

    def named(self, names: str) -> list[Index]:
        """The indices of names with commas between, each once; `_all` and `*` are all of them."""
        if names in ("_all", "*"):
            return list(self._indices.values())
        return [self.get(name) for name in dict.fromkeys(names.split(","))]

    async def create(self, name: str, body: Json) -> Index:
        """Makes an index."""
        checked_name(name)
        whole, fields = checked_body(body)
        async with self._changing:
            if name in self._indices:
                there = self._indices[name]
                raise Trouble("resource_already_exists_exception", f"index [{name}/{there.row.uuid}] already exists",
                              index=name, index_uuid=there.row.uuid)
            row = IndexRow(name, json.dumps(whole), uuid4().hex, int(time.time() * 1_000))
            await asyncio.to_thread(self.store.put_index, row)
            self._indices[name] = Index(row, whole, fields)
            return self._indices[name]

    async def extend(self, name: str, mappings: Part) -> None:
        """Adds fields to the mapping of an index."""
        async with self._changing:
            index = self.get(name)
            before = index.body["mappings"]
            more = mappings.at("properties", mappings.value.get("properties") or {})
            whole = {**before, **mappings.value, "properties": merged(before["properties"], more)}
            body, fields = checked_body({**index.body, "mappings": whole})
            row = IndexRow(name, json.dumps(body), index.row.uuid, index.row.made)
            await asyncio.to_thread(self.store.put_index, row)
            index.row, index.body, index.fields = row, body, fields

    async def drop(self, name: str) -> None:
        """Drops an index with all its queries."""
        async with self._changing:
            index = self.get(name)
            held = dict(index.held)
            await self._delete([one.row.engine for _, one in index.all_current(self.door.catalog)])
            await asyncio.to_thread(self.store.drop_index, name, [one.row.seq for one in held.values()])
            del self._indices[name]

    async def _delete(self, engine_ids: Sequence[str]) -> None:
        """Takes queries out of the engine."""
        for start in range(0, len(engine_ids), MOST_AT_ONCE):
            await ask(self.door, {"op": "delete", "ids": engine_ids[start:start + MOST_AT_ONCE]})

    async def delete(self, index: Index, names: Sequence[str]) -> list[Row | None]:
        """Drops documents, each of another id, with their queries; None for each that is not there."""
        async with self._changing:
            found = [index.current(self.door.catalog, name) for name in names]
            await self._delete([held.row.engine for held in found if held])
            self.store.leave([seq for name in names if (seq := index.let_go(name)) is not None])
            return [held.row if held else None for held in found]

    async def wanted(self, index: Index, name: str, source: Part) -> Wanted:
        """A document that is to be kept, its query read; `Trouble` where it can't be."""
        if not 1 <= len(index.engine_id(name).encode(errors="surrogatepass")) <= MOST_ID_BYTES or not name:
            raise Trouble("illegal_argument_exception",
                          f"an id has at least a byte, and with the name of its index {MOST_ID_BYTES - 1} at most")
        members = source.members()
        query = members.get(index.fields.query)
        if query is None or query.value is None:
            raise Trouble("mapper_parsing_exception",
                          f"a document without a query in [{index.fields.query}] is not kept here")
        tree = await Reader(index.fields, self.cutter).read(query)
        text = json.dumps(source.value, ensure_ascii=False)
        return Wanted(name, source.written(text), text_of(tree), tuple(sorted(fields_of(tree))))

    async def put(self, index: Index, wanted: Sequence[Wanted], only_new: bool = False) -> list[Done | Trouble]:
        """Keeps documents, each of another id, and gives what became of each. Cost: two synced writes for up to 512."""
        found: dict[str, Done | Trouble] = {}
        async with self._changing:
            if self._indices.get(index.name) is not index:
                raise no_index(index.name)
            looked_at: set[str] = set()
            fit = [one for one in wanted if self._fits(index, one, (only_new, looked_at), found)]
            for batch in batches_of(fit):
                await self._put(index, batch, found)
        return [found[one.id] for one in wanted]

    def _fits(self, index: Index, one: Wanted, beside: tuple[bool, set[str]], found: dict[str, Done | Trouble]) -> bool:
        """Whether a document may be kept beside those whose fields are looked at; takes down why where it may not."""
        only_new, looked_at = beside
        try:
            held = index.current(self.door.catalog, one.id)
            if only_new and held is not None:
                raise Trouble("version_conflict_engine_exception", f"[{one.id}]: version conflict, document already"
                              f" exists (current version [{held.row.version}])", 409, index=index.name)
            index.room_for({*looked_at, *one.fields})
            looked_at.update(one.fields)
            return True
        except Trouble as trouble:
            found[one.id] = trouble
            return False

    async def _put(self, index: Index, batch: Sequence[Wanted], found: dict[str, Done | Trouble]) -> None:
        """Keeps documents: writes them down, and registers their queries. One that the engine refuses is left out, and
        the others are registered without it."""
        rows: dict[str, Row] = {}
        for one in batch:
            self._seq += 1
            held = index.current(self.door.catalog, one.id)
            version = held.row.version + 1 if held else 1
            rows[one.id] = Row(self._seq, index.engine_id(one.id), version, one.query, one.fields)
        await asyncio.to_thread(self.store.add, [(rows[one.id], one.source) for one in batch])
        left = list(batch)
        while left:
            queries = [{"id": rows[one.id].engine, "query": one.query} for one in left]
            try:
                await ask(self.door, {"op": "register", "queries": queries})
                break
            except Problem as problem:
                which = problem.members.get("which")
                if not isinstance(which, int):
                    raise
                one = left.pop(which)
                self.store.leave([rows[one.id].seq])
                found[one.id] = refused(one.query, problem)
        for one in left:
            found[one.id] = self._hold(index, one.id, rows[one.id])

    def _hold(self, index: Index, name: str, row: Row) -> Done:
        """Holds a document whose query is registered."""
        listing = self.door.catalog.get(row.engine) or Listing(row.engine, row.query)
        before = index.hold(name, Held(row, listing))
        if before is not None:
            self.store.leave([before])
        return Done(row)


def batches_of(wanted: Sequence[Wanted]) -> list[list[Wanted]]:
    """Documents in lists, each of which one line of the engine has room for."""
    found: list[list[Wanted]] = []
    room = 0
    for one in wanted:
        cost = len(json.dumps([one.id, one.query], ensure_ascii=False).encode()) + 256
        if not found or cost > room or len(found[-1]) == MOST_AT_ONCE:
            found.append([])
            room = MOST_LINE_BYTES
        found[-1].append(one)
        room -= cost
    return found


def refused(query: str, problem: Problem) -> Trouble:
    """That the engine refuses a query that was made for it, which is longer than it takes."""
    return Trouble("query_shard_exception", f"the engine refuses the query, which would be [{query[:200]}]:"
                                            f" {problem.detail or problem.word}")
