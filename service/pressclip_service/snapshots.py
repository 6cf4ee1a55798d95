"""Snapshots of shards: lines that register a shard's live queries, with the request that they stand at."""

from __future__ import annotations

import os
import time
from dataclasses import dataclass
from itertools import chain
from typing import Iterator

from .errors import ServiceError, tell
from .live import LiveQueries, text_of, value_of
from .names import CHANGES, CLEAR, CLIENT, DELETE, KIND, KINDS, LINE, LINE_NUMBER, NUMBER, Id, shard_of
from .scripts import PUSH, REPLACE
from .store import BLOCK_MILLISECONDS, Entry, RequestsLost, Store

_LINES_AT_ONCE = 16
_REQUESTS_AT_ONCE = 500
# How long a snapshot that never took its place stays.
_LEFT_OVER_SECONDS = 86_400


class Replaced(Exception):
    """Another snapshot took the place of the one that is read."""


@dataclass(frozen=True)
class Snapshot:
    """Where a shard's snapshot stands, by the id and the number of a request; an empty mark and key for a shard without
    one, which stands before all."""

    mark: str
    at: Id
    number: int
    key: str

    @staticmethod
    def of(mark: bytes | None) -> Snapshot:
        """What the hash of snapshots says."""
        if mark is None:
            return Snapshot("", Id(0, 0), 0, "")
        place, number, key = mark.split(b" ", 2)
        return Snapshot(mark.decode(), Id.of(place), int(number), key.decode())


def snapshot_of(store: Store, shard: int) -> Snapshot:
    """The shard's snapshot."""
    return Snapshot.of(store.do(lambda client: client.hget(store.names.snapshots, str(shard))))


def lines_of(store: Store, snapshot: Snapshot) -> Iterator[bytes]:
    """Its lines; `Replaced` where they were taken away meanwhile."""
    if not snapshot.key:
        return
    place = 0
    while True:
        lines = store.do(lambda client: client.lrange(snapshot.key, place, place + _LINES_AT_ONCE - 1))
        if not lines:
            raise Replaced()
        for line in lines:
            if line == b"":
                return
            yield line
        place += len(lines)


# The lines for a shard's engine, and the queries and the ids that they name.
Part = tuple[list[bytes], list[dict[str, str]], list[str]]


def part_of(kind: bytes, line: bytes, shard: int, shards: int) -> Part:
    """What is a shard's own of a change: the lines for it, none where it has no part, and the queries and the ids that
    they name."""
    if kind == CLEAR:
        return [line], [], []
    value = value_of(line)
    if kind == DELETE:
        ids = [name for name in value["ids"] if shard_of(name, shards) == shard]
        return ([text_of({"op": "delete", "ids": ids})] if ids else []), [], ids
    queries = [listing for listing in value["queries"] if shard_of(listing["id"], shards) == shard]
    return ([text_of({"op": "register", "queries": queries})] if queries else []), queries, []


def is_request(entry: Entry) -> bool:
    """Whether an entry of the stream is one of the grid's own."""
    fields = entry[1]
    return (fields.keys() >= {CLIENT, LINE_NUMBER, NUMBER, KIND, LINE} and fields[NUMBER].isdigit()
            and fields[LINE_NUMBER].isdigit() and fields[KIND] in KINDS)


class Requests:
    """The requests behind a shard's snapshot, each once and in order, by their numbers."""

    def __init__(self, store: Store, shard: int, snapshot: Snapshot) -> None:
        self._store = store
        self._shard = shard
        self._snapshot = snapshot
        self.after = snapshot.at
        self.number = snapshot.number
        self.is_at_end = False

    def next(self, count: int, block: int | None = BLOCK_MILLISECONDS) -> list[Entry]:
        """The next requests, so many at most, after a wait where there are none; what else stands among them is told
        and passed over. `Replaced` where they are not all there any more, `RequestsLost` where they never will be."""
        entries = self._store.read_requests(self.after, count, block)
        self.is_at_end = len(entries) < count
        found = []
        for entry in entries:
            self.after = entry[0]
            if not is_request(entry):
                tell(self._store.program, f"passes over entry {entry[0].text()} of {self._store.names.requests}, which"
                                          " is no request of a grid")
                continue
            self.number += 1
            if int(entry[1][NUMBER]) != self.number:
                raise self._gap(int(entry[1][NUMBER]))
            found.append(entry)
        return found

    def _gap(self, found: int) -> Exception:
        """What it means that another request stands where the next one is due: those that another snapshot has are
        dropped, and no others are."""
        if snapshot_of(self._store, self._shard) != self._snapshot:
            return Replaced()
        if found < self.number:
            return RequestsLost(f"request {found} came again after request {self.number - 1}: Redis went back to an"
                                " older file, or the grid was made anew")
        return RequestsLost(f"request {self.number} is not there, and no snapshot has it: Redis's file was not whole")


def live_at(store: Store, shard: int, shards: int, snapshot: Snapshot, target: Id | None) -> tuple[LiveQueries, int]:
    """The shard's live queries behind a request, or behind all that there are, and the number of the last request: its
    snapshot, and the requests after. `Replaced` where these are not all there any more, `RequestsLost` where they never
    will be."""
    live = LiveQueries()
    for line in lines_of(store, snapshot):
        live.take(line)
    requests = Requests(store, shard, snapshot)
    number = snapshot.number
    while (entries := requests.next(_REQUESTS_AT_ONCE, block=None)) or not requests.is_at_end:
        for place, fields in entries:
            if target is not None and place > target:
                return live, number
            number += 1
            if fields[KIND] in CHANGES:
                for part in part_of(fields[KIND], fields[LINE], shard, shards)[0]:
                    live.take(part)
    return live, number


def replace(store: Store, shard: int, old: Snapshot, live: LiveQueries, at: Id, number: int) -> bool:
    """Puts a snapshot in the place of another; False where that one is not there any more."""
    key = store.names.snapshot(shard, f"{at.text()}-{os.getpid()}-{time.time_ns()}")
    for place, line in enumerate(chain(live.lines(), [b""])):
        store.scripted(PUSH, [([key], [place, line, _LEFT_OVER_SECONDS])])
    arguments = [str(shard), old.mark, f"{at.text()} {number} {key}", old.key]
    return store.scripted(REPLACE, [([store.names.snapshots, key], arguments)]) == [1]


def dump(store: Store) -> Iterator[bytes]:
    """Lines that register all live queries of the grid."""
    shards = store.settings().shards
    for shard in range(shards):
        for _ in range(100):
            try:
                snapshot = snapshot_of(store, shard)
                live, _ = live_at(store, shard, shards, snapshot, None)
                if snapshot_of(store, shard).mark == snapshot.mark:
                    break
            except Replaced:
                continue
        else:
            raise ServiceError("the snapshots change too fast to be read")
        yield from live.lines()
