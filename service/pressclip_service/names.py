"""How a grid lies in Redis: the names of its keys, what stands where, and to which shard an id belongs."""

from __future__ import annotations

import zlib
from dataclasses import dataclass, field
from typing import NamedTuple

# Kinds of requests, as they stand in the stream.
REGISTER, DELETE, CLEAR, PURGE, COUNT, SHOW, MATCH, FULL = b"r", b"d", b"c", b"p", b"n", b"s", b"m", b"f"
CHANGES = frozenset({REGISTER, DELETE, CLEAR})

KINDS = CHANGES | {PURGE, COUNT, SHOW, MATCH, FULL}

# Fields of a request: the client, the number of the line in its input, the request's number, its kind, and the line.
CLIENT, LINE_NUMBER, NUMBER, KIND, LINE = b"c", b"n", b"m", b"k", b"l"
# Beside LINE_NUMBER a client's line that entered has its digest.
DIGEST = b"d"
# Beside LINE_NUMBER and KIND a reply that is kept has under each shard's number the shard's answer.


class Id(NamedTuple):
    """The id of an entry of a stream."""

    milliseconds: int
    sequence: int

    @staticmethod
    def of(text: bytes | None) -> Id:
        """The id that Redis wrote; the lowest one for none."""
        if text is None:
            return Id(0, 0)
        first, _, second = text.partition(b"-")
        return Id(int(first), int(second or 0))

    def text(self) -> str:
        """As Redis reads it."""
        return f"{self.milliseconds}-{self.sequence}"

    def before(self) -> Id:
        """The highest id below it."""
        return Id(self.milliseconds, self.sequence - 1) if self.sequence else Id(self.milliseconds - 1, (1 << 64) - 1)


@dataclass(frozen=True)
class Settings:
    """What a grid is made of; it stays as it is for the grid's life. By its mark it is known from one that was made
    later under its name. The version is that which made it, from 1.0.0 on."""

    shards: int
    replicas: int
    limit: int
    mark: bytes = field(default=b"", compare=False)
    version: str | None = field(default=None, compare=False)

    def __str__(self) -> str:
        return f"shards {self.shards}, replicas {self.replicas}, limit {self.limit}"


@dataclass(frozen=True)
class Names:
    """The keys of a grid."""

    grid: str

    def _key(self, *parts: object) -> str:
        return ":".join(("pressclip", self.grid, *map(str, parts)))

    @property
    def prefix(self) -> str:
        """What all keys begin with."""
        return self._key()

    @property
    def settings(self) -> str:
        """A hash: shards, replicas, limit, the mark of the grid, and the version that made it."""
        return self._key("settings")

    @property
    def requests(self) -> str:
        """The stream of all requests."""
        return self._key("requests")

    @property
    def clients(self) -> str:
        """A hash: of each client the number of the last line that entered, and its checksum."""
        return self._key("clients")

    @property
    def lives(self) -> str:
        """A hash: of each client the life that has its name."""
        return self._key("lives")

    @property
    def over(self) -> str:
        """A sorted set: the clients, by when their life is over, in milliseconds of Redis's clock."""
        return self._key("over")

    @property
    def signs(self) -> str:
        """A hash: of each role its last sign of life: when it was, at which request, and in which state. It stands in
        memory alone."""
        return self._key("signs")

    @property
    def number(self) -> str:
        """How many requests ever entered."""
        return self._key("number")

    @property
    def answered(self) -> str:
        """A hash: of each worker up to which request it has told its answers. It stands in memory alone."""
        return self._key("answered")

    @property
    def kept(self) -> str:
        """A hash: up to which request all replies are kept, by its id and its number."""
        return self._key("kept")

    @property
    def needs(self) -> str:
        """A hash: of each worker behind which request it needs the stream."""
        return self._key("needs")

    @property
    def snapshots(self) -> str:
        """A hash: of each shard the request that its snapshot stands at, and the snapshot's key."""
        return self._key("snapshots")

    def ids(self, shard: int) -> str:
        """The set of a shard's live ids."""
        return self._key("ids", shard)

    def answers(self, shard: int, replica: int) -> str:
        """The stream of a worker's answers that are told and not kept. It stands in memory alone."""
        return self._key("answers", shard, replica)

    def told(self, client: str) -> str:
        """The channel on which workers tell a client their answers."""
        return self._key("told", client)

    def lines(self, client: str) -> str:
        """The stream of the lines of a client that entered: the number and the digest of each."""
        return self._key("lines", client)

    def replies(self, client: str) -> str:
        """The stream of the replies to a client that are kept."""
        return self._key("replies", client)

    def snapshot(self, shard: int, version: str) -> str:
        """A list: lines that register a shard's queries."""
        return self._key("snapshot", shard, version)


# Under which names those two stand that are no workers.
GATHERER, TIDIER = "gather", "tidy"


def worker_name(shard: int, replica: int) -> str:
    """Under which name a worker's positions and signs stand."""
    return f"{shard}:{replica}"


def shard_of(name: str, shards: int) -> int:
    """The shard of an id."""
    return zlib.crc32(name.encode()) % shards
