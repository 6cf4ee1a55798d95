"""What a client hears: the answers that workers tell it as they come, and where it missed some, replies that are kept.

A reply is made here, from the answers of all shards. What is told is heard once or never, as when a connection broke;
so where nothing comes for a while, or a line entered in an earlier life, the replies that are kept are looked at.
"""

from __future__ import annotations

from collections import deque
from typing import Mapping, NamedTuple, Sequence

from redis.exceptions import ConnectionError as Unreachable
from redis.exceptions import TimeoutError as TimedOut

from .errors import ServiceError
from .names import KIND, KINDS, LINE_NUMBER, Id
from .parts import reply_of
from .store import BLOCK_MILLISECONDS, Store

REPLIES_AT_ONCE = 64
TOLD_AT_ONCE = 256
# After so long without an answer the replies that are kept are looked at.
PATIENCE_SECONDS = 0.2
MOST_HELD = 4_096


class Kept(NamedTuple):
    """A reply that is kept, in its parts."""

    place: Id
    line_number: int
    kind: bytes
    parts: list[bytes]

    def reply(self) -> bytes:
        """The reply."""
        return reply_of(self.kind, self.line_number, self.parts)


def _is_reply(fields: Mapping[bytes, bytes], shards: Sequence[bytes]) -> bool:
    """Whether an entry of a stream of replies is one."""
    return (fields.keys() >= {LINE_NUMBER, KIND, *shards} and fields[LINE_NUMBER].isdigit()
            and fields[KIND] in KINDS)


class Hearing:
    """The replies to one client."""

    def __init__(self, store: Store, client: str, shards: int) -> None:
        self._store = store
        self._shards = [b"%d" % shard for shard in range(shards)]
        self._replies = store.names.replies(client)
        self._channel = store.hear(store.names.told(client))
        self._told: dict[bytes, tuple[bytes, dict[bytes, bytes]]] = {}
        self.kept: deque[Kept] = deque()
        self.read_to = Id(0, 0)

    def reply_to(self, number: int, place: Id) -> bytes | None:
        """The reply to a line that entered as this request, once; None where it did not come yet."""
        name = place.text().encode()
        kind, parts = self._told.get(name, (b"", {}))
        if len(parts) == len(self._shards):
            del self._told[name]
            self.read_to = max(self.read_to, place)
            return reply_of(kind, number, [parts[shard] for shard in self._shards])
        while self.kept and self.kept[0].place < place:
            self.kept.popleft()
        return self._next_kept(number)

    def reply_to_earlier(self, number: int) -> bytes | None:
        """The reply to a line that entered in an earlier life, or as nobody knows which request."""
        while self.kept and self.kept[0].line_number < number:
            self.kept.popleft()
        return self._next_kept(number)

    def _next_kept(self, number: int) -> bytes | None:
        if not self.kept:
            return None
        if self.kept[0].line_number != number:
            raise ServiceError(f"the reply to line {number} is not kept any more")
        return self.kept.popleft().reply()

    def wait_for(self, place: Id) -> None:
        """Takes what is told, after a short wait, and what is kept of this request and those behind it where that was
        in vain."""
        if not self._listen(PATIENCE_SECONDS):
            self.read_to = max(self.read_to, place.before())
            self._read(block=None)

    def wait_for_kept(self) -> None:
        """Takes what is kept, after a wait."""
        self._listen(0)
        self._read(BLOCK_MILLISECONDS)

    def _listen(self, seconds: float) -> bool:
        """Takes what is told; whether anything was."""
        count = 0
        try:
            while count < TOLD_AT_ONCE and (message := self._channel.next(0 if count else seconds)):
                count += 1
                self._take(message)
        except (Unreachable, TimedOut):
            pass
        return count > 0

    def _take(self, message: bytes) -> None:
        """Takes an answer of a shard; what is none is passed over."""
        front, _, text = message.partition(b"\n")
        place, _, rest = front.partition(b" ")
        shard, _, kind = rest.partition(b" ")
        if shard not in self._shards or kind not in KINDS:
            return
        if place not in self._told:
            if len(self._told) == MOST_HELD:
                del self._told[next(iter(self._told))]
            self._told[place] = kind, {}
        self._told[place][1][shard] = text

    def _read(self, block: int | None) -> None:
        """Takes replies that are kept; what is none is passed over."""
        found = self._store.read({self._replies: self.read_to}, REPLIES_AT_ONCE, block)
        for place, fields in found.get(self._replies, []):
            self.read_to = place
            if _is_reply(fields, self._shards):
                parts = [fields[shard] for shard in self._shards]
                self.kept.append(Kept(place, int(fields[LINE_NUMBER]), fields[KIND], parts))
