"""The probe of a client: an engine that judges lines, and forgets what it took."""

from __future__ import annotations

import time
from typing import Sequence

from .engine import Engine
from .errors import EngineDied
from .live import value_of
from .names import CLEAR, COUNT, DELETE, MATCH, PURGE, REGISTER, SHOW, shard_of
from .replies import Kind, kind_of

PROBE_BYTES = 64 << 20
MOST_DEATHS_IN_A_ROW = 5
_CLEAR = b'{"op":"clear"}'
_KINDS = {Kind.REGISTERED: REGISTER, Kind.DELETED: DELETE, Kind.CLEARED: CLEAR, Kind.COUNTED: COUNT}


class Probe:
    """An engine that judges lines, and forgets what it took."""

    def __init__(self, command: Sequence[str]) -> None:
        self._command = command
        self._engine = Engine(command)
        self._taken = 0

    def judge(self, lines: Sequence[bytes]) -> list[bytes]:
        """Its replies to the lines, none of which is blank."""
        for attempt in range(MOST_DEATHS_IN_A_ROW):
            try:
                self._renew()
                clears = [_CLEAR] if any(b"register" in line for line in lines) else []
                self._taken += sum(map(len, lines)) if clears else 0
                replies = list(self._engine.exchange([*lines, *clears]))[:len(lines)]
                if not clears and any(kind_of(reply) is Kind.REGISTERED for reply in replies):
                    list(self._engine.exchange([_CLEAR]))
                return replies
            except EngineDied:
                time.sleep(0.01 * attempt)
                self._taken = PROBE_BYTES
        raise EngineDied(f"the probe ended {MOST_DEATHS_IN_A_ROW} times in a row")

    def _renew(self) -> None:
        """Begins with another engine where this one has taken much, since an engine keeps its history."""
        if self._taken >= PROBE_BYTES:
            self._engine.kill()
            self._engine = Engine(self._command)
            self._taken = 0


def kind_of_line(reply: bytes) -> bytes:
    """The kind of a line, by the probe's reply to it."""
    if reply.startswith(b'{"alerts":'):
        return MATCH
    kind = _KINDS.get(kind_of(reply))
    if kind is None:
        return PURGE if reply.endswith(b',"purged":true}') else SHOW
    return kind


def ids_by_shard(kind: bytes, line: bytes, shards: int) -> list[object]:
    """What the script is told of the ids that a change names: shard, how many, each once."""
    if kind not in (REGISTER, DELETE):
        return []
    value = value_of(line)
    named = value["ids"] if kind == DELETE else [listing["id"] for listing in value["queries"]]
    by_shard: dict[int, list[bytes]] = {}
    for name in dict.fromkeys(named):
        by_shard.setdefault(shard_of(name, shards), []).append(name.encode())
    told: list[object] = []
    for shard, names in by_shard.items():
        told += [shard, len(names), *names]
    return told
