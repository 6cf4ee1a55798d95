"""What the door learns from the replies that pass: queries, alerts and figures."""

from __future__ import annotations

import json
import re
import time
from collections import deque
from typing import Awaitable

from pressclip_service.keeper import PROGRAM
from pressclip_service.replies import CHANGES, Kind, asks_change, kind_of

from .catalog import Catalog
from .courier import Courier
from .engine import Batch
from .log import Log
from .metrics import Metrics
from .pipe import Question
from .raised import Raised, raised_by
from .ring import Ring

MOST_BYTES_OF_MATCHES = 8 << 20
_MATCH = b'{"alerts":'
# A quotation mark inside a text is written with a backslash, so this stands where an alert does and nowhere else.
_ALERTED = b'"queries":["'
_OPERATIONS = {Kind.REGISTERED: "register", Kind.DELETED: "delete", Kind.CLEARED: "clear", Kind.COUNTED: "count",
               Kind.REFUSED: "refused"}
_REFUSED = re.compile(rb'"refused":"([a-z]+)"')
_KEPT = re.compile(rf"{PROGRAM}: (\d+) changes are kept")


class Following:
    """Hears each reply before whoever awaits it. `changes` counts those that are kept; None where nobody says how many
    there were. `last_matches` are the last lines with articles. Hits are passed over unless they are places in these."""

    def __init__(self, catalog: Catalog, ring: Ring, metrics: Metrics, log: Log, articles_kept: int,
                 are_hits_places: bool = True) -> None:
        self.changes: int | None = None
        self.last_matches: deque[bytes] = deque()
        self.courier: Courier | None = None
        self._catalog = catalog
        self._ring = ring
        self._metrics = metrics
        self._log = log
        self._articles_kept = articles_kept
        self._are_hits_places = are_hits_places
        self._bytes_of_matches = 0
        self._lines = {name: metrics.lines.labels(name)
                       for name in (*_OPERATIONS.values(), "match", "show", "purge")}

    def follow(self, batch: Batch) -> Awaitable[None] | None:
        """Takes lines with their replies. Alerts that are to be delivered are kept first."""
        now = time.perf_counter()
        raised: list[Raised] = []
        for owed, reply in batch:
            self._metrics.seconds.observe(now - owed.since)
            if reply.startswith(_MATCH):
                self._lines["match"].inc()
                if isinstance(owed.sink, Question):
                    continue
                self._take_match(owed.line)
                if _ALERTED in reply:
                    raised += raised_by(owed.line, json.loads(reply)["alerts"], time.time(), self._are_hits_places)
            else:
                self._take_other(owed.line, reply)
        for one in raised:
            self._metrics.alerts.inc(len(one.queries))
            self._ring.add(one)
        courier = self.courier
        if courier is None:
            return None
        wanted = [one for one in raised if courier.is_wanted(one.queries)]
        return courier.keep(wanted) if wanted else None

    def _take_other(self, line: bytes, reply: bytes) -> None:
        """Takes what is no match."""
        kind = kind_of(reply)
        if self.changes is not None and asks_change(reply):
            self.changes += 1
        if kind in CHANGES:
            self._catalog.take(line)
        elif kind is Kind.REFUSED:
            found = _REFUSED.search(reply)
            self._metrics.refused.labels(found[1].decode() if found else "unknown").inc()
        other = "purge" if reply.endswith(b',"purged":true}') else "show"
        self._lines[_OPERATIONS.get(kind, other)].inc()

    def _take_match(self, line: bytes) -> None:
        """Keeps a line with articles, and lets the oldest go."""
        kept = self.last_matches
        kept.append(line)
        self._bytes_of_matches += len(line)
        while len(kept) > self._articles_kept or self._bytes_of_matches > MOST_BYTES_OF_MATCHES:
            self._bytes_of_matches -= len(kept.popleft())

    def told(self, text: str) -> None:
        """Takes what the engine told on standard error into the log and the figures."""
        self._log.event("engine told", says=text)
        if found := _KEPT.fullmatch(text):
            self.changes = int(found[1])

    def began(self, seconds: float) -> None:
        """Hears that the engine answers, and how long after its start."""
        self._metrics.replay_seconds.set(seconds)

    def ended(self, status: int) -> None:
        """Hears that the engine ended when it should not have."""
        self._metrics.restarts.inc()
        self._log.event("engine ended", status=status)
