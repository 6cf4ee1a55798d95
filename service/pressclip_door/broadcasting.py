"""Sending alerts to all who listen: what is due to many alike is written out once."""

from __future__ import annotations

import asyncio
from dataclasses import dataclass, field
from enum import Enum
from typing import Iterable

from pressclip_service.errors import EngineFailed

from .explaining import Explainer
from .log import Log
from .marking import Marker
from .metrics import Metrics
from .pipe import Behind, Ended
from .ring import Alert, Ring, compact

# Alerts that come within so many seconds are sent together.
TURN_SECONDS = 0.03
BEAT_SECONDS = 15.0
MOST_AT_ONCE = 256
MOST_EXCERPTS = 10
_TEXT_FRAME = 0x81
_COMMENT = b": \n\n"


class Form(Enum):
    """How a stream is written."""

    EVENTS = "server-sent events"
    FRAMES = "WebSocket"


@dataclass(frozen=True)
class Wish:
    """What a listener asked for."""

    form: Form
    prefix: str
    with_excerpts: bool


@dataclass(eq=False)
class Listener:
    """One who listens: its wish, its connection, and `over`, which is set once it hears no more."""

    wish: Wish
    transport: asyncio.Transport
    over: asyncio.Event = field(default_factory=asyncio.Event)


def chunk(text: bytes) -> bytes:
    """A chunk of a chunked body (RFC 9112)."""
    return b"%x\r\n%b\r\n" % (len(text), text)


def frame(text: bytes) -> bytes:
    """A text message of a WebSocket in one frame of a server (RFC 6455)."""
    size = len(text)
    if size < 126:
        head = bytes((_TEXT_FRAME, size))
    elif size < 1 << 16:
        head = bytes((_TEXT_FRAME, 126)) + size.to_bytes(2, "big")
    else:
        head = bytes((_TEXT_FRAME, 127)) + size.to_bytes(8, "big")
    return head + text


def event(kind: str, name: str | None, text: str) -> bytes:
    """A server-sent event."""
    front = "" if name is None else f"id: {name}\n"
    return f"{front}event: {kind}\ndata: {text}\n\n".encode()


def written(ring: Ring, alerts: Iterable[Alert], wish: Wish) -> bytes:
    """Alerts as they go over the connection of one with this wish; nothing where none is for it."""
    parts: list[bytes] = []
    for alert in alerts:
        document = alert.document(wish.prefix, wish.with_excerpts)
        if document is None:
            continue
        name = ring.name_of(alert.number)
        if wish.form is Form.EVENTS:
            parts.append(event("alert", name, compact(document)))
        else:
            parts.append(frame(compact({"id": name, **document}).encode()))
    text = b"".join(parts)
    return chunk(text) if text and wish.form is Form.EVENTS else text


def told(kind: str, members: dict[str, str], form: Form) -> bytes:
    """A word to a listener that is no alert."""
    if form is Form.EVENTS:
        return chunk(event(kind, None, compact(dict(members))))
    return frame(compact({"event": kind, **members}).encode())


class Broadcaster:
    """Sends each alert to the listeners that are in step, which all have heard up to `sent`."""

    def __init__(self, ring: Ring, explainer: Explainer | None, metrics: Metrics, log: Log, unread_bytes: int,
                 unread_seconds: float) -> None:
        self.sent = ring.next_number - 1
        self._ring = ring
        self._explainer = explainer
        self._metrics = metrics
        self._log = log
        self._unread_bytes = unread_bytes
        self._unread_seconds = unread_seconds
        self._listeners: set[Listener] = set()
        self._news = asyncio.Event()
        ring.wakes.append(self._news.set)

    def __len__(self) -> int:
        return len(self._listeners)

    def add(self, listener: Listener) -> None:
        """Takes a listener that has heard up to `sent`."""
        self._listeners.add(listener)

    def remove(self, listener: Listener) -> None:
        """Lets a listener go."""
        self._listeners.discard(listener)
        listener.over.set()

    def remove_all(self) -> None:
        """Lets all go."""
        for listener in list(self._listeners):
            self.remove(listener)

    async def run(self) -> None:
        """Sends as alerts come, until it is cancelled."""
        loop = asyncio.get_running_loop()
        next_beat = loop.time() + BEAT_SECONDS
        while True:
            try:
                await asyncio.wait_for(self._news.wait(), max(0.0, next_beat - loop.time()))
            except asyncio.TimeoutError:
                next_beat = loop.time() + BEAT_SECONDS
                self._beat()
                continue
            self._news.clear()
            while alerts := self._ring.after(self.sent, MOST_AT_ONCE):
                if self._explainer and self._listeners:
                    await fill(alerts, self._explainer)
                self._send(alerts)
                await asyncio.sleep(TURN_SECONDS)

    def _beat(self) -> None:
        """Writes to all, so that who is gone is seen."""
        for listener in list(self._listeners):
            self._write(listener, chunk(_COMMENT) if listener.wish.form is Form.EVENTS else b"")

    def _send(self, alerts: list[Alert]) -> None:
        """Writes alerts to all, each wish once."""
        by_wish: dict[Wish, bytes] = {}
        for listener in list(self._listeners):
            wish = listener.wish
            if wish not in by_wish:
                by_wish[wish] = written(self._ring, alerts, wish)
            self._write(listener, by_wish[wish])
        self.sent = alerts[-1].number

    def _write(self, listener: Listener, block: bytes) -> None:
        """Writes to a listener; one that left what came before unread is let go, and told where to go on."""
        transport = listener.transport
        if transport.is_closing():
            self.remove(listener)
        elif transport.get_write_buffer_size() > self._unread_bytes:
            self._drop(listener)
        elif block:
            transport.write(block)

    def _drop(self, listener: Listener) -> None:
        self._metrics.dropped.inc()
        self._log.event("listener dropped", unread=listener.transport.get_write_buffer_size())
        after = {"after": self._ring.name_of(self.sent)}
        listener.transport.write(told("dropped", after, listener.wish.form))
        self.remove(listener)
        asyncio.get_running_loop().call_later(self._unread_seconds, listener.transport.abort)


async def fill(alerts: Iterable[Alert], explainer: Explainer) -> None:
    """Makes the excerpts of alerts that have none yet; none where the words can't be had."""
    for alert in alerts:
        if alert.excerpts is not None:
            continue
        alert.excerpts = []
        raised = alert.raised
        if not raised.hits:
            continue
        marker = Marker(explainer, raised.fields)
        try:
            for query, hits in list(zip(raised.queries, raised.hits))[:MOST_EXCERPTS]:
                alert.excerpts += await marker.excerpts(query, hits)
        except (Behind, Ended, EngineFailed):
            return
