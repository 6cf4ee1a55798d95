"""`/alerts`: alerts as they come, by server-sent events or by WebSocket."""

from __future__ import annotations

import asyncio

from aiohttp import HttpVersion11, WSCloseCode, web

from .bodies import is_asked, limit_of
from .broadcasting import MOST_AT_ONCE, Broadcaster, Form, Listener, Wish, fill, told, written
from .door import Door
from .problems import Problem

HEADERS = {"Content-Type": "text/event-stream", "Cache-Control": "no-store", "X-Accel-Buffering": "no"}
MOST_HEARD_BYTES = 1_024
MOST_LAST = 1_000
BEAT_SECONDS = 30.0


class Alerts:
    """The handlers."""

    def __init__(self, door: Door) -> None:
        self._door = door

    async def get(self, request: web.Request) -> web.StreamResponse:
        """Streams alerts behind `Last-Event-ID`, or the last so many, or from now on."""
        if len(self._door.plain) + len(self._door.excerpted) >= self._door.settings.limits.alert_streams:
            raise Problem("streams", headers={"Retry-After": "10"})
        if request.headers.get("Upgrade", "").lower() == "websocket":
            return await self._by_frames(request)
        if request.version != HttpVersion11:
            raise Problem("request", "alerts stream over HTTP 1.1")
        wish = wish_of(request, Form.EVENTS)
        response = web.StreamResponse(headers=HEADERS)
        response.headers["X-Request-Id"] = request["id"]
        response.force_close()
        await response.prepare(request)
        try:
            listener = await self._join(request, wish)
            await listener.over.wait()
            self._leave(listener)
        except ConnectionError:
            pass
        return response

    async def _by_frames(self, request: web.Request) -> web.WebSocketResponse:
        """The stream by WebSocket."""
        wish = wish_of(request, Form.FRAMES)
        socket = web.WebSocketResponse(heartbeat=BEAT_SECONDS, compress=False, max_msg_size=MOST_HEARD_BYTES)
        await socket.prepare(request)
        try:
            listener = await self._join(request, wish)
        except ConnectionError:
            return socket
        closing = asyncio.create_task(self._close_when_over(socket, listener))
        async for _ in socket:
            await socket.close(code=WSCloseCode.UNSUPPORTED_DATA, message=b"nothing is taken here")
        self._leave(listener)
        await closing
        return socket

    async def _close_when_over(self, socket: web.WebSocketResponse, listener: Listener) -> None:
        await listener.over.wait()
        await socket.close(code=WSCloseCode.GOING_AWAY, message=b"go on behind the last id")

    def _leave(self, listener: Listener) -> None:
        self._of(listener.wish).remove(listener)
        self._count()

    def _count(self) -> None:
        self._door.metrics.listeners.set(len(self._door.plain) + len(self._door.excerpted))

    def _of(self, wish: Wish) -> Broadcaster:
        return self._door.excerpted if wish.with_excerpts else self._door.plain

    async def _join(self, request: web.Request, wish: Wish) -> Listener:
        """A listener that has been told what it missed, and is in step with all others."""
        transport = request.transport
        if transport is None:
            raise ConnectionResetError()
        assert isinstance(transport, asyncio.Transport)
        broadcaster, ring = self._of(wish), self._door.ring
        last = request.headers.get("Last-Event-ID") or request.query.get("last_event_id")
        number = broadcaster.sent
        if last is None:
            number = max(ring.first_number - 1, number - last_of(request))
        else:
            known = ring.number_of(last)
            number = ring.first_number - 1 if known is None or known < ring.first_number - 1 else known
            number = min(number, ring.next_number - 1)
            if known != number:
                lost = {"from": last, "first": ring.name_of(number + 1)}
                transport.write(told("lost", lost, wish.form))
        while number < broadcaster.sent:
            missed = [alert for alert in ring.after(number, MOST_AT_ONCE) if alert.number <= broadcaster.sent]
            if wish.with_excerpts:
                await fill(missed, self._door.explainer)
            transport.write(written(ring, missed, wish))
            number = missed[-1].number if missed else broadcaster.sent
            await self._drained(transport)
        listener = Listener(wish, transport)
        broadcaster.add(listener)
        self._count()
        return listener

    async def _drained(self, transport: asyncio.Transport) -> None:
        """Waits until a connection has taken what was written; `ConnectionError` where it does not in time."""
        limits = self._door.settings.limits
        end = asyncio.get_running_loop().time() + limits.unread_seconds
        while transport.get_write_buffer_size() > limits.unread_bytes:
            if transport.is_closing() or asyncio.get_running_loop().time() > end:
                transport.abort()
                raise ConnectionResetError()
            await asyncio.sleep(0.02)


def last_of(request: web.Request) -> int:
    """How many of the alerts before it a request asks for; `Problem` where that is no number."""
    return limit_of(request, 0, MOST_LAST, "last")


def wish_of(request: web.Request, form: Form) -> Wish:
    """What a request asks for; `Problem` where it can't be had."""
    last_of(request)
    return Wish(form, request.query.get("prefix", ""), is_asked(request, "excerpts"))


def routes(door: Door) -> list[web.RouteDef]:
    """The routes of alerts."""
    return [web.get("/alerts", Alerts(door).get, allow_head=False)]
