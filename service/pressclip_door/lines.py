"""`POST /lines`: the protocol of the engine, line by line, streamed both ways."""

from __future__ import annotations

import asyncio

from aiohttp import web

from pressclip_service.lines import LineCutter, is_blank
from pressclip_service.replies import renumbered

from .door import Door
from .pipe import Ended
from .problems import Problem

TYPES = ("application/x-ndjson", "application/jsonl")
MOST_IN_FLIGHT = 256
MOST_WRITTEN_AT_ONCE = 1 << 18
_MATCH_WORD = b'"match"'


class Line:
    """One line of a stream that awaits its reply."""

    __slots__ = ("_stream", "_number")

    def __init__(self, stream: LineStream, number: int) -> None:
        self._stream = stream
        self._number = number

    def take(self, reply: bytes) -> None:
        """Takes the reply, with the number of the stream's own count."""
        self._stream.take(renumbered(reply, self._number))

    def fail(self, error: Exception) -> None:
        """Hears that there will be none."""
        self._stream.fail(error)


class LineStream:
    """The lines of one request, and the replies to them that its client has not taken yet."""

    def __init__(self, door: Door, request: web.Request, response: web.StreamResponse) -> None:
        self._door = door
        self._request = request
        self._response = response
        self._in_flight = 0
        self._replies: list[bytes] = []
        self._bytes_held = 0
        self._news = asyncio.Event()
        self._room = asyncio.Event()
        self._has_ended = False
        self._failure: Exception | None = None

    def take(self, reply: bytes) -> None:
        """Takes the next reply."""
        self._in_flight -= 1
        self._replies.append(reply)
        self._bytes_held += len(reply)
        self._news.set()

    def fail(self, error: Exception) -> None:
        """Hears that a reply will not come, and so none behind it either."""
        self._failure = self._failure or error
        self._news.set()
        self._room.set()

    async def run(self) -> None:
        """Answers the lines to the end of the body, or until the door drains. `Ended` where the engine did;
        `ConnectionError` where the client is gone or reads too slowly."""
        feeding = asyncio.create_task(self._feed())
        try:
            while not (self._has_ended and not self._in_flight and not self._replies):
                await self._news.wait()
                self._news.clear()
                await self._write()
                if self._failure:
                    raise self._failure
        finally:
            feeding.cancel()
            await asyncio.gather(feeding, return_exceptions=True)

    async def _feed(self) -> None:
        """Sends lines to the engine as they come."""
        cutter, number = LineCutter(), 0
        try:
            while not self._door.is_draining:
                block = await self._block()
                if self._door.is_draining and not block:
                    break
                lines = cutter.feed(block) if block else cutter.end()
                for line in lines:
                    number += 1
                    if not is_blank(line):
                        await self._send(line, number)
                if not block:
                    break
        except Exception as error:
            self.fail(error)
        self._has_ended = True
        self._news.set()

    async def _block(self) -> bytes:
        """What the client sent next; nothing at its end, or where the door drains."""
        reading = asyncio.ensure_future(self._request.content.readany())
        draining = asyncio.ensure_future(self._door.draining.wait())
        try:
            await asyncio.wait((reading, draining), return_when=asyncio.FIRST_COMPLETED)
            return reading.result() if reading.done() else b""
        finally:
            for task in (reading, draining):
                task.cancel()

    async def _send(self, line: bytes, number: int) -> None:
        """Sends a line once there is room for it."""
        most_bytes = self._door.settings.limits.stream_bytes
        while (self._in_flight >= MOST_IN_FLIGHT or self._bytes_held > most_bytes) and not self._failure:
            self._room.clear()
            await self._room.wait()
        if self._failure:
            raise self._failure
        while _MATCH_WORD in line and not self._door.spool_has_room():
            await asyncio.sleep(0.1)
        await self._door.engine.room()
        self._door.engine.send(line, Line(self, number))
        self._in_flight += 1

    async def _write(self) -> None:
        """Writes the replies that came; `ConnectionError` where the client does not take them in time."""
        replies, self._replies = self._replies, []
        block = b"\n".join([*replies, b""])
        for start in range(0, len(block), MOST_WRITTEN_AT_ONCE):
            try:
                await asyncio.wait_for(self._response.write(block[start:start + MOST_WRITTEN_AT_ONCE]),
                                       self._door.settings.limits.unread_seconds)
            except asyncio.TimeoutError:
                self._door.metrics.dropped.inc()
                raise ConnectionResetError("the client reads too slowly") from None
        self._bytes_held -= sum(map(len, replies))
        self._room.set()


class Lines:
    """The handler."""

    def __init__(self, door: Door) -> None:
        self._door = door
        self._streams = 0

    async def post(self, request: web.Request) -> web.StreamResponse:
        """Answers the lines of the body as the engine does, while they come. The connection is broken off where the
        engine ends, so that a client sees which lines have no reply."""
        if request.content_type not in TYPES:
            raise Problem("type", f"send {TYPES[0]}")
        if self._streams >= self._door.settings.limits.line_streams:
            raise Problem("streams", headers={"Retry-After": "1"})
        if not self._door.engine.is_ready:
            raise Problem("ended", "the engine is not ready", {"Retry-After": "1"})
        response = web.StreamResponse(headers={"Content-Type": TYPES[0], "X-Request-Id": request["id"]})
        if self._door.following.changes is not None:
            response.headers["Pressclip-Changes"] = str(self._door.following.changes)
        await response.prepare(request)
        self._streams += 1
        try:
            await LineStream(self._door, request, response).run()
        except (Ended, ConnectionError, web.RequestPayloadError) as error:
            self._door.log.event("lines broken off", request=request["id"], why=str(error))
            if request.transport is not None:
                request.transport.close()
        finally:
            self._streams -= 1
        return response


def routes(door: Door) -> list[web.RouteDef]:
    """The route of lines."""
    return [web.post("/lines", Lines(door).post)]
