"""The server below the application: what is no request is refused by name, and so is one that comes too slowly."""

from __future__ import annotations

import asyncio
import json
from http import HTTPStatus
from typing import Any

from aiohttp import HttpVersion10, HttpVersion11, web
from aiohttp.abc import AbstractStreamWriter
from aiohttp.http import RawRequestMessage, StreamWriter
from aiohttp.streams import StreamReader
from aiohttp.web_protocol import RequestHandler
from multidict import CIMultiDict

from .log import Log
from .metrics import Metrics
from .problems import TYPE, Problem
from .settings import Limits

MOST_HEADER_BYTES = 64 << 10
MOST_PIPELINED = 64
_VERSIONS = (HttpVersion11, HttpVersion10)


class Connection(RequestHandler):
    """One connection."""

    __slots__ = ("_limits", "_log", "_metrics", "_slow", "_header_bytes", "_body")

    def __init__(self, server: Server, **options: Any) -> None:
        super().__init__(server, **options)
        self._limits = server.limits
        self._log = server.log
        self._metrics = server.metrics
        self._slow: asyncio.TimerHandle | None = None
        self._header_bytes = 0
        # The body of the last request whose header came.
        self._body: StreamReader | None = None

    def connection_made(self, transport: asyncio.BaseTransport) -> None:
        """Takes a connection, unless there are too many."""
        super().connection_made(transport)
        assert self._manager is not None
        if len(self._manager.connections) > self._limits.connections:
            self._refuse(Problem("connections"))
        else:
            self._wait_for_header()

    def connection_lost(self, exc: BaseException | None) -> None:
        """Lets it go."""
        self._stop_waiting()
        super().connection_lost(exc)

    def data_received(self, data: bytes) -> None:
        """Takes what came: a header in time and of some size, and no more requests than are soon answered; or what a
        WebSocket brings."""
        if self._upgrade or self._payload_parser is not None:
            super().data_received(data)
            return
        count = self._request_count
        is_of_body = self._body is not None and not self._body.is_eof()
        super().data_received(data)
        if self._request_count != count:
            self._stop_waiting()
            self._header_bytes = 0
            self._body = self._messages[-1][1] if self._messages else None
            if any(getattr(message, "version", _VERSIONS[0]) not in _VERSIONS for message, _ in self._messages):
                self._refuse(Problem("request", "HTTP 1.1 is spoken here"))
            elif len(self._messages) > MOST_PIPELINED:
                self._refuse(Problem("rate", "too many requests in a row on one connection"))
        elif not is_of_body:
            self._header_bytes += len(data)
            if self._header_bytes > MOST_HEADER_BYTES:
                self._refuse(Problem("headers", f"at most {MOST_HEADER_BYTES:,} bytes are taken"))
            elif self._slow is None:
                self._wait_for_header()

    def _wait_for_header(self) -> None:
        seconds = self._limits.header_seconds
        problem = Problem("slow", f"the header did not come within {seconds:.0f} s")
        self._slow = self._loop.call_later(seconds, self._refuse_if_idle, problem)

    def _refuse_if_idle(self, problem: Problem) -> None:
        """Refuses, unless a request before is still worked on."""
        self._slow = None
        if self._current_request is None:
            self._refuse(problem)
        else:
            self._wait_for_header()

    def _stop_waiting(self) -> None:
        if self._slow is not None:
            self._slow.cancel()
            self._slow = None

    def _refuse(self, problem: Problem) -> None:
        """Answers without a request, and closes; in the middle of another answer it only closes."""
        self._stop_waiting()
        self._metrics.problems.labels(problem.word).inc()
        if self.transport is None or self.transport.is_closing():
            return
        if self._current_request is not None:
            self.force_close()
            return
        body = json.dumps(problem.document()).encode()
        phrase = HTTPStatus(problem.status).phrase
        head = (f"HTTP/1.1 {problem.status} {phrase}\r\nContent-Type: {TYPE}\r\nContent-Length: {len(body)}\r\n"
                "Connection: close\r\n\r\n")
        assert isinstance(self.transport, asyncio.Transport)
        self.transport.write(head.encode() + body)
        self.force_close()

    def handle_error(self, request: web.BaseRequest, status: int = 500, exc: BaseException | None = None,
                     message: str | None = None) -> web.StreamResponse:
        """The answer to what is no request, or to a fault of our own."""
        if request.writer.output_size > 0:
            raise ConnectionError("the answer has begun already")
        word = "request" if status == 400 else "fault"
        self._log.event("no request" if status == 400 else "fault", error=repr(exc)[:500])
        self._metrics.problems.labels(word).inc()
        response = Problem(word).response()
        response.force_close()
        return response


class Writer(StreamWriter):
    """Writes the header of an answer whose length is known together with its body, at once."""

    def __init__(self, protocol: RequestHandler, loop: asyncio.AbstractEventLoop) -> None:
        super().__init__(protocol, loop)
        self._is_header = False
        self._header = b""

    async def write_headers(self, status_line: str, headers: CIMultiDict[str]) -> None:
        """Writes the header, or holds it until the body is there."""
        self._is_header = self.length is not None
        await super().write_headers(status_line, headers)
        self._is_header = False

    async def write_eof(self, chunk: bytes = b"") -> None:
        """Writes what is left, which may be a header alone."""
        if self._header and not chunk:
            self._write(b"")
        await super().write_eof(chunk)

    def _write(self, chunk: bytes) -> None:
        if self._is_header:
            self._header = chunk
            return
        whole, self._header = self._header + chunk, b""
        super()._write(whole)


class Server(web.Server):
    """Makes connections."""

    def __init__(self, whole: web.Server, limits: Limits, metrics: Metrics, log: Log, **options: Any) -> None:
        super().__init__(whole.request_handler, request_factory=self._request, **options)
        self._make = whole.request_factory
        self.limits = limits
        self.metrics = metrics
        self.log = log

    def _request(self, message: RawRequestMessage, payload: StreamReader, protocol: RequestHandler,
                 _: AbstractStreamWriter, task: asyncio.Task[None]) -> web.BaseRequest:
        """A request whose answer goes through our writer."""
        return self._make(message, payload, protocol, Writer(protocol, self._loop), task)

    def __call__(self) -> RequestHandler:
        return Connection(self, loop=self._loop, **self._kwargs)


class Runner(web.AppRunner):
    """Runs the application over that server."""

    def __init__(self, app: web.Application, limits: Limits, metrics: Metrics, log: Log) -> None:
        super().__init__(app, access_log=None)
        self._limits = limits
        self._metrics = metrics
        self._log = log

    async def _make_server(self) -> Server:
        whole = await super()._make_server()
        return Server(whole, self._limits, self._metrics, self._log, access_log=None, auto_decompress=False,
                      lingering_time=1.0)
