"""A program behind pipes, in asyncio: lines in, and as many reply lines out, in their order."""

from __future__ import annotations

import asyncio
from collections import deque
from typing import Callable, Protocol, Sequence

from pressclip_service.engine import environment, need_program, widen
from pressclip_service.errors import EngineFailed
from pressclip_service.lines import LineCutter
from pressclip_service.signals import held_back_from_children

INPUT, OUTPUT, ERRORS = 0, 1, 2


class Ended(Exception):
    """The program ended before it replied, with its status if that is known; of a change nobody knows whether it was
    kept."""

    def __init__(self, why: str, status: int | None = None) -> None:
        super().__init__(why)
        self.status = status


class Behind(Exception):
    """Too much waits for the program already; nothing was sent."""


class Sink(Protocol):
    """Who awaits a reply."""

    def take(self, reply: bytes) -> None:
        """Takes the reply, without its line feed."""

    def fail(self, error: Exception) -> None:
        """Hears that there will be none."""


class Owed:
    """A line that a reply is owed to."""

    __slots__ = ("line", "sink", "since")

    def __init__(self, line: bytes, sink: Sink, since: float) -> None:
        self.line = line
        self.sink = sink
        self.since = since


class Awaited:
    """A sink that one task waits for."""

    __slots__ = ("_future",)

    def __init__(self) -> None:
        self._future: asyncio.Future[bytes] = asyncio.get_running_loop().create_future()

    def take(self, reply: bytes) -> None:
        """Wakes the task with the reply, unless it waits no more."""
        if not self._future.done():
            self._future.set_result(reply)

    def fail(self, error: Exception) -> None:
        """Wakes the task with the error, unless it waits no more."""
        if not self._future.done():
            self._future.set_exception(error)

    async def reply(self) -> bytes:
        """The reply, once it came; the error where there is none."""
        return await self._future


class Question(Awaited):
    """A sink whose articles only ask which queries hold of them: nobody else hears of their alerts."""

    __slots__ = ()


class Pipe(asyncio.SubprocessProtocol):
    """One life of the program. What it replies goes to `heard` in batches, what it tells on standard error to `told` by
    the line, and its end, after all that, to `ended` with its status."""

    def __init__(self, heard: Callable[[list[tuple[Owed, bytes]]], None], told: Callable[[str], None],
                 ended: Callable[[int], None]) -> None:
        self.owed: deque[Owed] = deque()
        self.bytes_owed = 0
        self.is_over = False
        self._heard = heard
        self._told = told
        self._ended = ended
        self._replies = LineCutter(most=None)
        self._words = LineCutter()
        self._transport: asyncio.SubprocessTransport | None = None
        self._unsent: list[bytes] = []

    async def start(self, command: Sequence[str]) -> None:
        """Starts the program; `EngineFailed` where it can't be started."""
        need_program(command)
        loop = asyncio.get_running_loop()
        try:
            with held_back_from_children():
                await loop.subprocess_exec(lambda: self, *command, env=environment())
        except OSError as error:
            raise EngineFailed(f"{command[0]} can't be started: {error.strerror}") from error

    def connection_made(self, transport: asyncio.BaseTransport) -> None:
        """Begins the life."""
        assert isinstance(transport, asyncio.SubprocessTransport)
        self._transport = transport
        for descriptor in (INPUT, OUTPUT):
            pipe = transport.get_pipe_transport(descriptor)
            assert pipe is not None
            widen(pipe.get_extra_info("pipe").fileno())

    @property
    def pid(self) -> int:
        """The number of the process."""
        assert self._transport is not None
        return self._transport.get_pid()

    def send(self, owed: Owed) -> None:
        """Takes a line on its way, which may not be blank; those of one turn of the loop are written together."""
        if not self._unsent:
            asyncio.get_running_loop().call_soon(self.flush)
        self._hold(owed)

    def send_at_once(self, owed: Owed) -> None:
        """Writes a line now, which may not be blank, behind those that are on their way."""
        self._hold(owed)
        self.flush()

    def _hold(self, owed: Owed) -> None:
        self.owed.append(owed)
        self.bytes_owed += len(owed.line)
        self._unsent.append(owed.line)

    def flush(self) -> None:
        """Writes what is on its way now."""
        if not self._unsent:
            return
        assert self._transport is not None
        pipe = self._transport.get_pipe_transport(INPUT)
        lines, self._unsent = self._unsent, []
        if isinstance(pipe, asyncio.WriteTransport) and not pipe.is_closing():
            pipe.write(b"\n".join([*lines, b""]))

    def close_input(self) -> None:
        """Tells it that no more lines come."""
        assert self._transport is not None
        self.flush()
        pipe = self._transport.get_pipe_transport(INPUT)
        if pipe is not None:
            pipe.close()

    def kill(self) -> None:
        """Ends it at once."""
        if self._transport is not None and self._transport.get_returncode() is None:
            self._transport.kill()

    def pipe_data_received(self, descriptor: int, data: bytes) -> None:
        """Takes what it wrote."""
        if descriptor == ERRORS:
            for line in self._words.feed(data):
                self._told(line.decode(errors="backslashreplace"))
            return
        batch: list[tuple[Owed, bytes]] = []
        for reply in self._replies.feed(data):
            if not self.owed:
                self.kill()
                return
            owed = self.owed.popleft()
            self.bytes_owed -= len(owed.line)
            batch.append((owed, reply))
        try:
            if batch:
                self._heard(batch)
        except EngineFailed as error:
            self.owed.extendleft(owed for owed, _ in reversed(batch))
            self._told(str(error))
            self.kill()

    def connection_lost(self, error: Exception | None) -> None:
        """Sees the end: all pipes are read to theirs, and the process is gone."""
        assert self._transport is not None
        self.is_over = True
        status = self._transport.get_returncode()
        self._ended(-1 if status is None else status)
