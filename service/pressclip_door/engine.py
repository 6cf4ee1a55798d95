"""The engine of the door: `keep`, `grid submit` or a plain command, asked line by line, started again where it ends."""

from __future__ import annotations

import asyncio
import time
from collections import deque
from dataclasses import dataclass
from typing import Any, Awaitable, Callable, Coroutine, Protocol, Sequence

from pressclip_service.errors import EngineFailed, ServiceError
from pressclip_service.replies import number_of

from .pipe import Awaited, Ended, Owed, Pipe, Sink
from .pipe import Behind as Behind

FIRST_PAUSE_SECONDS = 0.1
MOST_PAUSE_SECONDS = 10.0
SECONDS_TO_END = 60.0
STUCK_SECONDS = 60.0
_FIRST = b'{"op":"match","articles":[{"id":"a","fields":{}}]}'
_SHOWS_HITS = b'{"alerts":[{"article":"a","hits":'

Batch = Sequence[tuple[Owed, bytes]]


class Follower(Protocol):
    """Who hears each reply before whoever awaits it."""

    def follow(self, batch: Batch) -> Awaitable[None] | None:
        """Takes lines with their replies. What it gives, if anything, is awaited before the replies are handed out."""

    def told(self, text: str) -> None:
        """Takes a line that the engine told on standard error."""

    def began(self, seconds: float) -> None:
        """Hears that the engine answers, and how long after its start."""

    def ended(self, status: int) -> None:
        """Hears that the engine ended when it should not have."""


@dataclass(frozen=True)
class Room:
    """How much may be on its way to the engine."""

    lines: int = 4_096
    bytes: int = 8 << 20


class Engine:
    """Lines in, reply lines out, in order. `start` it and `stop` it; between them it is started anew where it ends.
    `shows_hits` says whether its replies to matches have hits.
    What `beside` gives is done at each start, beside the replay."""

    def __init__(self, command: Sequence[str], room: Room, follower: Follower,
                 beside: Callable[[], Coroutine[Any, Any, None] | None] = lambda: None) -> None:
        self.is_ready = False
        self.shows_hits = False
        self._command = list(command)
        self._beside = beside
        self._room = room
        self._follower = follower
        self._pipe: Pipe | None = None
        self._is_stopping = False
        self._answered = 0
        self._over = asyncio.Event()
        self._pause = FIRST_PAUSE_SECONDS
        self._held: deque[tuple[Batch, Awaitable[None] | None]] = deque()
        self._handing_out: asyncio.Task[None] | None = None
        self._restarting: asyncio.Task[None] | None = None
        self._freed: asyncio.Event = asyncio.Event()

    @property
    def in_flight(self) -> int:
        """How many lines are owed a reply."""
        return len(self._pipe.owed) if self._pipe else 0

    @property
    def pid(self) -> int | None:
        """The number of the process, where there is one."""
        return None if self._pipe is None or self._pipe.is_over else self._pipe.pid

    def is_well(self) -> bool:
        """Whether no reply is owed for a minute, except while all is replayed."""
        pipe = self._pipe
        is_owing = pipe is not None and self.is_ready and len(pipe.owed) > 0
        return not is_owing or pipe is None or time.perf_counter() - pipe.owed[0].since < STUCK_SECONDS

    def has_room(self) -> bool:
        """Whether a line more may be on its way."""
        pipe = self._pipe
        return pipe is None or (len(pipe.owed) < self._room.lines and pipe.bytes_owed < self._room.bytes)

    async def room(self) -> None:
        """Waits until half of what may be on its way is free, so that streams leave the other half to others."""
        while self._pipe is not None and not self._pipe.is_over and not self._is_half_free():
            self._freed.clear()
            await self._freed.wait()

    def _is_half_free(self) -> bool:
        pipe = self._pipe
        return pipe is None or (2 * len(pipe.owed) < self._room.lines and 2 * pipe.bytes_owed < self._room.bytes)

    async def ask(self, line: bytes) -> bytes:
        """The reply to a line that is not blank, both without line feeds. `Behind` where too much waits, `Ended` where
        the engine is gone."""
        if not self.has_room():
            raise Behind()
        awaited = Awaited()
        self._ready_pipe().send_at_once(Owed(line, awaited, time.perf_counter()))
        return await awaited.reply()

    def send(self, line: bytes, sink: Sink) -> None:
        """Takes a line on its way, whose reply goes to the sink; `Ended` where the engine is gone, or not ready yet."""
        self._ready_pipe().send(Owed(line, sink, time.perf_counter()))

    def _ready_pipe(self) -> Pipe:
        """The pipe, where the engine is ready."""
        if not self.is_ready or self._pipe is None:
            raise Ended("the engine is not ready: it is started, and replays its journal")
        return self._pipe

    async def start(self) -> None:
        """Starts the engine, and waits until it answers; `Ended` where its first life ends before that, `EngineFailed`
        where it can't be started."""
        await self._begin()

    async def _begin(self) -> None:
        """Begins a life, and waits for a first reply, which comes once all is replayed."""
        beside, start = self._beside(), time.perf_counter()
        besides = [] if beside is None else [asyncio.create_task(beside)]
        pipe = Pipe(self._hear, self._follower.told, lambda status: self._end(pipe, status))
        await pipe.start(self._command)
        self._pipe = pipe
        self._answered = 0
        awaited = Awaited()
        pipe.send(Owed(_FIRST, awaited, time.perf_counter()))
        try:
            reply, *_ = await asyncio.gather(awaited.reply(), *besides)
        except BaseException:
            pipe.kill()
            raise
        self.shows_hits = reply.startswith(_SHOWS_HITS)
        self.is_ready = True
        self._pause = FIRST_PAUSE_SECONDS
        self._follower.began(time.perf_counter() - start)

    async def stop(self) -> None:
        """Ends it with its input: what it owes is answered first. Kills it where that takes too long."""
        self._is_stopping = True
        if self._restarting:
            self._restarting.cancel()
        if self._pipe is None or self._pipe.is_over:
            return
        self._pipe.close_input()
        try:
            await asyncio.wait_for(self._over.wait(), SECONDS_TO_END)
        except asyncio.TimeoutError:
            self._pipe.kill()
            await self._over.wait()

    def _hear(self, batch: list[tuple[Owed, bytes]]) -> None:
        """Hands replies out in their order, behind what the follower wants done before."""
        self._freed.set()
        for _, reply in batch:
            self._answered += 1
            if number_of(reply) != self._answered:
                raise EngineFailed(f"the engine answered out of turn: {reply[:200]!r}")
        if not self.is_ready:
            hand_out(batch)
            return
        before = self._follower.follow(batch)
        if before is None and not self._held:
            hand_out(batch)
            return
        self._held.append((batch, before))
        if self._handing_out is None:
            self._handing_out = asyncio.get_running_loop().create_task(self._hand_out())

    async def _hand_out(self) -> None:
        try:
            while self._held:
                batch, before = self._held[0]
                try:
                    if before is not None:
                        await before
                    hand_out(batch)
                except Exception as error:
                    for owed, _ in batch:
                        owed.sink.fail(error)
                self._held.popleft()
        finally:
            self._handing_out = None

    def _end(self, pipe: Pipe, status: int) -> None:
        """Fails what is owed, and starts another engine, unless this is the end that was asked for."""
        for owed in pipe.owed:
            owed.sink.fail(Ended(f"the engine ended with status {status}", status))
        pipe.owed.clear()
        pipe.bytes_owed = 0
        if pipe is not self._pipe:
            return
        was_ready, self.is_ready = self.is_ready, False
        self._freed.set()
        if self._is_stopping:
            self._over.set()
        elif was_ready:
            self._follower.ended(status)
            self._restarting = asyncio.get_running_loop().create_task(self._restart())

    async def _restart(self) -> None:
        """Starts another engine, after pauses that grow while that is in vain."""
        while True:
            pause, self._pause = self._pause, min(2 * self._pause, MOST_PAUSE_SECONDS)
            await asyncio.sleep(pause)
            try:
                await self._begin()
                return
            except (Ended, ServiceError, OSError) as error:
                self._follower.told(str(error))


def hand_out(batch: Batch) -> None:
    """Gives each reply to whoever awaits it."""
    for owed, reply in batch:
        owed.sink.take(reply)
