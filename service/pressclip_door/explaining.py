"""What `pressclip-explain` says of queries, texts and lines, by one program that is kept open."""

from __future__ import annotations

import asyncio
import json
import os
import time
from pathlib import Path
from typing import Any, Sequence

from pressclip_service.place import program_of

from .pipe import Awaited, Behind, Ended, Owed, Pipe

Json = dict[str, Any]
_USUAL = program_of("pressclip_explain", "pressclip-explain")
SECONDS_TO_END = 10.0
MOST_OWED = 1_024
MOST_BYTES_OWED = 16 << 20


def explainer_command() -> list[str]:
    """The command of the program: what the variable PRESSCLIP_EXPLAIN names, or what this checkout built;
    `pressclip-explain` on the path where this is installed."""
    return [os.environ.get("PRESSCLIP_EXPLAIN") or _USUAL]


class Explainer:
    """The program, started where it is asked first, and again where it ended."""

    def __init__(self, command: Sequence[str]) -> None:
        self._command = list(command)
        self._pipe: Pipe | None = None
        self._starting = asyncio.Lock()
        self._over = asyncio.Event()

    async def explain(self, query: str) -> Json:
        """How a query's text is read, or its fault."""
        return await self.ask({"query": query})

    async def words(self, text: str) -> Json:
        """The words of a text and where each stands, by bytes of UTF-8."""
        return await self.ask({"text": text})

    async def line(self, line: str) -> Json:
        """What a line of the protocol would be refused for."""
        return await self.ask({"line": line})

    async def ask(self, value: Json) -> Json:
        """The program's reply; `Behind` where too much waits for it, `Ended` where it ended before it gave one, and
        `EngineFailed` where it can't be started."""
        async with self._starting:
            if self._pipe is None or self._pipe.is_over:
                pipe = Pipe(hear, lambda text: None, self._end)
                await pipe.start(self._command)
                self._over.clear()
                self._pipe = pipe
        if len(self._pipe.owed) >= MOST_OWED or self._pipe.bytes_owed >= MOST_BYTES_OWED:
            raise Behind()
        awaited = Awaited()
        text = json.dumps(value, ensure_ascii=False, separators=(",", ":"))
        self._pipe.send(Owed(text.encode(errors="surrogatepass"), awaited, time.perf_counter()))
        said: Json = json.loads(await awaited.reply())
        return said

    def _end(self, status: int) -> None:
        assert self._pipe is not None
        for owed in self._pipe.owed:
            owed.sink.fail(Ended(f"{Path(self._command[0]).name} ended with status {status}"))
        self._pipe.owed.clear()
        self._over.set()

    def kill(self) -> None:
        """Ends the program at once; it is started again where it is asked next."""
        if self._pipe is not None and not self._pipe.is_over:
            self._pipe.kill()

    async def stop(self) -> None:
        """Ends the program with its input."""
        if self._pipe is None or self._pipe.is_over:
            return
        self._pipe.close_input()
        try:
            await asyncio.wait_for(self._over.wait(), SECONDS_TO_END)
        except asyncio.TimeoutError:
            self._pipe.kill()
            await self._over.wait()


def hear(batch: list[tuple[Owed, bytes]]) -> None:
    """Gives each reply to whoever awaits it."""
    for owed, reply in batch:
        owed.sink.take(reply)
