"""What a client waits for: nobody waits over some seconds without a word of it."""

from __future__ import annotations

import threading
import time
from contextlib import contextmanager
from dataclasses import dataclass
from typing import Callable, Iterator

from .errors import tell
from .lives import Life

TOLD_AFTER_SECONDS = 5.0
LOOK_SECONDS = 1.0


@dataclass(frozen=True)
class _Wait:
    """Something that is waited for, since when, and how that is told."""

    key: object
    since: float
    words: Callable[[], str]


class Waits:
    """What the threads of a program wait for."""

    def __init__(self) -> None:
        self._waits: dict[str, _Wait] = {}

    def begin(self, name: str, key: object, words: Callable[[], str]) -> None:
        """From now on this is waited for; with a key that the wait had before, since then."""
        if name not in self._waits or self._waits[name].key != key:
            self._waits[name] = _Wait(key, time.monotonic(), words)

    def end(self, name: str) -> None:
        """It is not waited for any more."""
        self._waits.pop(name, None)

    @contextmanager
    def on(self, words: str) -> Iterator[None]:
        """Waits for it while the block runs."""
        self.begin(words, object(), lambda: words)
        try:
            yield
        finally:
            self.end(words)

    def longest(self) -> _Wait | None:
        """What is waited for longest; None where that is not long yet."""
        wait = min(tuple(self._waits.values()), key=lambda each: each.since, default=None)
        return wait if wait and time.monotonic() - wait.since >= TOLD_AFTER_SECONDS else None


class Watch:
    """Beside a client: renews its life, and tells what it waits for."""

    def __init__(self, program: str, life: Life, waits: Waits, fail: Callable[[Exception], None]) -> None:
        self._program = program
        self._life = life
        self._waits = waits
        self._fail = fail
        self._renewed = time.monotonic()
        # What was told last, and after how many seconds of it there is something to tell again.
        self._told: _Wait | None = None
        self._next = TOLD_AFTER_SECONDS
        threading.Thread(target=self._run, daemon=True).start()

    def _run(self) -> None:
        try:
            while True:
                time.sleep(min(LOOK_SECONDS, self._life.renewed_every))
                if time.monotonic() - self._renewed >= self._life.renewed_every:
                    self._renew()
                self._look()
        except Exception as error:
            self._fail(error)

    def _renew(self) -> None:
        self._renewed = time.monotonic()
        self._life.renew()

    def _look(self) -> None:
        """Tells what is waited for, once that is long and each time it is twice as long; and sees that the grid is
        there still."""
        wait = self._waits.longest()
        if wait is None:
            return
        if wait != self._told:
            self._told, self._next = wait, TOLD_AFTER_SECONDS
        waited = time.monotonic() - wait.since
        if waited >= self._next:
            self._next = 2 * waited
            self._renew()
            tell(self._program, f"waiting for {wait.words()}")
