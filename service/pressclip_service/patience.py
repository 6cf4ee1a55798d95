"""Saying what is waited for."""

from __future__ import annotations

import time

from .errors import tell

FIRST_SECONDS = 5.0


class Patience:
    """Tells what is waited for once that takes some seconds, and then each time it has taken twice as long."""

    def __init__(self, program: str) -> None:
        self._program = program
        self.begin()

    def begin(self) -> None:
        """Begins to wait anew."""
        self._start = time.monotonic()
        self._next = FIRST_SECONDS

    def seconds_left(self) -> float:
        """How long until there is something to tell."""
        return max(0.0, self._start + self._next - time.monotonic())

    def look(self, what: str) -> None:
        """Tells what is waited for, where it is time to."""
        waited = time.monotonic() - self._start
        if waited >= self._next:
            tell(self._program, f"{what}, since {waited:.0f} s")
            self._next = 2 * waited
