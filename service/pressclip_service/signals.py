"""Signals: one asks a service to end once it has answered, one is passed over, and children get neither."""

from __future__ import annotations

import os
import signal
from contextlib import contextmanager
from types import FrameType
from typing import Iterator


class Termination:
    """Whether an end was asked for. From `listen` on SIGTERM asks for it, and SIGHUP is passed over."""

    def __init__(self) -> None:
        self.is_asked = False
        # Becomes readable as a signal comes, so that nothing waits over it.
        self.woken, self._waker = os.pipe()
        os.set_blocking(self.woken, False)
        os.set_blocking(self._waker, False)

    def listen(self) -> None:
        """Takes the signals from here on; the main thread alone may."""
        signal.set_wakeup_fd(self._waker, warn_on_full_buffer=False)
        signal.signal(signal.SIGTERM, self._ask)
        signal.signal(signal.SIGHUP, signal.SIG_IGN)

    def _ask(self, _number: int, _frame: FrameType | None) -> None:
        self.is_asked = True

    def take(self) -> None:
        """Takes what made `woken` readable."""
        try:
            os.read(self.woken, 64)
        except BlockingIOError:
            pass


@contextmanager
def held_back_from_children() -> Iterator[None]:
    """A child that is started meanwhile never hears SIGTERM: a signal to all processes of a service would end it before
    it has done what is owed. It ends with its input, or is ended by us."""
    before = signal.pthread_sigmask(signal.SIG_BLOCK, (signal.SIGTERM,))
    try:
        yield
    finally:
        signal.pthread_sigmask(signal.SIG_SETMASK, before)
