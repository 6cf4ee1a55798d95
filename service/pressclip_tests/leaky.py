"""A way to Redis that breaks: now and then what Redis answered is dropped and the connection with it, so that who asked
can't know whether it was done; and where it is told to, what goes either way is held up, connections are cut, and calls
come to Redis long after the connection that they were made on is gone."""

from __future__ import annotations

import socket
import threading
import time
from dataclasses import dataclass
from random import Random


@dataclass(frozen=True)
class Faults:
    """Of how many blocks of bytes one is dropped with its connection, delayed, or delivered late; None for no such."""

    seed: int
    dropped: int
    delayed: int | None = None
    late: int | None = None


# So few of Redis's answers are dropped, and what a network does on a bad day.
LEAKS = Faults(1, dropped=8)
BAD_DAY = Faults(2, dropped=30, delayed=5, late=12)
MOST_DELAYED_SECONDS = 0.1
LATE_SECONDS = (0.1, 1.5)


class LeakyWay:
    """A port of 127.0.0.1 that leads to another one, until it is closed. Where nobody listens at that one yet, a
    connection is closed at once."""

    def __init__(self, port: int, faults: Faults) -> None:
        self._target = port
        self._dice = Random(faults.seed)
        self._faults = faults
        self._listener = socket.create_server(("127.0.0.1", 0))
        self.port: int = self._listener.getsockname()[1]
        self.dropped = self.delayed = self.late = 0
        threading.Thread(target=self._accept, daemon=True).start()

    def close(self) -> None:
        """Takes no more connections."""
        self._listener.close()

    def _accept(self) -> None:
        while True:
            try:
                near, _ = self._listener.accept()
            except OSError:
                return
            try:
                far = socket.create_connection(("127.0.0.1", self._target))
            except OSError:
                near.close()
                continue
            for start, end, is_answer in ((near, far, False), (far, near, True)):
                threading.Thread(target=self._carry, args=(start, end, is_answer), daemon=True).start()

    def _happens(self, one_in: int | None) -> bool:
        return one_in is not None and self._dice.randrange(one_in) == 0

    def _carry(self, start: socket.socket, end: socket.socket, is_answer: bool) -> None:
        """Carries bytes one way, and breaks now and then."""
        try:
            while block := start.recv(1 << 16):
                if self._happens(self._faults.delayed):
                    self.delayed += 1
                    time.sleep(self._dice.uniform(0, MOST_DELAYED_SECONDS))
                if is_answer and self._happens(self._faults.dropped):
                    self.dropped += 1
                    break
                if not is_answer and self._happens(self._faults.late):
                    self.late += 1
                    threading.Thread(target=self._deliver_late, args=(block,), daemon=True).start()
                    break
                end.sendall(block)
        except OSError:
            pass
        for each in (start, end):
            try:
                each.shutdown(socket.SHUT_RDWR)
            except OSError:
                pass

    def _deliver_late(self, block: bytes) -> None:
        """Delivers calls once who made them has long made them again."""
        time.sleep(self._dice.uniform(*LATE_SECONDS))
        try:
            with socket.create_connection(("127.0.0.1", self._target)) as late:
                late.sendall(block)
                late.settimeout(1.0)
                late.recv(1 << 16)
        except OSError:
            pass
