"""Connections to Redis for what is asked most: many calls in one message, and its words taken as they come."""

from __future__ import annotations

from typing import Any, Sequence

import redis
from redis.exceptions import ResponseError


def packed(words: Sequence[object]) -> bytes:
    """A call as Redis reads it."""
    texts = [word if isinstance(word, bytes) else str(word).encode() for word in words]
    return b"*%d\r\n%b" % (len(texts), b"".join([b"$%d\r\n%b\r\n" % (len(text), text) for text in texts]))


class Wire:
    """One connection, of one thread; it is made where it is needed, and made anew where it broke."""

    def __init__(self, pool: redis.ConnectionPool) -> None:
        # Its types know texts alone, and it takes bytes as well.
        self._connection: Any = pool.connection_class(**pool.connection_kwargs)

    def ask(self, calls: Sequence[Sequence[object]]) -> list[Any]:
        """What Redis answers to the calls, which are sent together; an error stands in its place."""
        try:
            self._connection.send_packed_command([b"".join(map(packed, calls))], check_health=False)
            return [self._answer() for _ in calls]
        except BaseException:
            self._connection.disconnect()
            raise

    def _answer(self) -> object:
        try:
            answer: object = self._connection.read_response()
            return answer
        except ResponseError as error:
            return error


class Channel:
    """A connection that hears what is told on a channel, from its first call on. What is told while it is broken is
    not heard."""

    def __init__(self, pool: redis.ConnectionPool, name: str) -> None:
        self._connection: Any = pool.connection_class(**pool.connection_kwargs)
        self._subscribe = [packed(["SUBSCRIBE", name])]
        self._is_open = False

    def open(self) -> None:
        """Hears from now on."""
        self._connection.send_packed_command(self._subscribe, check_health=False)
        self._connection.read_response()
        self._is_open = True

    def next(self, seconds: float) -> bytes | None:
        """The next that is told, after a wait; None where there is nothing so long."""
        try:
            if not self._is_open:
                self.open()
            told: bytes | None = self._connection.read_response()[2] if self._connection.can_read(seconds) else None
            return told
        except BaseException:
            self._is_open = False
            self._connection.disconnect()
            raise
