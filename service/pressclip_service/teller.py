"""What a worker tells: its answers, which stand in Redis's memory alone until they are kept.

A Redis that ends forgets what was only told. So a worker holds what is not kept, sees by Redis's own word up to where
it has told, and tells again what is missing there.
"""

from __future__ import annotations

from collections import deque
from itertools import islice
from typing import Any, NamedTuple, Protocol, Sequence

from .names import Id, Names, worker_name
from .scripts import TELL


TOLD_AT_ONCE = 256
# So many bytes are held, each answer with what is told beside it; there are more where nothing is kept for long.
MOST_BYTES_HELD = 64 << 20
BYTES_BESIDE = 256


class Scripted(Protocol):
    """What runs scripts for a grid, as a `Store` does."""

    names: Names

    def scripted(self, script: str, calls: Sequence[tuple[Sequence[str], Sequence[object]]], /) -> list[Any]:
        """The results of calls of a script, each with keys and arguments."""


class NotHeld(Exception):
    """Redis forgot answers that are not held any more, so that they have to be found anew."""


class Answer(NamedTuple):
    """An answer to a request, and what of the request is told with it."""

    place: Id
    client: bytes
    line_number: bytes
    number: bytes
    kind: bytes
    text: bytes


def _size(answer: Answer) -> int:
    """About how many bytes an answer takes."""
    return len(answer.text) + BYTES_BESIDE


class Teller:
    """The answers of one worker behind a request, in the order of the requests."""

    def __init__(self, store: Scripted, shard: int, replica: int, after: Id) -> None:
        self._store = store
        self._front = [worker_name(shard, replica), shard]
        # Up to there Redis has the answers, as far as it said; up to there they are kept, or were let go.
        self._told = Id(0, 0)
        self._dropped = self._taken = after
        self._held: deque[Answer] = deque()
        self._waiting: deque[Answer] = deque()
        self._bytes = 0

    @property
    def is_holding(self) -> bool:
        """Whether there are answers that are not kept."""
        return bool(self._held or self._waiting)

    def tell(self, answers: Sequence[Answer] = ()) -> None:
        """Tells answers, and before them those that Redis forgot; `NotHeld` where these are not here any more. What an
        earlier life told is held alone, and an answer that is given twice is taken once."""
        for answer in answers:
            if answer.place <= self._taken:
                continue
            self._taken = answer.place
            (self._held if answer.place <= self._told else self._waiting).append(answer)
            self._bytes += _size(answer)
        is_done = False
        while not is_done:
            told = list(islice(self._waiting, TOLD_AT_ONCE))
            after = told[-1].place if told else self._told
            at, kept = self._ask(told, after)
            if at != after:
                self._begin_at(at, kept)
                continue
            self._told = after
            for _ in told:
                self._held.append(self._waiting.popleft())
            self._drop(kept)
            is_done = not self._waiting

    def _ask(self, answers: Sequence[Answer], after: Id) -> tuple[Id, Id]:
        """Tells answers. Gives up to where Redis has the answers now, and up to where all is kept."""
        told: list[object] = []
        for answer in answers:
            told += (answer.place.text(), *answer[1:])
        arguments = [*self._front, self._told.text(), after.text(), *told]
        [[at, kept]] = self._store.scripted(TELL, [([self._store.names.prefix], arguments)])
        return Id.of(at), Id.of(kept)

    def _begin_at(self, at: Id, kept: Id) -> None:
        """Has all wait that is behind an answer, the last that Redis has."""
        if max(at, kept) < self._dropped:
            raise NotHeld(f"Redis forgot answers behind {at.text()}")
        answers = [*self._held, *self._waiting]
        self._told = at
        self._held = deque(answer for answer in answers if answer.place <= at)
        self._waiting = deque(answer for answer in answers if answer.place > at)

    def _drop(self, kept: Id) -> None:
        """Lets go what is kept, and what is too much."""
        while self._held and (self._held[0].place <= kept or self._bytes > MOST_BYTES_HELD):
            answer = self._held.popleft()
            self._dropped = answer.place
            self._bytes -= _size(answer)
