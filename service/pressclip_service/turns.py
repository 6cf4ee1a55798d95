"""Whose turn is whose among the replicas of a shard, by their signs of life."""

from __future__ import annotations

from enum import Enum
from typing import NamedTuple, Sequence

# A replica that gave no sign, or was stuck, while another gave so many signs is away.
MOST_MISSED = 5


class State(Enum):
    """What a role does."""

    LOADING = "loading"
    READY = "ready"
    STUCK = "stuck"


class Sign(NamedTuple):
    """A sign of life: when it was, by Redis's clock, the number of the request that the role is at, and its state."""

    milliseconds: int
    number: int
    state: State

    @staticmethod
    def of(text: bytes) -> Sign | None:
        """What Redis has of a role; None where it never gave a sign since Redis began."""
        if not text:
            return None
        when, number, state = text.decode().split(" ")
        return Sign(int(when), int(number), State(state))


class Turns:
    """Whose requests a replica answers: its own, and those of replicas that are away and that it stands next behind."""

    def __init__(self, replicas: int, replica: int) -> None:
        self._replicas = replicas
        self._replica = replica
        self._last: dict[int, Sign | None] = {}
        self._missed = dict.fromkeys(self.others, 0)
        self._away: set[int] = set()
        self.mine = frozenset({replica})

    @property
    def others(self) -> list[int]:
        """The other replicas of the shard."""
        return [other for other in range(self._replicas) if other != self._replica]

    def see(self, signs: Sequence[Sign | None]) -> None:
        """Follows the last signs of the others, heard at each sign of its own. Who is away is back once it is ready."""
        for other, sign in zip(self.others, signs):
            is_missed = sign is None or sign == self._last.get(other) or sign.state is State.STUCK
            self._missed[other] = self._missed[other] + 1 if is_missed else 0
            self._last[other] = sign
            if self._missed[other] >= MOST_MISSED:
                self._away.add(other)
            elif not is_missed and sign and sign.state is State.READY:
                self._away.discard(other)
        self.mine = frozenset({self._replica} | {away for away in self._away if self._next(away) == self._replica})

    def _next(self, replica: int) -> int:
        """Who is the next behind a replica that is not away."""
        while replica in self._away:
            replica = (replica + 1) % self._replicas
        return replica
