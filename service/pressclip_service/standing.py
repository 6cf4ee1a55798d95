"""Where the roles of a grid are: the request that each is at, how far behind that is, and its last sign of life."""

from __future__ import annotations

import json
from dataclasses import dataclass
from typing import Iterator

from .names import GATHERER, NUMBER, TIDIER, Id, Settings, worker_name
from .store import Store
from .turns import Sign, State

# Who gave no sign for so long is said to give none.
SILENT_SECONDS = 5.0


@dataclass(frozen=True)
class Standing:
    """Where one role is: the number of the last request that it has done, how many came since, how many seconds ago its
    last sign was, and what it did then; None where it gave none since Redis began."""

    role: str
    number: int | None
    behind: int
    seconds: float | None
    state: State | None

    @staticmethod
    def of(role: str, sign: Sign | None, requests: int, now: float) -> Standing:
        """By its last sign, where so many requests entered."""
        if sign is None:
            return Standing(role, None, requests, None, None)
        return Standing(role, sign.number, max(0, requests - sign.number), max(0.0, now - sign.milliseconds / 1_000),
                        sign.state)

    def line(self) -> bytes:
        """As a line of JSON."""
        seconds = None if self.seconds is None else round(self.seconds, 1)
        return json.dumps({"role": self.role, "request": self.number, "behind": self.behind, "seconds": seconds,
                           "state": self.state.value if self.state else None}).encode()

    def why(self) -> str:
        """What holds it up, as far as its signs say."""
        if self.seconds is None:
            return "no sign of it since Redis began"
        if self.seconds > SILENT_SECONDS:
            return f"no sign of it for {self.seconds:.0f} s, since request {self.number}"
        if self.state is State.STUCK:
            return f"its engine owes a reply behind request {self.number}"
        return f"{'it builds its engine' if self.state is State.LOADING else 'it is'} at request {self.number}"


class Standings:
    """Where all roles of a grid are, at one time."""

    def __init__(self, store: Store, settings: Settings) -> None:
        self._store = store
        self._settings = settings
        signs = store.do(lambda client: client.hgetall(store.names.signs))
        self.requests = int(store.do(lambda client: client.get(store.names.number)) or 0)
        now = store.now()

        def of(name: str, role: str) -> Standing:
            return Standing.of(role, Sign.of(signs.get(name.encode(), b"")), self.requests, now)

        self.workers = {(shard, replica): of(worker_name(shard, replica), f"worker {shard}:{replica}")
                        for shard in range(settings.shards) for replica in range(settings.replicas)}
        self.gatherer, self.tidier = of(GATHERER, "gather"), of(TIDIER, "tidy")

    def lines(self) -> Iterator[bytes]:
        """A line of JSON for the grid, and one for each role."""
        settings = self._settings
        yield json.dumps({"grid": self._store.names.grid, "shards": settings.shards, "replicas": settings.replicas,
                          "limit": settings.limit, "requests": self.requests, "version": settings.version}).encode()
        for standing in (*self.workers.values(), self.gatherer, self.tidier):
            yield standing.line()

    def waited_for(self, place: Id | None) -> str:
        """Whom the reply to a request waits for; to one that nobody knows the place of, whoever is behind."""
        if place is None:
            behind = [standing for standing in self.workers.values() if standing.behind]
        else:
            behind = self._owing(place)
        return "; ".join(f"{standing.role} ({standing.why()})" for standing in behind or [self.gatherer])

    def _owing(self, place: Id) -> list[Standing]:
        """The workers whose turn a request is and that have not answered it."""
        entries = self._store.requests_between(place.before(), place)
        if not entries:
            return []
        replica = int(entries[0][1].get(NUMBER, b"0")) % self._settings.replicas
        answered = self._store.positions(self._store.names.answered)
        return [self.workers[shard, replica] for shard in range(self._settings.shards)
                if answered.get(worker_name(shard, replica), Id(0, 0)) < place]
