"""The names of clients: each has a life at a time, which is renewed, and goes once that is over."""

from __future__ import annotations

import secrets
from dataclasses import dataclass

from .errors import ServiceError
from .names import Settings
from .scripts import BEGIN, FORGET, RENEW
from .store import NoGrid, RequestsLost, Store

MOST_SECONDS_BETWEEN = 3_600.0


@dataclass(frozen=True)
class Entered:
    """The last line that entered under a name in earlier lives, and its checksum."""

    number: int
    checksum: int


@dataclass(frozen=True)
class Known:
    """A name that a grid knows: its last line that entered, and how many seconds its life has; None for one that has
    no end."""

    name: str
    line: int
    seconds: float | None


class Life:
    """One life of a client under its name: no other program submits under the name until another life begins."""

    def __init__(self, store: Store, settings: Settings, client: str, seconds: float) -> None:
        self._store = store
        self._settings = settings
        self._client = client
        self._milliseconds = int(seconds * 1_000)
        # So often it is renewed.
        self.renewed_every = min(seconds / 4, MOST_SECONDS_BETWEEN)
        self.entered, self.mark = self._begin()

    def _begin(self) -> tuple[Entered, str]:
        """The life's number, one above the last one's, and a mark of its own."""
        before, own = "", secrets.token_hex(8)
        while True:
            life = f"{_count(before) + 1}:{own}"
            arguments = [self._client, before, life, self._milliseconds]
            [[there, *last]] = self._store.scripted(BEGIN, [([self._store.names.prefix], arguments)])
            if last:
                number, _, checksum = last[0].partition(b":")
                return Entered(int(number), int(checksum)), life
            before = there.decode()

    def renew(self) -> None:
        """Goes on; the error of `lost_to` where the name has another life, `NoGrid` where the grid is gone."""
        arguments = [self._client, self.mark, self._settings.mark, self._milliseconds]
        [there] = self._store.scripted(RENEW, [([self._store.names.prefix], arguments)])
        if there is None:
            raise NoGrid.gone(self._store.names.grid)
        if there.decode() != self.mark:
            raise self.lost_to(there.decode())

    def lost_to(self, there: str) -> ServiceError:
        """What it means that the name has another life, or none."""
        if _count(there) >= _count(self.mark):
            return ServiceError(f"another program submits under the name {self._client} since")
        if there:
            return RequestsLost(f"Redis has an older life of the name {self._client}: its file is an older one")
        return ServiceError(f"the grid does not know the name {self._client} any more: its life was over, or Redis lost"
                            " it")


def _count(life: str) -> int:
    """Which life of its name it is."""
    return int(life.partition(":")[0] or 0)


def forget(store: Store, client: str) -> None:
    """Forgets a client, and its replies; none are kept for it from here on."""
    store.scripted(FORGET, [([store.names.prefix], [client])])


def forget_what_is_over(store: Store) -> list[str]:
    """Forgets clients whose life is over, and gives their names."""
    found: list[str] = []
    while True:
        [names] = store.scripted(FORGET, [([store.names.prefix], [])])
        if not names:
            return found
        found += [name.decode(errors="replace") for name in names]


def known(store: Store) -> list[Known]:
    """The names that the grid knows, in the order of their ends."""
    lines = {name: int(text.partition(b":")[0]) for name, text
             in store.do(lambda client: client.hgetall(store.names.clients)).items()}
    now = store.now()
    ends = store.do(lambda client: client.zrange(store.names.over, 0, -1, withscores=True))
    found = [Known(name.decode(errors="replace"), lines.pop(name, 0), end / 1_000 - now) for name, end in ends]
    return found + [Known(name.decode(errors="replace"), line, None) for name, line in sorted(lines.items())]
