"""What is to be delivered, on disk: synced before whoever sent the article has the reply."""

from __future__ import annotations

import sqlite3
from dataclasses import dataclass
from pathlib import Path
from typing import Sequence

FORM = """
CREATE TABLE IF NOT EXISTS parcels (number INTEGER PRIMARY KEY AUTOINCREMENT, route TEXT NOT NULL, query TEXT NOT NULL,
    id TEXT NOT NULL, at REAL NOT NULL, body TEXT NOT NULL);
CREATE INDEX IF NOT EXISTS by_query ON parcels (route, query, number);
CREATE INDEX IF NOT EXISTS by_number ON parcels (route, number);
"""
_COLUMNS = "number, route, query, id, at, body"


@dataclass(frozen=True)
class Parcel:
    """An alert of one query on its way along one route. `id` is the same in each copy of it; `body` is JSON."""

    number: int
    route: str
    query: str
    id: str
    at: float
    body: str


class Spool:
    """The parcels that wait. For one thread; each call is a transaction."""

    def __init__(self, path: Path) -> None:
        path.parent.mkdir(parents=True, exist_ok=True)
        self._database = sqlite3.connect(path, check_same_thread=False, isolation_level=None)
        path.chmod(0o600)
        for words in ("journal_mode = WAL", "synchronous = FULL", "busy_timeout = 5000"):
            self._database.execute(f"PRAGMA {words}")
        self._database.executescript(FORM)

    def put(self, parcels: Sequence[Parcel]) -> None:
        """Takes parcels, which are synced once this returns; their numbers are given here. `sqlite3.Error` where the
        disk does not take them, and then none is kept."""
        rows = [(one.route, one.query, one.id, one.at, one.body) for one in parcels]
        self._database.execute("BEGIN IMMEDIATE")
        try:
            self._database.executemany("INSERT INTO parcels (route, query, id, at, body) VALUES (?, ?, ?, ?, ?)", rows)
            self._database.execute("COMMIT")
        except sqlite3.Error:
            if self._database.in_transaction:
                self._database.execute("ROLLBACK")
            raise

    def drop(self, numbers: Sequence[int]) -> None:
        """Lets parcels go that were delivered."""
        self._database.execute("BEGIN IMMEDIATE")
        self._database.executemany("DELETE FROM parcels WHERE number = ?", [(number,) for number in numbers])
        self._database.execute("COMMIT")

    def heads(self, route: str, after: str, most: int) -> list[Parcel]:
        """The first parcel of each query of a route, by the order of their ids, behind one. Cost: a look-up each."""
        found: list[Parcel] = []
        while len(found) < most:
            rows = self._rows("route = ? AND query > ? ORDER BY query, number LIMIT 1", route, after)
            if not rows:
                break
            found += rows
            after = rows[0].query
        return found

    def head(self, route: str, query: str) -> Parcel | None:
        """The first parcel of a query."""
        rows = self._rows("route = ? AND query = ? ORDER BY number LIMIT 1", route, query)
        return rows[0] if rows else None

    def first(self, route: str, most: int) -> list[Parcel]:
        """The first parcels of a route, in their order."""
        return self._rows("route = ? ORDER BY number LIMIT ?", route, most)

    def counts(self) -> dict[str, tuple[int, float]]:
        """How many parcels wait on each route, and when the oldest of them was alerted."""
        rows = self._database.execute("SELECT route, count(*), min(at) FROM parcels GROUP BY route").fetchall()
        return {route: (count, at) for route, count, at in rows}

    def close(self) -> None:
        """Lets go of the file."""
        self._database.close()

    def _rows(self, condition: str, *values: object) -> list[Parcel]:
        rows = self._database.execute(f"SELECT {_COLUMNS} FROM parcels WHERE {condition}", values).fetchall()
        return [Parcel(*row) for row in rows]
