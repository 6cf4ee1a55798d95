"""What is kept of indices and of their documents beside the engine's journal: a file of SQLite, synced.

A document is written here before its query is registered, and what it replaces is dropped later: after a crash the one
counts whose query the engine has.
"""

from __future__ import annotations

import sqlite3
from dataclasses import dataclass
from pathlib import Path
from typing import Iterable, Iterator, Sequence

FILE = "percolator.sqlite"
FORM = 1
_TABLES = """
create table if not exists indices (name text primary key, body text not null, uuid text not null, made integer);
create table if not exists documents (seq integer primary key, engine text not null, version integer not null,
    query text not null, fields text not null, source text not null);
create index if not exists by_engine on documents (engine);
"""


class OtherForm(sqlite3.DatabaseError):
    """The file is of another form than this program writes."""


@dataclass(frozen=True)
class Row:
    """A document as it is kept, without its source: the query's text, and the engine's fields that it looks at."""

    seq: int
    engine: str
    version: int
    query: str
    fields: tuple[str, ...]


@dataclass(frozen=True)
class IndexRow:
    """An index as it is kept: its body is JSON, and `made` the milliseconds from 1970 on."""

    name: str
    body: str
    uuid: str
    made: int


class Store:
    """The file, or memory where there is no folder. Its calls block, and are made one at a time, but for `source`. Each
    raises `sqlite3.Error` where the file can't be read or written, and then changes nothing."""

    def __init__(self, folder: Path | None) -> None:
        if folder is not None:
            folder.mkdir(mode=0o700, parents=True, exist_ok=True)
            path = folder / FILE
            path.touch(mode=0o600)
        self._file = sqlite3.connect(":memory:" if folder is None else str(path), check_same_thread=False)
        self._file.execute("pragma journal_mode = wal")
        self._file.execute("pragma synchronous = full")
        form = self._file.execute("pragma user_version").fetchone()[0]
        if form not in (0, FORM):
            raise OtherForm(f"{FILE} is of form {form}, and {FORM} is what is read here")
        self._file.executescript(_TABLES)
        self._file.execute(f"pragma user_version = {FORM}")
        # Reads wait for no write.
        self._reads = self._file if folder is None else sqlite3.connect(path, check_same_thread=False)
        self._stale: list[int] = []

    def indices(self) -> list[IndexRow]:
        """All indices."""
        return [IndexRow(*row) for row in self._file.execute("select name, body, uuid, made from indices")]

    def put_index(self, row: IndexRow) -> None:
        """Keeps an index, new or changed."""
        with self._file:
            self._file.execute("insert or replace into indices values (?, ?, ?, ?)",
                               (row.name, row.body, row.uuid, row.made))

    def drop_index(self, name: str, seqs: Iterable[int]) -> None:
        """Drops an index with its documents."""
        with self._file:
            self._file.executemany("delete from documents where seq = ?", ((seq,) for seq in seqs))
            self._file.execute("delete from indices where name = ?", (name,))

    def rows(self) -> Iterator[Row]:
        """All documents, in the order in which they were kept, also those that were replaced."""
        for seq, engine, version, query, fields in self._file.execute(
                "select seq, engine, version, query, fields from documents order by seq"):
            yield Row(seq, engine, version, query, tuple(fields.split()))

    def add(self, documents: Sequence[tuple[Row, str]]) -> None:
        """Keeps documents with their sources, and drops what is stale."""
        with self._file:
            self._file.executemany("insert into documents values (?, ?, ?, ?, ?, ?)",
                                   ((row.seq, row.engine, row.version, row.query, " ".join(row.fields), source)
                                    for row, source in documents))
            self._file.executemany("delete from documents where seq = ?", ((seq,) for seq in self._stale))
        self._stale.clear()

    def leave(self, seqs: Iterable[int]) -> None:
        """Lets documents be dropped with the next write: they count for nothing any more."""
        self._stale += seqs

    def source(self, seq: int) -> str:
        """The source of a document that is kept."""
        found: str = self._reads.execute("select source from documents where seq = ?", (seq,)).fetchone()[0]
        return found

    def last_seq(self) -> int:
        """The greatest number of a document."""
        found: int = self._file.execute("select coalesce(max(seq), 0) from documents").fetchone()[0]
        return found
