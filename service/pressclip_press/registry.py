"""What is known of the queries that the engine has."""

from __future__ import annotations

from collections.abc import Collection, Iterable, Sequence
from functools import lru_cache

from pressclip_service.errors import EngineFailed

from .filtering import Filter
from .lines import Listed
from .preparing import Preparer
from .sources import Source
from .translating import translate
from .tree import Refused


_MOST_FILTERS = 1 << 16


class Registry:
    """The queries that have a filter, the ids that have a listener, and the fields that queries ask for.

    Of a query with a filter its text is kept; filters are made when they decide, and those of late are kept too.
    """

    def __init__(self, preparer: Preparer) -> None:
        self._filtered: dict[str, str] = {}
        self._filter_of = lru_cache(maxsize=_MOST_FILTERS)(lambda source: translate(source, preparer).filter)
        self.heard: set[str] = set()
        # Whether each query that the engine has was registered here; else ids that are known are listed.
        self.is_whole = True
        self._known: set[str] = set()
        self._fields: set[str] = set()

    @property
    def fields(self) -> Collection[str] | None:
        """The fields that queries ask for, or None where that is not known of all."""
        return self._fields if self.is_whole else None

    @property
    def has_filters(self) -> bool:
        """Whether a filter may decide on an alert."""
        return bool(self._filtered) or not self.is_whole

    def filter(self, id: str) -> Filter | None:
        """What decides on a query beside the engine, if anything."""
        source = self._filtered.get(id)
        return None if source is None else self._filter_of(source)

    def has_others(self) -> None:
        """The engine has queries that were not registered here."""
        self.is_whole = False

    def is_known(self, id: str) -> bool:
        """Whether the filter of a query is known."""
        return self.is_whole or id in self._known

    def expect(self, queries: Iterable[Listed]) -> None:
        """Queries are on their way to the engine: articles behind them have the fields that these ask for."""
        for listed in queries:
            if listed.translated:
                self._fields |= listed.translated.fields

    def register(self, queries: Iterable[Listed]) -> None:
        """Queries were registered, in order."""
        for listed in queries:
            self._take(listed.id, listed.source if listed.filter else None, listed.source.has_listener)

    def learn(self, id: str, source: Source | None) -> None:
        """A query was registered before this process was, as that source, or without the dialect."""
        is_filtered = False
        if source:
            try:
                is_filtered = self._filter_of(source.query) is not None
            except Refused as why:
                raise EngineFailed(f"query {id!r} was registered by another profile: {why.says}") from None
        self._take(id, source if is_filtered else None, bool(source and source.has_listener))

    def _take(self, id: str, filtered: Source | None, is_heard: bool) -> None:
        if filtered:
            self._filtered[id] = filtered.query
        else:
            self._filtered.pop(id, None)
        if is_heard:
            self.heard.add(id)
        else:
            self.heard.discard(id)
        if not self.is_whole:
            self._known.add(id)

    def delete(self, ids: Sequence[str]) -> None:
        """Queries were taken out."""
        for id in ids:
            self._filtered.pop(id, None)
            self.heard.discard(id)
            self._known.discard(id)

    def clear(self) -> None:
        """All queries were taken out: from here on all that are registered are known."""
        self._filtered.clear()
        self.heard.clear()
        self._known.clear()
        self.is_whole = True
