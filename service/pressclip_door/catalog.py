"""The registered queries, as far as the door knows them: what was there at its start, and each change since."""

from __future__ import annotations

from bisect import bisect_left
from collections.abc import AsyncIterator, Callable, Iterator
from dataclasses import dataclass

from pressclip_service.live import value_of


@dataclass(frozen=True)
class Listing:
    """A query as it is registered."""

    id: str
    query: str
    listener: str | None = None

    def document(self) -> dict[str, str]:
        """It as JSON."""
        said = {"id": self.id, "query": self.query}
        return said if self.listener is None else {**said, "listener": self.listener}


class Catalog:
    """Queries by id, each as its text is shown. Memory: some 300 bytes a query."""

    def __init__(self, shown: Callable[[str], str] = str) -> None:
        self._shown = shown
        self._by_id: dict[str, Listing] = {}
        # All ids in their order, also some that are gone, but for those that came since.
        self._ordered: list[str] = []
        self._new: list[str] = []

    def __len__(self) -> int:
        return len(self._by_id)

    def get(self, name: str) -> Listing | None:
        """The query under an id."""
        return self._by_id.get(name)

    def take(self, line: bytes) -> None:
        """Follows an accepted change."""
        change = value_of(line)
        operation = change["op"]
        if operation == "register":
            for one in change["queries"]:
                self._register(Listing(one["id"], self._shown(one["query"]), one.get("listener")))
        elif operation == "delete":
            for name in change["ids"]:
                self._by_id.pop(name, None)
        elif operation == "clear":
            self._by_id.clear()
            self._ordered, self._new = [], []

    def _register(self, listing: Listing) -> None:
        if listing.id not in self._by_id:
            self._new.append(listing.id)
        self._by_id[listing.id] = listing

    async def load(self, lines: AsyncIterator[bytes]) -> None:
        """Takes register lines in place of all."""
        self._by_id.clear()
        self._ordered, self._new = [], []
        async for line in lines:
            self.take(line)

    def after(self, name: str) -> Iterator[Listing]:
        """The queries whose ids come after a text, in byte order. Cost: a merge of what came since the last call."""
        if self._new or len(self._ordered) > 2 * len(self._by_id):
            merged = sorted({*self._new, *self._ordered} & self._by_id.keys())
            self._ordered, self._new = merged, []
        ordered = self._ordered
        place = bisect_left(ordered, name + "\0") if name else 0
        while place < len(ordered):
            listing = self._by_id.get(ordered[place])
            if listing is not None:
                yield listing
            place += 1
