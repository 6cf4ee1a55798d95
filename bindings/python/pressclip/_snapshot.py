"""What stood registered at one moment."""

from __future__ import annotations

import threading
from ctypes import byref, c_void_p
from types import TracebackType
from typing import Any, Iterable, Iterator, Mapping, NoReturn

from . import _calls
from ._calls import answer_or_none, count_of, encoded, well
from ._matches import Found, Given, GivenMany, ids_in
from ._refusals import Closed, LimitError

# So many ids are asked for at once.
_PAGE = 1_000


class Snapshot:
    """What stood in a monitor when `Monitor.snapshot` was called: no later change shows in it.

    It is closed at the end of its `with`, by `close`, or when nothing has it any more. Threads may share it, and then a
    call waits for that of another thread; several snapshots go side by side.

    >>> from pressclip import Monitor
    >>> monitor = Monitor()
    >>> monitor.register("tea", "tea")
    >>> with monitor.snapshot() as before:
    ...     monitor.clear()
    ...     print(before.match({"id": "a1", "fields": {"text": "Tea prices rise"}}), len(monitor))
    [Found(query='tea', hits=())] 0
    """

    def __init__(self, shared: c_void_p) -> None:
        self._view, self._lock = c_void_p(), threading.RLock()
        well(_calls.LIBRARY.pressclip_shared_snapshot(shared, byref(self._view)))

    def __reduce__(self) -> NoReturn:
        """Refuses `copy.copy`, `copy.deepcopy` and `pickle`."""
        raise TypeError("a Snapshot can't be copied: what it holds has one owner")

    def __enter__(self) -> Snapshot:
        return self

    def __exit__(self, kind: type[BaseException] | None, error: BaseException | None,
                 trace: TracebackType | None) -> None:
        self.close()

    def __del__(self) -> None:
        self.close()

    def close(self) -> None:
        """Ends it. Every other call is refused after it, by `Closed`."""
        with self._lock:
            _calls.LIBRARY.pressclip_snapshot_free(byref(self._view))

    def _open(self) -> c_void_p:
        """What C has of it; wanted with the lock."""
        if not self._view:
            raise Closed("closed")
        return self._view

    def match(self, article: Mapping[str, Any]) -> list[Found]:
        """What `Monitor.match` would have given at that moment, for the same article, and with its errors."""
        given, result = Given(article), c_void_p()
        try:
            with self._lock:
                well(_calls.LIBRARY.pressclip_snapshot_match(self._open(), *given.arguments(), byref(result)))
            return given.found(result)
        finally:
            _calls.LIBRARY.pressclip_result_free(result)

    def match_many(self, articles: Iterable[Mapping[str, Any]]) -> list[list[Found]]:
        """What `Monitor.match_many` would have given at that moment, and with its errors."""
        with GivenMany(articles) as given:
            with self._lock:
                status = _calls.LIBRARY.pressclip_snapshot_match_many(self._open(), *given.arguments())
            well(status, given.which.value)
            return given.found()

    def get(self, id: str) -> str | None:
        """The query with this id, or None where there was none. `LimitError`, `Closed`, `NoMemory`."""
        name = encoded(id, "an id")
        with self._lock:
            query = answer_or_none(_calls.LIBRARY.pressclip_snapshot_show, self._open(), name, len(name))
        return None if query is None else query.decode()

    def _page(self, after: bytes | None) -> list[str]:
        """The next ids after one, or the first ones."""
        result = c_void_p()
        try:
            with self._lock:
                well(_calls.LIBRARY.pressclip_snapshot_ids(self._open(), after, len(after or b""), _PAGE,
                                                           byref(result)))
            return ids_in(result)
        finally:
            _calls.LIBRARY.pressclip_result_free(result)

    def ids(self) -> Iterator[str]:
        """The ids, in the byte order of their UTF-8; `Closed` where it is closed before the last. Takes a page at once.

        >>> from pressclip import Monitor
        >>> monitor = Monitor()
        >>> monitor.register_many([("b", "tea"), ("a", "milk")])
        >>> list(monitor.snapshot().ids())
        ['a', 'b']
        """
        page = self._page(None)
        while page:
            yield from page
            page = self._page(page[-1].encode()) if len(page) == _PAGE else []

    def __iter__(self) -> Iterator[str]:
        """Its ids, as `ids` gives them."""
        return self.ids()

    def __contains__(self, id: str) -> bool:
        """Whether a query had this id. `TypeError` where that is no `str`."""
        try:
            return self.get(id) is not None
        except LimitError:
            return False

    def __len__(self) -> int:
        """How many queries were registered."""
        with self._lock:
            return count_of(_calls.LIBRARY.pressclip_snapshot_count, self._open())
