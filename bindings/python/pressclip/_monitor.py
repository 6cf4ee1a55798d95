"""Registered queries that threads share."""

from __future__ import annotations

from ctypes import byref, c_size_t, c_void_p
from types import TracebackType
from typing import Any, Iterable, Iterator, Mapping, NamedTuple, NoReturn, Tuple, Union

from . import _calls
from ._calls import QUERY, answer_of, answer_or_none, count_of, encoded, well
from ._explain import explain
from ._matches import Found, Given, GivenMany
from ._refusals import Closed, LimitError, QueryError
from ._snapshot import Snapshot

# An id, a query, and the listener that hears of it, where there is one.
Listing = Union[Tuple[str, str], Tuple[str, str, Union[str, None]]]
# The most queries that one call registers.
_PART = 1_024


class _Shared:
    """A registry in C, which is ended when nothing has it any more: no call is in it then."""

    def __init__(self, hits: bool) -> None:
        self.at = c_void_p()
        well(_calls.LIBRARY.pressclip_shared_open(hits, byref(self.at)))

    def __del__(self) -> None:
        _calls.LIBRARY.pressclip_shared_close(byref(self.at))


class _Texts(NamedTuple):
    """A query to be registered, in UTF-8."""

    id: bytes
    query: bytes
    listener: bytes | None

    @staticmethod
    def of(id: str, query: str, listener: str | None = None) -> _Texts:
        """`TypeError` where one is no `str`."""
        return _Texts(encoded(id, "an id"), encoded(query, "a query"),
                      None if listener is None else encoded(listener, "a listener"))

    def arguments(self) -> tuple[bytes, int, bytes, int, bytes | None, int]:
        """What a call is handed of it."""
        return (self.id, len(self.id), self.query, len(self.query), self.listener, len(self.listener or b""))


def _registered(status: int, texts: list[_Texts], which: int = 0) -> None:
    """Raises where a registering did not go well: of a text that is no query, what `explain` says of it."""
    if status == QUERY:
        try:
            explain(texts[which].query.decode())
        except QueryError as error:
            raise QueryError(which, error.fault, error.at, error.message) from None
    well(status, which)


class Monitor:
    """Registered queries, which any number of threads may share. With `hits`, matches show where queries hold.

    Matches of several threads go side by side, as the interpreter's lock is let go while the library works; a change
    that is made in between is in the next match of each thread. A `close` waits for nobody: calls that have begun end
    as they would have. Where a `str` has half of a surrogate pair, a call raises `UnicodeEncodeError`; where an
    argument is of another type, `TypeError`. Both change nothing.

    >>> from pressclip import Monitor
    >>> with Monitor(hits=True) as monitor:
    ...     monitor.register("tea-prices", "+tea pric*")
    ...     (found,) = monitor.match({"id": "a1", "fields": {"text": "Tea prices rise"}})
    >>> found.query, [(hit.start, hit.end) for hit in found.hits]
    ('tea-prices', [(0, 3), (4, 10)])
    """

    _shared: _Shared | None

    def __new__(cls, *arguments: Any, **named: Any) -> Monitor:
        """A monitor that is closed, until `__init__` opens it."""
        monitor = super().__new__(cls)
        monitor._shared = None
        return monitor

    def __init__(self, hits: bool = False) -> None:
        """Opens it; called again, it ends what was before. `NoMemory`."""
        if not isinstance(hits, bool):
            raise TypeError(f"hits is a bool, and not {type(hits).__name__}")
        self._shared = None
        self._shared = _Shared(hits)

    def __reduce__(self) -> NoReturn:
        """Refuses `copy.copy`, `copy.deepcopy` and `pickle`."""
        raise TypeError("a Monitor can't be copied: its registry has one owner")

    def __enter__(self) -> Monitor:
        return self

    def __exit__(self, kind: type[BaseException] | None, error: BaseException | None,
                 trace: TracebackType | None) -> None:
        self.close()

    def close(self) -> None:
        """Ends it. Every other call is refused after it, by `Closed`."""
        self._shared = None

    def _open(self) -> _Shared:
        """The registry, which stays as long as the caller has it."""
        shared = self._shared
        if shared is None:
            raise Closed("closed")
        return shared

    def register(self, id: str, query: str, listener: str | None = None) -> None:
        """Registers a query, in the place of the one with its id, for the listener `mail` or `feed`, or for none.

        `QueryError` where the text is no query, `LimitError`, `Closed`, `NoMemory`, and `Refused` with `listener`.

        >>> monitor = Monitor()
        >>> try:
        ...     monitor.register("open", "the (tea")
        ... except QueryError as error:
        ...     print(error.fault, error.at)
        Structure 8
        """
        shared, texts = self._open(), _Texts.of(id, query, listener)
        _registered(_calls.LIBRARY.pressclip_shared_register(shared.at, *texts.arguments()), [texts])

    def register_many(self, queries: Iterable[Listing]) -> None:
        """Registers `(id, query)` and `(id, query, listener)`, one after another: all of them or none, up to 1,024.

        More are registered in parts of so many, and where a part is refused, those before it stay. The errors of
        `register`, whose `which` is the place of the first query that is refused, from 0; of a part for which there is
        no room it is the place behind its last.

        >>> monitor = Monitor()
        >>> monitor.register_many([("tea", "+tea pric*"), ("milk", "milk", "mail")])
        >>> len(monitor)
        2
        """
        shared, texts, which = self._open(), [_Texts.of(*query) for query in queries], c_size_t()
        for start in range(0, len(texts), _PART):
            part = [_calls.Listing(*each.arguments()) for each in texts[start:start + _PART]]
            listings = (_calls.Listing * len(part))(*part)
            status = _calls.LIBRARY.pressclip_shared_register_many(shared.at, listings, len(part), byref(which))
            _registered(status, texts, start + which.value)

    def delete(self, id: str) -> bool:
        """Takes a query out, and says whether there was one. `LimitError`, `Closed`, `NoMemory`."""
        shared, name = self._open(), encoded(id, "an id")
        return count_of(_calls.LIBRARY.pressclip_shared_delete, shared.at, name, len(name)) == 1

    def clear(self) -> None:
        """Takes all queries out. `LimitError` with `full`, `Closed`, `NoMemory`."""
        well(_calls.LIBRARY.pressclip_shared_clear(self._open().at))

    def purge(self) -> None:
        """Gives memory back that deleted and replaced queries hold; answers stay as they are. `Closed`, `NoMemory`."""
        well(_calls.LIBRARY.pressclip_shared_purge(self._open().at))

    def count(self) -> int:
        """How many queries are registered. `Closed`, `NoMemory`."""
        shared = self._open()
        return count_of(_calls.LIBRARY.pressclip_shared_count, shared.at)

    def __len__(self) -> int:
        """How many queries are registered, as `count` gives it."""
        return self.count()

    def get(self, id: str) -> str | None:
        """The query with this id, or None where there is none. `LimitError`, `Closed`, `NoMemory`.

        >>> monitor = Monitor()
        >>> monitor.register("tea", "+tea pric*")
        >>> monitor.get("tea"), monitor.get("milk"), "tea" in monitor
        ('+tea pric*', None, True)
        """
        shared, name = self._open(), encoded(id, "an id")
        query = answer_or_none(_calls.LIBRARY.pressclip_shared_show, shared.at, name, len(name))
        return None if query is None else query.decode()

    def __contains__(self, id: str) -> bool:
        """Whether a query has this id. `TypeError` where that is no `str`."""
        try:
            return self.get(id) is not None
        except LimitError:
            return False

    def ids(self) -> Iterator[str]:
        """The ids that are registered now, in the byte order of their UTF-8; later changes show in none of them.

        `Closed` and `NoMemory`, at once.

        >>> monitor = Monitor()
        >>> monitor.register_many([("b", "tea"), ("a", "milk")])
        >>> list(monitor.ids())
        ['a', 'b']
        """
        return self.snapshot().ids()

    def __iter__(self) -> Iterator[str]:
        """The ids that are registered now, as `ids` gives them."""
        return self.ids()

    def snapshot(self) -> Snapshot:
        """What is registered now, for matches that no later change shows in. In constant time. `Closed`, `NoMemory`."""
        shared = self._open()
        return Snapshot(shared.at)

    def match(self, article: Mapping[str, Any]) -> list[Found]:
        """The queries that hold of `{"id": .., "fields": {name: text, ..}}`, in the byte order of their ids.

        `LimitError`, `Closed`, `NoMemory`. Hits cost one call of `word_spans` for each field that has one.

        >>> monitor = Monitor()
        >>> monitor.register_many([("tea", "+tea pric*"), ("milk", "milk")])
        >>> monitor.match({"id": "a1", "fields": {"text": "Tea prices rise"}})
        [Found(query='tea', hits=())]
        """
        shared, given, result = self._open(), Given(article), c_void_p()
        try:
            well(_calls.LIBRARY.pressclip_shared_match(shared.at, *given.arguments(), byref(result)))
            return given.found(result)
        finally:
            _calls.LIBRARY.pressclip_result_free(result)

    def match_many(self, articles: Iterable[Mapping[str, Any]]) -> list[list[Found]]:
        """What `match` gives of each article, on what stood registered at one moment: of all of them or of none.

        The errors of `match`, whose `which` is the place of the first article that is refused, from 0. The cost is that
        of the matches; what is found of all is held at once.
        """
        shared = self._open()
        with GivenMany(articles) as given:
            well(_calls.LIBRARY.pressclip_shared_match_many(shared.at, *given.arguments()), given.which.value)
            return given.found()

    def line(self, line: bytes) -> bytes:
        """The reply to a line of the protocol without its line feed, and nothing to a blank one.

        `Refused` with `feed` where it has one, `LimitError` with `lines`, `Closed`, `NoMemory`; refusals by the
        protocol are replies.

        >>> Monitor().line(b'{"op":"count"}')
        b'{"count":0,"line":1}\\n'
        """
        shared = self._open()
        if not isinstance(line, bytes):
            raise TypeError(f"a line is bytes, and not {type(line).__name__}")
        return answer_of(_calls.LIBRARY.pressclip_shared_line, shared.at, line, len(line))
