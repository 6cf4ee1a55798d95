"""Articles as they are handed in, and what is found of them."""

from __future__ import annotations

from ctypes import Array, byref, c_size_t, c_void_p
from itertools import count, repeat
from types import TracebackType
from typing import Any, Callable, Iterable, Mapping, NamedTuple

from . import _calls, _interpreter
from ._calls import all_of, encoded, fields_of, texts_at
from ._words import places_in


class Hit(NamedTuple):
    """A word of an article that a query names: of the field's text it is `text[start:end]`, in characters."""

    field: str
    position: int
    start: int
    end: int


class Found(NamedTuple):
    """A query that holds of an article, and where, in a monitor that shows hits."""

    query: str
    hits: tuple[Hit, ...]


# Makes a hit of its parts, as `Hit._make` does, with no call of a function in Python.
_MAKE: Callable[[type[Hit], tuple[str, int, int, int]], Hit] = tuple.__new__


class Given:
    """An article `{"id": .., "fields": {name: text, ..}}`, as C sees it.

    `TypeError` where a part of it is of another type, and `KeyError` where it has no id or no fields.
    """

    def __init__(self, article: Mapping[str, Any]) -> None:
        if not isinstance(article, Mapping) or not isinstance(fields := article["fields"], Mapping):
            raise TypeError("an article and its fields are dictionaries: {\"id\": .., \"fields\": {name: text, ..}}")
        self.id = encoded(article["id"], "an article's id")
        self.texts = [(encoded(name, "a field's name"), encoded(text, "a field's text"))
                      for name, text in fields.items()]
        self.fields: Array[_calls.Field] = fields_of(self.texts)

    def arguments(self) -> tuple[bytes, int, Array[_calls.Field], int]:
        """What a call is handed of it."""
        return self.id, len(self.id), self.fields, len(self.texts)

    def found(self, result: c_void_p) -> list[Found]:
        """All that a result has of it."""
        return found_in(result, dict(self.texts))


class GivenMany:
    """Articles, as C sees them, and room for their results, which go back to the library at the end of a `with`."""

    def __init__(self, articles: Iterable[Mapping[str, Any]]) -> None:
        self._given = [Given(article) for article in articles]
        handed = [_calls.Article(*each.arguments()) for each in self._given]
        self._articles = (_calls.Article * max(1, len(handed)))(*handed)
        self._results = (c_void_p * max(1, len(handed)))()
        self.which = c_size_t()

    def __enter__(self) -> GivenMany:
        return self

    def __exit__(self, kind: type[BaseException] | None, error: BaseException | None,
                 trace: TracebackType | None) -> None:
        for result in self._results:
            _calls.LIBRARY.pressclip_result_free(result)

    def arguments(self) -> tuple[Any, ...]:
        """What a call is handed of them."""
        return self._articles, len(self._given), self._results, byref(self.which)

    def found(self) -> list[list[Found]]:
        """All that the results have of them."""
        return [each.found(c_void_p(result)) for each, result in zip(self._given, self._results)]


def _words_of(field: str, text: bytes) -> list[Hit]:
    """The hits that the words of a field would be, whose text in UTF-8 this is."""
    places = places_in(text)
    return list(map(_MAKE, repeat(Hit), zip(repeat(field), count(), places[::2], places[1::2])))


def ids_in(result: c_void_p) -> list[str]:
    """The ids that a result has."""
    if _calls.LIBRARY.pressclip_result_count(result) == 0:
        return []
    all = all_of(result)
    return texts_at(all.ids, all.id_at, all.count)


def found_in(result: c_void_p, texts: Mapping[bytes, bytes]) -> list[Found]:
    """All that a result has of an article with these fields, by names and texts in UTF-8."""
    if _calls.LIBRARY.pressclip_result_count(result) == 0:
        return []
    all = all_of(result)
    fields = [_words_of(name, texts[name.encode()]) for name in texts_at(all.names, all.name_at, all.name_count)]
    found: list[Found] = _calls.LIBRARY.pressclip_python_found(_interpreter.INTERPRETER, all, Found, fields)
    return found
