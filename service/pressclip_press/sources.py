"""A query of the dialect within the query that the engine has of it, so that nobody else has to keep it.

The engine's query is what has to hold, and beside it a word that is optional and changes nothing: it spells the query.
"""

from __future__ import annotations

import re
from dataclasses import dataclass

_FIELD = "press"
_FRONT = f" {_FIELD}:"
_ESCAPE = "z"
_AS_IT_IS = frozenset(b"ABCDEFGHIJKLMNOPQRSTUVWXYZabcdefghijklmnopqrstuvwxy0123456789")
_SPELLED = tuple(chr(byte) if byte in _AS_IT_IS else f"{_ESCAPE}{byte:02x}" for byte in range(256))
_WORD = re.compile(r"[ln](?:[A-Ya-y0-9]|Z|z[0-9a-f]{2})*")
_WITH_LISTENER, _WITHOUT_LISTENER = "l", "n"


@dataclass(frozen=True)
class Source:
    """A query as a desk wrote it, and whether a listener hears its alerts."""

    query: str
    has_listener: bool


def with_source(query: str, source: Source) -> str:
    """The engine's query, with the desk's in it."""
    spelled = "".join(map(_SPELLED.__getitem__, source.query.encode()))
    return f"+{query}{_FRONT}{_WITH_LISTENER if source.has_listener else _WITHOUT_LISTENER}{spelled}"


def source_in(query: str) -> Source | None:
    """The desk's query in one of the engine's, or None where it has none."""
    _, front, word = query.rpartition(_FRONT)
    if not front or not query.startswith("+") or not _WORD.fullmatch(word):
        return None
    spelled = re.sub(rb"z([0-9a-f]{2})", lambda found: bytes((int(found[1], 16),)), word[1:].encode())
    try:
        return Source(spelled.decode(), word[0] == _WITH_LISTENER)
    except UnicodeDecodeError:
        return None


def as_written(query: str) -> str:
    """The desk's query in one of the engine's, or the query where it has none."""
    source = source_in(query)
    return source.query if source else query
