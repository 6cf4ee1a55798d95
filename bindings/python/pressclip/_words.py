"""Where the words of a text stand, in characters as Python counts them."""

from __future__ import annotations

from bisect import bisect_right
from itertools import compress, count
from typing import NamedTuple

from . import _calls

_SPAN_BYTES = 16
# For each byte whether it is within a character, and not the first of it.
_IS_INNER = bytes(0x80 <= byte < 0xC0 for byte in range(256))


class Span(NamedTuple):
    """Where a word stands in a text: `text[start:end]` is the word."""

    start: int
    end: int


def characters_at(encoded: bytes, places: list[int]) -> list[int]:
    """The number of the character that each of these bytes of a text's UTF-8 is of; at the end, of all characters.

    One walk over the text.
    """
    if encoded.isascii():
        return places
    inner = list(compress(count(), encoded.translate(_IS_INNER)))
    return [place - bisect_right(inner, place) for place in places]


def places_in(encoded: bytes) -> list[int]:
    """Where each word of a text begins and ends, in characters; the text is in UTF-8."""
    answer = _calls.answer_of(_calls.LIBRARY.pressclip_words, encoded, len(encoded), size=_SPAN_BYTES)
    return characters_at(encoded, memoryview(answer).cast("Q").tolist())


def word_spans(text: str) -> list[Span]:
    """Where the words of a text stand as the engine cuts it; the n-th, from 0, is the one at position n of a `Hit`.

    They count the characters of the `str`, as slices do, and not the bytes of UTF-8 as the engine does. `NoMemory`;
    `TypeError` where it is no `str`, and `UnicodeEncodeError` where it has half of a surrogate pair. One call, and one
    walk over the text.

    >>> word_spans("Crème brûlée")
    [Span(start=0, end=5), Span(start=6, end=12)]
    """
    places = places_in(_calls.encoded(text, "a text"))
    return list(map(Span, places[::2], places[1::2]))
