"""The parts of a query: what the engine is asked for each, and whether it holds of an article.

The engine is asked for more than a part means where its syntax can't say the part. The part then decides, on the words
of the article's fields and their places.
"""

from __future__ import annotations

from collections.abc import Collection, Mapping, Sequence
from dataclasses import dataclass
from functools import cached_property
from itertools import combinations, groupby, product
from math import comb
from typing import Protocol

from .near import Gaps, Span, away, near_holds, near_spans, proved_near, slop_spans, words_are_near
from .preparing import SEPARATOR
from .profile_query import EVERY, Wide, between, every, front, phrase, some, word
from .terms import Row, Slot
from .tree import TEXT, WILD_MANY, WILD_ONE, Unit
from .words import Words, folded_words, places_of, with_ends_as_words

BACKWARDS = "backwards"
_MOST_COMBINATIONS = 64
_MOST_PAIRS = 4
_MOST_ASKED = 2


class Article(Protocol):
    """A prepared article."""

    @property
    def given(self) -> Mapping[str, str]:
        """The fields as they were given."""

    def written(self, field: str) -> str:
        """A field mended, with its capitals and accents."""

    def fields(self, names: Collection[str] | None = None) -> Mapping[str, str]:
        """The fields for the engine."""


class Pages:
    """The words of an article's fields, each cut once."""

    def __init__(self, article: Article) -> None:
        self.article = article
        self._words: dict[str, Words] = {}
        self._written: dict[str, Words] = {}
        self._with_ends: dict[str, str] = {}
        self._scales: dict[str, dict[str, list[int]]] = {}
        self._asked = 0

    def words(self, field: str) -> Words:
        """The folded words of a field."""
        if field not in self._words:
            self._words[field] = Words.of(self.article.fields((field,)).get(field, ""))
        return self._words[field]

    def written(self, field: str) -> Words:
        """The words of a field as they are written; as many as there are folded."""
        if field not in self._written:
            self._written[field] = Words.of(self.article.written(field))
        return self._written[field]

    def with_ends(self, field: str) -> str:
        """The text of a field with a word at the end of each sentence, as nearness counts it."""
        if field not in self._with_ends:
            self._with_ends[field] = with_ends_as_words(self.article.fields((field,)).get(field, ""))
        return self._with_ends[field]

    def on_scale(self, field: str, one_of: Sequence[str]) -> Sequence[int]:
        """Where one of these words stands, in ascending order, where the end of a sentence takes a place too."""
        scale = self._scales.get(field)
        if scale is None:
            scale = self._scales[field] = places_of(folded_words(self.with_ends(field)))
        if len(one_of) == 1:
            return scale.get(one_of[0], ())
        return sorted(place for word in one_of for place in scale.get(word, ()))

    def asks_library(self) -> bool:
        """Whether the library is asked once more: it reads the whole text each time, so that for many queries the words
        are cut once instead."""
        self._asked += 1
        return self._asked <= _MOST_ASKED

    def engine_words(self, field: str) -> Sequence[str]:
        """The words of a field that is made for the engine alone."""
        return self.article.fields((field,)).get(field, "").split()


class Part(Protocol):
    """A part of a query."""

    @property
    def wide(self) -> Wide:
        """What the engine is asked."""

    def holds(self, pages: Pages) -> bool:
        """Whether it holds of an article."""


class Placed(Part, Protocol):
    """A part that stands at places of one field."""

    @property
    def field(self) -> str:
        """The field."""

    def spans(self, pages: Pages) -> list[Span]:
        """From where to where it stands, in ascending order."""


@dataclass(frozen=True)
class Everything:
    """Each article."""

    wide = Wide(None, is_exact=True)

    def holds(self, pages: Pages) -> bool:
        return True


@dataclass(frozen=True)
class InRow:
    """Words in a row in a field; `codes` are marks of which the engine's field of marks has to have each."""

    row: Row
    field: str
    codes: tuple[tuple[str, str], ...] = ()

    @cached_property
    def wide(self) -> Wide:
        marks = [word(field, code) for field, code in self.codes]
        slots = [*(_asked(self.row.slots, self.field)), *marks]
        is_exact = self.row.is_plain and not self.codes
        return Wide(every(slots), is_exact)

    def spans(self, pages: Pages) -> list[Span]:
        if any(code not in pages.engine_words(field) for field, code in self.codes):
            return []
        return self.row.spans(pages.words(self.field), lambda: pages.written(self.field))

    def holds(self, pages: Pages) -> bool:
        return bool(self.spans(pages))


def _asked(slots: Sequence[Slot], field: str) -> list[str]:
    """What the engine is asked for words in a row: rows of those without wildcards, and beginnings or ends of others."""
    parts: list[str] = []
    for is_wild_run, run in groupby(slots, lambda slot: slot.is_wild):
        if is_wild_run:
            parts += [asked for slot in run if (asked := _asked_of_wild(slot.word, field))]
        else:
            parts.append(phrase(field, [slot.word for slot in run]))
    return parts


def _asked_of_wild(wild: str, field: str) -> str | None:
    """What the engine is asked for a word with wildcards: its beginning, or its end, or nothing."""
    known = wild.replace(WILD_ONE, WILD_MANY).split(WILD_MANY)
    if known[0]:
        return front(field, known[0])
    return front(backwards_of(field), known[-1][::-1]) if known[-1] else None


def backwards_of(field: str) -> str:
    """The field that has the words of a field backwards."""
    return BACKWARDS if field == TEXT else f"{field}_{BACKWARDS}"


@dataclass(frozen=True)
class Coded:
    """A field that is made for the engine has one of these words."""

    field: str
    words: tuple[str, ...]

    @cached_property
    def wide(self) -> Wide:
        return Wide(some([word(self.field, one) for one in self.words]), is_exact=True)

    def holds(self, pages: Pages) -> bool:
        held = pages.engine_words(self.field)
        return any(one in held for one in self.words)


@dataclass(frozen=True)
class Beginning:
    """A word of a field that is made for the engine begins so."""

    field: str
    front: str

    @cached_property
    def wide(self) -> Wide:
        return Wide(front(self.field, self.front), is_exact=True)

    def holds(self, pages: Pages) -> bool:
        return any(one.startswith(self.front) for one in pages.engine_words(self.field))


@dataclass(frozen=True)
class Between:
    """A word of a field lies between two, by the bytes of UTF-8; `None` is an open end."""

    field: str
    low: str | None
    high: str | None
    with_low: bool
    with_high: bool
    is_made: bool

    @cached_property
    def wide(self) -> Wide:
        asked = between(self.field, self.low, self.high, self.with_low, self.with_high)
        return Wide(asked, is_exact=self.is_made or not self._has(SEPARATOR))

    def holds(self, pages: Pages) -> bool:
        held = pages.engine_words(self.field) if self.is_made else pages.words(self.field).folded
        return any(self._has(one) and one != SEPARATOR for one in held)

    def _has(self, one: str) -> bool:
        if self.low is not None and not (self.low < one or self.with_low and self.low == one):
            return False
        return self.high is None or one < self.high or self.with_high and self.high == one


@dataclass(frozen=True)
class NotHeld:
    """A part that must not hold."""

    part: Part

    @cached_property
    def wide(self) -> Wide:
        inner = self.part.wide
        if not inner.is_exact:
            return Wide(None, is_exact=False)
        return Wide(f"({EVERY} -{inner.query or EVERY})", is_exact=True)

    def holds(self, pages: Pages) -> bool:
        return not self.part.holds(pages)


@dataclass(frozen=True)
class Each:
    """Parts that all hold."""

    parts: tuple[Part, ...]

    @cached_property
    def wide(self) -> Wide:
        held: list[str] = []
        without: list[str] = []
        for part in self.parts:
            if isinstance(part, NotHeld) and part.part.wide.is_exact:
                without.append(part.part.wide.query or EVERY)
            elif part.wide.query:
                held.append(part.wide.query)
        return Wide(every(held, without), all(part.wide.is_exact for part in self.parts))

    def holds(self, pages: Pages) -> bool:
        return all(part.holds(pages) for part in self.parts)


@dataclass(frozen=True)
class AnyOf:
    """Parts of which so many hold; one, for words with OR between."""

    parts: tuple[Part, ...]
    count: int = 1

    @cached_property
    def wide(self) -> Wide:
        asked = [part.wide.query for part in self.parts]
        is_exact = all(part.wide.is_exact for part in self.parts)
        if any(one is None for one in asked):
            held = [one for one in asked if one is not None]
            return Wide(None, is_exact and self.count <= len(asked) - len(held))
        known = [one for one in asked if one is not None]
        if self.count > 1 and comb(len(known), self.count) <= _MOST_COMBINATIONS:
            return Wide(some([every(held) or EVERY for held in combinations(known, self.count)]), is_exact)
        return Wide(some(known), is_exact and self.count == 1)

    def holds(self, pages: Pages) -> bool:
        left = self.count
        for part in self.parts:
            left -= part.holds(pages)
            if not left:
                return True
        return False


@dataclass(frozen=True)
class AnyPlaced:
    """Parts of one field that stand at places, of which one holds."""

    parts: tuple[Placed, ...]

    @property
    def field(self) -> str:
        """The field."""
        return self.parts[0].field

    @cached_property
    def wide(self) -> Wide:
        return AnyOf(self.parts).wide

    def spans(self, pages: Pages) -> list[Span]:
        return sorted({span for part in self.parts for span in part.spans(pages)})

    def holds(self, pages: Pages) -> bool:
        return any(part.holds(pages) for part in self.parts)


@dataclass(frozen=True)
class Times:
    """A part stands at so many places."""

    part: Placed
    count: int

    @cached_property
    def wide(self) -> Wide:
        inner = self.part.wide
        return Wide(inner.query, inner.is_exact and self.count == 1)

    def holds(self, pages: Pages) -> bool:
        return len(self.part.spans(pages)) >= self.count


def _plain_queries(part: Part) -> list[str]:
    """The part as queries of the engine on its field of text, of which one has to hold: each a word or the beginning of
    one. None where one can't be said so. Words in a row may run over the end of a sentence, which is a word there."""
    if isinstance(part, AnyPlaced):
        queries = [_plain_queries(one) for one in part.parts]
        return [query for held in queries for query in held] if all(queries) else []
    if not isinstance(part, InRow) or part.codes or not part.row.is_plain or len(part.row.slots) > 1:
        return []
    only = part.row.slots[0]
    return [front(TEXT, only.word[:-1]) if only.is_wild else word(TEXT, only.word)]


def _single_words(part: Part) -> list[str]:
    """The words of which one has to stand there, where all are single ones without signs; else none."""
    if isinstance(part, AnyPlaced):
        held = [_single_words(one) for one in part.parts]
        return [word for words in held for word in words] if all(held) else []
    return [part.row.word] if isinstance(part, InRow) and part.row.word is not None and not part.codes else []


def _both(left: Part, right: Part, unless: bool) -> Wide:
    """What the engine is asked for two parts that stand near each other."""
    asked = [part.wide.query for part in ((left,) if unless else (left, right)) if part.wide.query]
    return Wide(every(asked), is_exact=False)


@dataclass(frozen=True)
class NearEach:
    """Two parts that stand near each other; with `unless` the left one at a place that the right one is not near."""

    left: Placed
    right: Placed
    within: int
    ordered: bool
    unless: bool

    @property
    def field(self) -> str:
        """The field."""
        return self.left.field

    @cached_property
    def wide(self) -> Wide:
        return _both(self.left, self.right, self.unless)

    def spans(self, pages: Pages) -> list[Span]:
        left, right = self.left.spans(pages), self.right.spans(pages)
        gaps = Gaps(pages.words(self.field).sentences)
        return (away if self.unless else near_spans)(left, right, self.within, self.ordered, gaps)

    @cached_property
    def _pairs(self) -> Sequence[tuple[str, str]]:
        """The pairs of queries that are to be near, where the library can judge them; else none."""
        pairs = list(product(_plain_queries(self.left), _plain_queries(self.right)))
        return [] if self.unless or len(pairs) > _MOST_PAIRS else pairs

    @cached_property
    def _words(self) -> tuple[Sequence[str], Sequence[str]] | None:
        """The words on both sides, where all are single ones, or None."""
        left, right = _single_words(self.left), _single_words(self.right)
        return None if self.unless or not left or not right else (left, right)

    def holds(self, pages: Pages) -> bool:
        if proved_near and self._pairs and pages.asks_library():
            fields = {TEXT: pages.with_ends(self.field)}
            return any(proved_near(left, right, self.within - 1, self.ordered, fields) for left, right in self._pairs)
        if self._words:
            one, other = (pages.on_scale(self.field, words) for words in self._words)
            return words_are_near(one, other, self.within, self.ordered)
        left, right = self.left.spans(pages), self.right.spans(pages)
        if not left:
            return False
        gaps = Gaps(pages.words(self.field).sentences)
        if self.unless:
            return len(away(left, right, self.within, self.ordered, gaps)) > 0
        return near_holds(left, right, self.within, self.ordered, gaps)


@dataclass(frozen=True)
class SameUnit:
    """Two parts that stand in one sentence or paragraph; with `unless` the left one in one that the right is not in."""

    left: Placed
    right: Placed
    unit: Unit
    ordered: bool
    unless: bool

    @property
    def field(self) -> str:
        """The field."""
        return self.left.field

    @cached_property
    def wide(self) -> Wide:
        return _both(self.left, self.right, self.unless)

    def spans(self, pages: Pages) -> list[Span]:
        """Those of the left part that the right one shares the unit with."""
        words = pages.words(self.field)
        numbers = words.sentences if self.unit is Unit.SENTENCE else words.paragraphs
        last = {numbers[start]: start for start, end in self.right.spans(pages) if numbers[start] == numbers[end]}
        return [(start, end) for start, end in self.left.spans(pages)
                if self._is_beside(last.get(numbers[start]), end, numbers[start] == numbers[end]) != self.unless]

    def _is_beside(self, last: int | None, end: int, is_one_unit: bool) -> bool:
        """Whether the last place of the right part in a unit counts for a place of the left part that ends there."""
        return is_one_unit and last is not None and (last > end or not self.ordered)

    def holds(self, pages: Pages) -> bool:
        return bool(self.spans(pages))


@dataclass(frozen=True)
class Moved:
    """Words that stand near each other as Lucene counts it."""

    row: Row
    field: str
    slop: int

    @cached_property
    def wide(self) -> Wide:
        asked = [part for slot in self.row.slots for part in _asked((slot,), self.field)]
        return Wide(every(asked), is_exact=False)

    def spans(self, pages: Pages) -> list[Span]:
        words = pages.words(self.field)
        places = [slot.positions(words) for slot in self.row.slots]
        return slop_spans(places, self.slop)

    def holds(self, pages: Pages) -> bool:
        return bool(self.spans(pages))


class Filter:
    """Decides on an article that the engine gave for the wider query."""

    def __init__(self, part: Part) -> None:
        # What the engine has decided already is not judged again.
        if isinstance(part, Each):
            self._parts = tuple(one for one in part.parts if not one.wide.is_exact)
        else:
            self._parts = (part,)

    def holds(self, article: Article) -> bool:
        """Whether the query holds of the article, where the wider one does."""
        return self.holds_of(Pages(article))

    def holds_of(self, pages: Pages) -> bool:
        """Whether the query holds of an article whose words are cut already, where the wider one does."""
        return all(part.holds(pages) for part in self._parts)
