"""The words of a term, what stands between them, and where they stand in a text."""

from __future__ import annotations

import re
from collections.abc import Callable
from dataclasses import dataclass
from functools import cached_property
from typing import Protocol

import regex

from .near import Span
from .preparing import SEPARATOR
from .tree import WILD_MANY, WILD_ONE
from .words import Words, spans_of

_MARKS = regex.compile(r"[#@&+$%€£¥§\p{Emoji_Presentation}\p{Extended_Pictographic}--[©®™]]", regex.V1)
_LEADING_STOP = re.compile(r"(?:^|\s)\.$")


class Texts(Protocol):
    """What mends and folds texts."""

    def mend(self, text: str) -> str:
        """The text with the ends of its words where they are looked for."""

    def fold(self, text: str) -> str:
        """The text without what does not count in words."""


@dataclass(frozen=True)
class Joint:
    """The marks that stand before a word, or behind the last one."""

    marks: str
    is_tight: bool

    def holds(self, between: str, is_first: bool, is_last: bool) -> bool:
        """Whether they stand in what stands between two words, or before the first word or behind the last one of the
        term."""
        if not self.is_tight:
            return self.marks in _marks_in(between)
        if is_first:
            return between.endswith(self.marks) and not between.endswith(self.marks[0] * (len(self.marks) + 1))
        if is_last:
            found = between.lstrip(" \u00a0\u202f") if self.marks in "%€£" else between
            return found.startswith(self.marks) and not found.startswith(self.marks + self.marks[-1])
        return between == self.marks


@dataclass(frozen=True)
class Slot:
    """One word of a term, folded, with letters for wildcards; and as it is written."""

    word: str
    written: str

    @cached_property
    def is_wild(self) -> bool:
        """Whether it has wildcards."""
        return is_wild(self.word)

    @property
    def is_any(self) -> bool:
        """Whether it is any one word."""
        return self.word == WILD_MANY

    @cached_property
    def _expression(self) -> re.Pattern[str]:
        return _expression(self.word)

    @cached_property
    def _written_expression(self) -> re.Pattern[str]:
        return _expression(self.written)

    def positions(self, words: Words) -> list[int]:
        """Where it stands, in ascending order."""
        places = words.places
        if not self.is_wild:
            return places.get(self.word, [])
        return sorted(place for word in places if self.holds(word) for place in places[word])

    def holds(self, word: str) -> bool:
        """Whether it stands for a folded word."""
        if not self.is_wild:
            return word == self.word
        return word != SEPARATOR and bool(self._expression.fullmatch(word))

    def is_written(self, word: str) -> bool:
        """Whether it stands for a word as that is written."""
        return bool(self._written_expression.fullmatch(word))


def is_wild(word: str) -> bool:
    """Whether a word has wildcards."""
    return WILD_MANY in word or WILD_ONE in word


def _expression(word: str) -> re.Pattern[str]:
    """The words that one with letters for wildcards stands for."""
    signs = {WILD_MANY: ".*", WILD_ONE: "."}
    return re.compile("".join(signs.get(char) or re.escape(char) for char in word), re.DOTALL)


def _marks_in(text: str) -> str:
    return "".join(_MARKS.findall(text))


@dataclass(frozen=True)
class Row:
    """Words in a row, with marks before each and behind the last; a joint is `None` where no marks count."""

    slots: tuple[Slot, ...]
    joints: tuple[Joint | None, ...]
    exact: bool

    @property
    def is_plain(self) -> bool:
        """Whether words in a row say all of it: no marks, no capitals, and a wildcard at the end of a word alone."""
        if self.exact or any(self.joints):
            return False
        if len(self.slots) > 1:
            return not any(slot.is_wild for slot in self.slots)
        word = self.slots[0].word
        if not is_wild(word):
            return True
        return word[-1] == WILD_MANY and not is_wild(word[:-1]) and not SEPARATOR.startswith(word[:-1])

    @cached_property
    def word(self) -> str | None:
        """The one word that it is, without marks, capitals and wildcards, or None."""
        is_one = len(self.slots) == 1 and self.is_plain and not self.slots[0].is_wild
        return self.slots[0].word if is_one else None

    def spans(self, words: Words, written: Callable[[], Words]) -> list[Span]:
        """From where to where it stands, in ascending order."""
        if self.word is not None:
            return [(place, place) for place in words.places.get(self.word, ())]
        count = len(self.slots)
        anchor = min(range(count), key=lambda number: (self.slots[number].is_any, self.slots[number].is_wild))
        found: list[Span] = []
        for position in self.slots[anchor].positions(words):
            start = position - anchor
            if start >= 0 and start + count <= len(words.folded) and self._stands_at(start, words):
                if not self.exact or self._is_written_at(start, written()):
                    found.append((start, start + count - 1))
        return found

    def _stands_at(self, start: int, words: Words) -> bool:
        for number, slot in enumerate(self.slots):
            if not slot.holds(words.folded[start + number]):
                return False
        for number, joint in enumerate(self.joints):
            if joint and not joint.holds(words.between(start + number), number == 0, number == len(self.slots)):
                return False
        return True

    def _is_written_at(self, start: int, written: Words) -> bool:
        for number, slot in enumerate(self.slots):
            first, last = written.spans[start + number]
            if not slot.is_written(written.text[first:last]):
                return False
        return True


def row_of(mended: str, exact: bool, texts: Texts) -> Row | None:
    """The row of a term that is mended, or None where it has no words."""
    words = Words(mended, spans_of(mended), ())
    written = [mended[start:end] for start, end in words.spans]
    if not written:
        return None
    count = len(written)
    joints = tuple(_joint(words.between(number), number == 0, number == count) for number in range(count + 1))
    return Row(tuple(Slot(texts.fold(word).casefold(), word) for word in written), joints, exact)


def _joint(between: str, is_first: bool, is_last: bool) -> Joint | None:
    """The marks in what stands between two words of a term, or before or behind it."""
    marks = _marks_in(between)
    if is_first and not marks and _LEADING_STOP.search(between):
        return Joint(".", is_tight=True)
    if not marks:
        return None
    tight = between == marks or is_first and between.endswith(marks) or is_last and between.startswith(marks)
    return Joint(marks, tight)
