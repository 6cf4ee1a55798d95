"""The words of a text as the engine cuts and folds them, with their places, sentences and paragraphs."""

from __future__ import annotations

import re
from collections.abc import Callable, Sequence
from dataclasses import dataclass
from functools import cached_property

import regex

from .library import LIBRARY
from .preparing import SEPARATOR

_CUT = regex.compile(r"(?w)\b", regex.V1)
_IS_WORD = regex.compile(r"[\p{Alphabetic}\p{N}]")
# Texts of Latin, Greek and Cyrillic, whose words an expression of the standard library cuts much faster.
_COMMON = re.compile("[\0-\x7f\xa0-\xa9\xab\xac\xae-\xb1\xb4-\xb6\xb8\xbb\xbf-\u02af\u0388-\u0481\u048a-\u052f\u1e00-\u1eff"
                     "\u2010-\u2017\u201a-\u201f\u2022\u2026\u2030\u20ac\u2122]*")
_COMMON_WORD = re.compile(r"(?=_*[^\W_])\w+(?:(?<=[^\W\d_])[:.'](?=[^\W\d_])\w+|(?<=\d)[,;.'](?=\d)\w+)*")
_PARAGRAPH = re.compile(r"\n[ \t\r]*\n|\n[ \t\u3000]+(?=\S)|(?<=[.!?…。！？:])[\"'”’»)]*[ \t]*\n")
_SENTENCE = re.compile(r"[.!?…]+[\"'”’»)\]]*\s+(?=[^\s])|[。！？]+[」』”）]*|\n[ \t\r]*\n")
_LETTERS_WITH_STOPS = re.compile(r"(?:\w\.)+\w")
_BLANK_LINE = re.compile(r"\n[ \t\r]*\n")
# Words whose full stop ends no sentence.
ABBREVIATIONS = frozenset("""mr mrs ms dr prof st jr sr inc ltd co corp vs etc no art fig dept approx gen col lt sgt rev hon
    z.b d.h u.a bzw ca nr bd hr fr str mio mrd tel vgl m mme mlle p.ex cf sig sra dott ing e.g i.e u.s u.k u.n a.m p.m
    jan feb mar apr jun jul aug sep sept oct nov dec""".split())


def _spans_by_expression(text: str) -> list[tuple[int, int]]:
    """Where the words stand, by the word boundaries of the annex as the `regex` package has them."""
    cuts = [found.start() for found in _CUT.finditer(text)]
    return [(start, end) for start, end in zip(cuts, cuts[1:]) if _IS_WORD.search(text, start, end)]


# What cuts texts of other scripts than the common ones: the library, and where it isn't built an expression.
_spans_of_others: Callable[[str], Sequence[tuple[int, int]]] = getattr(LIBRARY, "word_spans", _spans_by_expression)


def spans_of(text: str) -> Sequence[tuple[int, int]]:
    """Where the words of a text stand, in characters, as the engine cuts it."""
    if _COMMON.fullmatch(text):
        return [found.span() for found in _COMMON_WORD.finditer(text)]
    return _spans_of_others(text)


def folded_words(text: str) -> Sequence[str]:
    """The words of a text, each folded."""
    folded = text.casefold()
    if _COMMON.fullmatch(folded):
        return _COMMON_WORD.findall(folded)
    return [text[start:end].casefold() for start, end in spans_of(text)]


def sentence_ends(text: str) -> list[int]:
    """Where sentences end. One ends at a blank line, and with a full stop, a question mark or an exclamation mark before
    a blank, unless a small letter follows, or the stop is of an abbreviation or of a single letter."""
    return [found.end() for found in _SENTENCE.finditer(text) if _is_end(text, found)]


def _is_end(text: str, found: re.Match[str]) -> bool:
    if _BLANK_LINE.search(found[0]):
        return True
    if text[found.end():found.end() + 1].islower():
        return False
    if found[0][0] != "." or found[0].startswith(".."):
        return True
    before = text[max(0, found.start() - 12):found.start()].split()
    word = before[-1].lower().strip("(\"'“„«") if before else ""
    return not (word in ABBREVIATIONS or len(word) == 1 and word.isalpha() or _LETTERS_WITH_STOPS.fullmatch(word))


def with_ends_as_words(text: str) -> str:
    """The text with a word that no query has at the end of each sentence."""
    ends = sentence_ends(text)
    return f" {SEPARATOR} ".join(text[start:end] for start, end in zip([0, *ends], [*ends, len(text)]))


def places_of(words: Sequence[str]) -> dict[str, list[int]]:
    """The positions of each word."""
    found: dict[str, list[int]] = {}
    for position, word in enumerate(words):
        if word in found:
            found[word].append(position)
        else:
            found[word] = [position]
    return found


@dataclass(frozen=True)
class Words:
    """A text, where its words stand in characters, and each word folded."""

    text: str
    spans: Sequence[tuple[int, int]]
    folded: Sequence[str]

    @staticmethod
    def of(text: str) -> Words:
        """The words of a text. Cost: one walk over it."""
        spans = spans_of(text)
        if text.isascii():
            small = text.lower()
            return Words(text, spans, [small[start:end] for start, end in spans])
        return Words(text, spans, [text[start:end].casefold() for start, end in spans])

    @cached_property
    def places(self) -> dict[str, list[int]]:
        """The positions of each word."""
        return places_of(self.folded)

    def between(self, position: int) -> str:
        """What stands before the word at the position, behind the one before it; after the last one all that is left."""
        start = self.spans[position - 1][1] if position else 0
        end = self.spans[position][0] if position < len(self.spans) else len(self.text)
        return self.text[start:end]

    @cached_property
    def paragraphs(self) -> list[int]:
        """The number of each word's paragraph: one ends at a blank line, before an indented line, and at the end of a
        line that ends a sentence."""
        return self._numbers([found.end() for found in _PARAGRAPH.finditer(self.text)])

    @cached_property
    def sentences(self) -> list[int]:
        """The number of each word's sentence."""
        return self._numbers(sentence_ends(self.text))

    def _numbers(self, ends: list[int]) -> list[int]:
        """For each word, how many of these places stand before its end."""
        numbers: list[int] = []
        count = 0
        for start, _ in self.spans:
            while count < len(ends) and ends[count] <= start:
                count += 1
            numbers.append(count)
        return numbers
