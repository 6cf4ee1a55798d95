"""The least parts of queries: what one field is asked for, by its type."""

from __future__ import annotations

from dataclasses import dataclass
from typing import Any, Callable, Sequence

from .dates import milliseconds
from .mapping import PRESENT, Field, Kind
from .part import Part
from .trouble import Trouble, bad_query, malformed, not_served
from .tree import End, Front, Never, Node, Phrase, Span, Word, either
from .values import (Unfit, decimal_of, floating, floating_word, integer_word, keyword_word, least_whole, most_whole,
                     truth_word, within)
from .words import BETWEEN, Cut, Cutter, lowered


MOST_TEXTS = 4_096
MOST_CHARACTERS = 65_536


@dataclass(frozen=True)
class Bound:
    """An end of a range as a query gives it."""

    part: Part
    is_included: bool


def word_of_value(field: Field, value: Any) -> str | None:
    """The engine's word for a value of a field that is no text, where there can be one; `Unfit` where the value is
    none of the field's type."""
    if field.kind is Kind.WHOLE:
        return keyword_word(text_of_value(value))
    if field.kind is Kind.TRUTH:
        return truth_word(value)
    if field.kind is Kind.DATE:
        return integer_word(milliseconds(value, field.format))
    number = decimal_of(value)
    if field.kind is Kind.FLOATING:
        return floating_word(floating(number, field.type))
    return integer_word(within(int(number), field.type)) if number == int(number) else None


def text_of_value(value: Any) -> str:
    """A text, a number, true or false as a text."""
    if isinstance(value, bool):
        return "true" if value else "false"
    return str(value)


class Leaves:
    """Makes the least parts. Texts are cut as the engine cuts them."""

    def __init__(self, cutter: Cutter) -> None:
        self._cutter = cutter
        self._texts = 0

    async def words(self, text: Part) -> list[str]:
        """The words of a text that is asked for; `Trouble` where the query has too many texts, or this one too much."""
        return [named(cut, text) for cut in await self._cuts(text, text_of_value(text.scalar()))]

    async def _cuts(self, part: Part, text: str) -> Sequence[Cut]:
        self._texts += 1
        if self._texts > MOST_TEXTS or len(text) > MOST_CHARACTERS:
            raise not_served("query", part.place, f"a query has {MOST_TEXTS:,} texts at most, and each of them"
                                                  f" {MOST_CHARACTERS:,} characters")
        return await self._cutter.cut(part.written(text))

    async def term(self, field: Field, value: Part, any_case: bool = False) -> Node:
        """The field has the value as it stands, uncut; of a text, the word."""
        if field.kind is not Kind.TEXT:
            if any_case:
                raise not_served("case_insensitive", value.place, "whole values are compared with their case")
            return whole(field, value)
        text = value.written(text_of_value(value.scalar()))
        text = ascii_lowered(text) if any_case else text
        if lowered(text) != text:
            return Never()
        cuts = await self._cuts(value, text)
        if len(cuts) != 1 or (cuts[0].start, cuts[0].end) != (0, len(text.encode())):
            return Never()
        return Word(field.engine, named(cuts[0], value))

    async def phrase(self, field: Field, text: Part) -> Node | None:
        """The words of the text stand next to each other; None where it has no words."""
        if field.kind is not Kind.TEXT:
            return whole(field, text)
        words = await self.words(text)
        if not words:
            return None
        return Word(field.engine, words[0]) if len(words) == 1 else Phrase(field.engine, tuple(words))

    def front(self, field: Field, value: Part, any_case: bool = False) -> Node:
        """A word, or the whole value of a field that is no text, begins with the value as it stands."""
        text = value.written(text_of_value(value.scalar()))
        if field.kind is Kind.WHOLE:
            if any_case:
                raise not_served("case_insensitive", value.place, "whole values are compared with their case")
            return Front(field.engine, keyword_word(text))
        if field.kind is not Kind.TEXT:
            raise bad_query(f"Can only use prefix queries on keyword and text fields - not on [{field.path}] which is"
                            f" of type [{field.type}]")
        text = ascii_lowered(text) if any_case else text
        if not text:
            return spans_of_text(field, None, None)
        if lowered(text) != text or any(character.isspace() for character in text):
            return Never()
        if text == BETWEEN:
            raise kept(value)
        return Front(field.engine, text)

    def span(self, field: Field, low: Bound | None, high: Bound | None) -> Node:
        """A word or a value lies between two ends."""
        try:
            if field.kind is Kind.TEXT:
                return spans_of_text(field, text_end(low), text_end(high))
            return _SPANS[field.kind](field, low, high)
        except Unfit as error:
            ends = " and ".join(bound.part.place for bound in (low, high) if bound)
            raise bad_query(f"failed to create query: {error} for field [{field.path}] at [{ends}]") from None

    @staticmethod
    def present(paths: Sequence[str]) -> Node:
        """One of the fields has a value."""
        return either([Word(PRESENT, keyword_word(path)) for path in paths])


def whole(field: Field, value: Part) -> Node:
    """The field, which is no text, has the value; of a date, one of those that it names."""
    given = value.scalar()
    if isinstance(given, str):
        value.text()
    try:
        if field.kind is Kind.DATE:
            return span_of_dates(field, Bound(value, True), Bound(value, True))
        word = word_of_value(field, given)
    except Unfit as error:
        raise bad_query(f"failed to create query: {error} for field [{field.path}] of type [{field.type}] at"
                        f" [{value.place}]") from None
    return Never() if word is None else Word(field.engine, word)


def named(cut: Cut, part: Part) -> str:
    """The word that a query names, which may not be the one between values."""
    if cut.word == BETWEEN:
        raise kept(part)
    return cut.word


def kept(part: Part) -> Trouble:
    """That a query names the word between values."""
    return not_served(BETWEEN, part.place, "this word stands between the values of a field that has several")


def ascii_lowered(text: str) -> str:
    """The text with the letters of ASCII in lower case."""
    return "".join(character.lower() if character.isascii() else character for character in text)


def text_end(bound: Bound | None) -> End | None:
    """An end of a range over words, which are in lower case and folded."""
    if bound is None:
        return None
    text = bound.part.written(text_of_value(bound.part.scalar()))
    if lowered(text) != text or text.casefold() != text:
        raise malformed(bound.part.place, f"[{text}] is no end of a range over words, which are in lower case and"
                                          " folded")
    return End(text, bound.is_included)


def spans_of_text(field: Field, low: End | None, high: End | None) -> Node:
    """A word lies between two ends; the word between values does not count."""
    if high is not None and not high.text:
        return Never()
    low = None if low is not None and not low.text else low
    if is_within(BETWEEN, low, high):
        between = End(BETWEEN, False)
        return either([Span(field.engine, low, between), Span(field.engine, between, high)])
    return Span(field.engine, low, high)


def is_within(word: str, low: End | None, high: End | None) -> bool:
    """Whether a word lies between two ends, by the bytes of UTF-8."""
    return ((low is None or low.text < word or low.is_included and low.text == word)
            and (high is None or word < high.text or high.is_included and high.text == word))


def span_of_whole(field: Field, low: Bound | None, high: Bound | None) -> Node:
    """A range over texts that are compared whole."""
    ends = (None if bound is None else
            End(keyword_word(bound.part.written(text_of_value(bound.part.scalar()))), bound.is_included)
            for bound in (low, high))
    return Span(field.engine, *ends)


def span_of_integers(field: Field, low: Bound | None, high: Bound | None) -> Node:
    """A range over whole numbers."""
    return numbers_between(field, None if low is None else least_whole(decimal_of(low.part.value), low.is_included),
                           None if high is None else most_whole(decimal_of(high.part.value), high.is_included))


def span_of_dates(field: Field, low: Bound | None, high: Bound | None) -> Node:
    """A range over dates. A date that leaves parts out names all of them: a range from behind it begins after the last,
    and one up to it ends with the last."""
    least = None if low is None else milliseconds(low.part.value, field.format, not low.is_included)
    most = None if high is None else milliseconds(high.part.value, field.format, high.is_included)
    return numbers_between(field, least if least is None or low is None or low.is_included else least + 1,
                           most if most is None or high is None or high.is_included else most - 1)


def numbers_between(field: Field, least: int | None, most: int | None) -> Node:
    """A range over whole numbers, both ends in it."""
    return Span(field.engine, *(None if number is None else End(integer_word(within(number, "long")), True)
                                for number in (least, most)))


def span_of_floating(field: Field, low: Bound | None, high: Bound | None) -> Node:
    """A range over numbers that are not whole."""
    ends = (None if bound is None else
            End(floating_word(floating(decimal_of(bound.part.value), field.type)), bound.is_included)
            for bound in (low, high))
    return Span(field.engine, *ends)


def span_of_truths(field: Field, low: Bound | None, high: Bound | None) -> Node:
    """None, since true and false have no order here."""
    raise Unfit("a range over true and false is not served")


_SPANS: dict[Kind, Callable[[Field, Bound | None, Bound | None], Node]] = {
    Kind.WHOLE: span_of_whole, Kind.INTEGER: span_of_integers, Kind.DATE: span_of_dates,
    Kind.FLOATING: span_of_floating, Kind.TRUTH: span_of_truths}
