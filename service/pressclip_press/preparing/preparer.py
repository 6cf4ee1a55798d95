"""Prepares articles and the words of queries alike, by the steps of a profile."""

from __future__ import annotations

from collections.abc import Collection, Iterable, Mapping
from typing import TYPE_CHECKING

from ..kinds import Kind
from .folding import FOLDING
from .marks import mark_word, mark_words
from .mending import MENDING
from .spellings import spellings
from .steps import Change, Steps
from .values import date_word, host_word, host_words, number_word, url_words

if TYPE_CHECKING:
    from ..profile import Profile

TITLE = "title"
TEXT = "text"
BODY = "body"
MARKS = "marks"
TITLE_MARKS = "title_marks"
HAS = "has"
HOST = "host"
MADE = (BODY, MARKS, TITLE_MARKS, HAS, HOST)
_MADE_ALONE = (MARKS, TITLE_MARKS, HAS)
# A word that stands between title and text, so that no phrase runs from one into the other.
SEPARATOR = "zzendoftitlezz"
_BETWEEN = f"\n\n{SEPARATOR}\n\n"


class Preparer:
    """The steps of a profile, for the texts of articles and of queries."""

    def __init__(self, profile: Profile) -> None:
        self.profile = profile
        self._mending = Steps(MENDING, profile.steps)
        self._folding = Steps(FOLDING, profile.steps)

    def mend(self, text: str) -> str:
        """The text with its words parted and joined as the profile says; capitals, accents and marks stay."""
        return self._mending(text)

    def fold(self, text: str) -> str:
        """The text with letters that count as the same written as one; its words stand where they stood."""
        return self._folding(text)

    def plain(self, text: str) -> str:
        """The text mended and folded."""
        return self._folding(self._mending(text))

    def prepared(self, fields: Mapping[str, str]) -> Prepared:
        """An article's fields; each is prepared when it is asked for."""
        return Prepared(self, fields)

    @staticmethod
    def made_too(fields: Mapping[str, str]) -> list[str]:
        """The fields of an article whose names are those of fields that are made, so that it can't have them. A `body`
        is its text where it has no `text`."""
        return [name for name in fields if name in _MADE_ALONE or name == BODY and TEXT in fields]

    def value(self, field: str, text: str) -> str | None:
        """The word that a value of a field of days, numbers or words is compared by; None where it is none."""
        kind = self.profile.kind(field)
        if kind is Kind.DATE:
            return date_word(text)
        if kind is Kind.NUMBER:
            return number_word(text)
        folded = self.plain(text)
        return folded if folded and not folded.isspace() else None

    def spellings(self, text: str, fronts: bool = False) -> tuple[str, ...]:
        """The text of a term and other spellings of it, mended; at most eight, the term first."""
        return tuple(dict.fromkeys(self.mend(one) for one in spellings(text, fronts)))

    @staticmethod
    def url_words(text: str) -> str:
        """The words of a URL, with blanks between."""
        return url_words(text)

    @staticmethod
    def host_word(text: str) -> str | None:
        """A host as one word; None where the text has none."""
        return host_word(text)

    @staticmethod
    def mark_word(token: str) -> str | None:
        """The word that codes a token with a sign; None where the text is none."""
        return mark_word(token)


class Prepared:
    """An article that is prepared part by part, each once."""

    def __init__(self, preparer: Preparer, given: Mapping[str, str]) -> None:
        self.given = given
        self._preparer = preparer
        self._written: dict[str, str] = {}
        self._texts: dict[str, str] = {}

    def written(self, field: str) -> str:
        """A field's text, mended: with its capitals and accents. Empty where it is not there."""
        if field not in self._written:
            self._written[field] = self._of_parts(field, self.written, self._preparer.mend)
        return self._written[field]

    def text(self, field: str) -> str:
        """A field's text, mended and folded; empty where it is not there."""
        if field not in self._texts:
            self._texts[field] = self._of_parts(field, self.text, lambda _: self._folded(field))
        return self._texts[field]

    def _folded(self, field: str) -> str:
        return self._preparer.fold(self.written(field))

    def _of_parts(self, field: str, part: Change, made: Change) -> str:
        """The field by what is made of its text; of `text` both its parts, with a word between that no query has."""
        if field == TEXT and self.given.get(TITLE):
            title, body = part(TITLE), part(BODY)
            return f"{title}{_BETWEEN}{body}" if title and body else title or body
        given = self._given(field)
        return made(given) if given else ""

    def _given(self, field: str) -> str:
        """A field as it was given; a body is the text, and the text the body."""
        other = {BODY: TEXT, TEXT: BODY}.get(field, field)
        return self.given.get(field, "") or self.given.get(other, "")

    def fields(self, names: Collection[str] | None = None) -> dict[str, str]:
        """The fields for the engine, by their names, or those of these names; none that is empty."""
        wanted = names if names is not None else dict.fromkeys((*self.given, TEXT, *MADE))
        made = {name: self._field(name) for name in wanted}
        return {name: text for name, text in made.items() if text}

    def unread(self) -> list[str]:
        """The fields of days and numbers whose text is none; the engine is not told them."""
        sorted_kinds = (Kind.DATE, Kind.NUMBER)
        return [name for name, text in self.given.items()
                if self._preparer.profile.kind(name) in sorted_kinds and text.strip() and not self._field(name)]

    def _field(self, name: str) -> str:
        """What the engine is given under a name; empty where there is nothing."""
        if name in (MARKS, TITLE_MARKS):
            parts = (TITLE,) if name == TITLE_MARKS else (TITLE, TEXT)
            return " ".join(filter(None, (mark_words(self._given(part)) for part in parts)))
        if name == HAS:
            return " ".join(field for field, text in self.given.items() if text and not text.isspace())
        if name == HOST:
            return " ".join(dict.fromkeys(filter(None, map(host_words, self._urls()))))
        kind = self._preparer.profile.kind(name)
        given = self.given.get(name, "")
        if kind in (Kind.DATE, Kind.NUMBER):
            return self._preparer.value(name, given) or ""
        return self._preparer.fold(url_words(given)) if kind is Kind.URL else self.text(name)

    def _urls(self) -> Iterable[str]:
        return (text for name, text in self.given.items()
                if name == HOST or self._preparer.profile.kind(name) is Kind.URL)
