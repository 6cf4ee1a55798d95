"""Terms by their words in all their spellings; what was made of one is kept for the queries that come."""

from __future__ import annotations

import re
from dataclasses import dataclass
from functools import lru_cache

from .filtering import AnyPlaced, InRow, Placed
from .preparing import Preparer
from .terms import is_wild, row_of
from .tree import TEXT, TITLE, Term

# The fields of the engine that have the marks of a field.
MARKS_OF = {TEXT: "marks", TITLE: "title_marks"}
_STOPPED = re.compile(r"[^\W\d_]+(?:\.[^\W\d_]+)+")
_TIGHT = re.compile(r"(?<=\w)&(?=\w)")
_MOST_KEPT = 100_000


@dataclass(frozen=True)
class Spelled:
    """A term by its words, or `None` where it has none, and its spellings."""

    part: Placed | None
    mended: tuple[str, ...]


class Terms:
    """Makes parts of terms."""

    def __init__(self, preparer: Preparer) -> None:
        self._preparer = preparer
        self._choices = preparer.profile.choices
        self._kept: dict[tuple[object, ...], Spelled] = {}

    def code(self, term: Term) -> str | None:
        """The word that codes a term that is one token with a sign; None where it is found by its words."""
        text = term.text.strip()
        if term.field not in MARKS_OF or term.exact or text.isalpha() or is_wild(text):
            return None
        code = self._preparer.mark_word(text)
        if code is None or not _STOPPED.fullmatch(text):
            return code
        is_name = any(len(label) == 1 for label in text.split(".")) and " " in self._preparer.mend(text).strip()
        return code if is_name else None

    def spelled(self, term: Term, with_codes: bool) -> Spelled:
        """A term in all its spellings. With codes, where it is one token with a sign, the article has to have that."""
        key = (term.text, term.quoted, term.exact, term.field, with_codes)
        found = self._kept.get(key)
        if found is None:
            if len(self._kept) >= _MOST_KEPT:
                self._kept.clear()
            found = self._kept[key] = self._made(term, with_codes)
        return found

    def _made(self, term: Term, with_codes: bool) -> Spelled:
        if term.exact:
            mended: tuple[str, ...] = (self._preparer.mend(term.text),)
        else:
            mended = self._preparer.spellings(term.text, fronts=self._choices.prefixes)
            if " & " in term.text:
                mended += (self._preparer.mend(term.text.replace(" & ", "&")),)
        code = self.code(term) if with_codes else None
        codes = ((MARKS_OF[term.field], code),) if code is not None else ()
        parts = [*self._rows(term, mended, codes), *self._rows(term, self._with_blanks(term), ())]
        if len(parts) > 1:
            return Spelled(AnyPlaced(tuple(parts)), mended)
        return Spelled(parts[0] if parts else None, mended)

    def _with_blanks(self, term: Term) -> tuple[str, ...]:
        """The term with blanks around an ampersand, where it has one between letters."""
        if term.exact or not _TIGHT.search(term.text):
            return ()
        return (self._preparer.mend(_TIGHT.sub(" & ", term.text)),)

    def _rows(self, term: Term, mended: tuple[str, ...], codes: tuple[tuple[str, str], ...]) -> list[Placed]:
        """The term by each of these spellings that has words."""
        exact = term.exact or self._choices.exact_capitals and not term.quoted and term.text != term.text.lower()
        rows = [row for one in dict.fromkeys(mended) if (row := row_of(one, exact, self._preparer)) is not None]
        return [InRow(row, term.field, codes) for row in rows if not all(slot.is_any for slot in row.slots)]


@lru_cache(maxsize=8)
def terms_of(preparer: Preparer) -> Terms:
    """The terms of a preparer."""
    return Terms(preparer)
