"""What a query of the press dialect means, said plainly: over words and places, with no care for cost.

It knows nothing of how a query is translated or filtered. Articles and terms are mended and folded by the preparer, and
cut into words by what it is handed.
"""

from __future__ import annotations

from collections.abc import Callable, Mapping, Sequence
from dataclasses import dataclass
from datetime import date
from itertools import product

from pressclip_press.preparing import SEPARATOR, Preparer
from pressclip_press.tree import (BODY, TEXT, TITLE, WILD_MANY, WILD_ONE, All, AtLeast, Every, Has, Near, Not, Often,
                                  Range, Same, Slop, Some, Term, Tree, Unit)

Span = tuple[int, int]
Cut = Callable[[str], Sequence[Span]]
SIGNS = "#@$+&%"
_ENDS = ".!?…"
_ENDS_ALONE = "。！？"
_OPENING = "(\"'“„«"
_CLOSING = "\"'”’»)]"


@dataclass(frozen=True)
class Word:
    """A word of a field, written and folded, the sentence and paragraph that it stands in, and what stands before."""

    written: str
    folded: str
    sentence: int
    paragraph: int
    before: str


@dataclass(frozen=True)
class Page:
    """The words of a field, and what stands behind the last."""

    words: tuple[Word, ...]
    rest: str

    def gap(self, place: int) -> str:
        """What stands before the word at the place."""
        return self.words[place].before if place < len(self.words) else self.rest


class Judge:
    """Says of trees whether they hold of articles."""

    def __init__(self, preparer: Preparer, cut: Cut) -> None:
        self._preparer = preparer
        self._cut = cut
        self._rows: dict[Term, list[Page]] = {}

    def article(self, given: Mapping[str, str]) -> Hearing:
        """An article, of which trees are judged."""
        return Hearing(self, given)

    def page(self, text: str) -> Page:
        """The words of a mended text."""
        words: list[Word] = []
        sentence = paragraph = last = 0
        for start, end in self._cut(text):
            before = text[last:start]
            if words and ends_sentence(words[-1], before, text[start]):
                sentence += 1
            if words and ends_paragraph(before):
                paragraph += 1
            words.append(Word(text[start:end], self.folded(text[start:end]), sentence, paragraph, before))
            last = end
        return Page(tuple(words), text[last:])

    def folded(self, word: str) -> str:
        """A word as it is compared."""
        return self._preparer.fold(word).casefold()

    def mended(self, text: str) -> str:
        """A text with its words parted and joined."""
        return self._preparer.mend(text)

    def rows(self, term: Term) -> list[Page]:
        """The words of a term, in each of its spellings."""
        if term not in self._rows:
            self._rows[term] = [row for row in map(self.page, self.terms(term)) if row.words]
        return self._rows[term]

    def terms(self, term: Term) -> list[str]:
        """A term and how else it is spelled, mended."""
        if term.exact:
            return [self.mended(term.text)]
        made = list(self._preparer.spellings(term.text, fronts=self._preparer.profile.choices.prefixes))
        if "&" in term.text and " " not in term.text:
            made.append(self.mended(term.text.replace("&", " & ")))
        return made


def ends_sentence(word: Word, gap: str, following: str) -> bool:
    """Whether a sentence ends in what stands between a word and the next, which begins with a character."""
    if has_blank_line(gap) or any(sign in gap for sign in _ENDS_ALONE):
        return True
    return any(_ends_at(word, gap, place, following) for place, sign in enumerate(gap) if sign in _ENDS)


def _ends_at(word: Word, gap: str, place: int, following: str) -> bool:
    """Whether a sentence ends with the sign at a place: with a blank behind, and no small letter behind that. A full
    stop behind a letter that stands alone ends none."""
    marks = gap[place:].lstrip(_ENDS).lstrip(_CLOSING)
    if not marks[:1].isspace() or (marks.lstrip() or following)[0].islower():
        return False
    stands_alone = not word.before or word.before[-1].isspace() or word.before[-1] in _OPENING
    is_initial = len(word.written) == 1 and word.written.isalpha() and stands_alone
    return gap[place] != "." or place > 0 or not is_initial


def ends_paragraph(gap: str) -> bool:
    """Whether a paragraph ends in what stands between two words."""
    lines = gap.split("\n")
    if len(lines) == 1:
        return False
    ends_line = lines[0].rstrip(" \t").rstrip(_CLOSING)[-1:] in (*_ENDS, *_ENDS_ALONE, ":")
    return has_blank_line(gap) or lines[-1][:1] in (" ", "\t") or ends_line and bool(lines[0].strip())


def has_blank_line(gap: str) -> bool:
    """Whether a line of it has nothing."""
    return any(not line.strip() for line in gap.split("\n")[1:-1])


class Hearing:
    """An article before the judge; pages and places are found once."""

    def __init__(self, judge: Judge, given: Mapping[str, str]) -> None:
        self._judge = judge
        self._given = given
        self._pages: dict[str, Page] = {}
        self._places: dict[Term, list[Span]] = {}

    def texts(self) -> list[str]:
        """The mended texts that are cut for it."""
        return [self._mended(field) for field in (TEXT, TITLE, BODY, *self._given)]

    def holds(self, tree: Tree) -> bool:
        """Whether the tree holds of the article."""
        if isinstance(tree, Every):
            return True
        if isinstance(tree, Has):
            return bool(self._given.get(tree.field, "").strip())
        if isinstance(tree, Range):
            return self._is_within(tree)
        if isinstance(tree, Not):
            return not self.holds(tree.part)
        if isinstance(tree, All):
            return all(map(self.holds, tree.parts))
        if isinstance(tree, Some):
            return any(map(self.holds, tree.parts))
        if isinstance(tree, AtLeast):
            return sum(map(self.holds, tree.parts)) >= tree.count
        if isinstance(tree, Often):
            return len(self.spans(tree.part)) >= tree.count
        if isinstance(tree, Term) and tree.field == "host":
            return self._is_on(tree.text)
        return bool(self.spans(tree))

    def spans(self, tree: Tree) -> list[Span]:
        """The first and last position of each place where the tree stands."""
        if isinstance(tree, Term):
            if tree not in self._places:
                self._places[tree] = self._of_term(tree)
            return self._places[tree]
        if isinstance(tree, Some):
            return sorted({span for part in tree.parts for span in self.spans(part)})
        if isinstance(tree, Near):
            return self._near(tree)
        if isinstance(tree, Same):
            return self._same(tree)
        assert isinstance(tree, Slop)
        return self._moved(tree)

    def _mended(self, field: str) -> str:
        """The mended text of a field; title and text are one, with a word of none between."""
        title, body = self._given.get(TITLE, ""), self._given.get(TEXT, "")
        if field == TEXT and title and body:
            return f"{self._judge.mended(title)}\n\n{SEPARATOR}\n\n{self._judge.mended(body)}"
        given = {TEXT: title or body, TITLE: title, BODY: body}.get(field, self._given.get(field, ""))
        return self._judge.mended(given)

    def page(self, field: str) -> Page:
        """The words of a field."""
        if field not in self._pages:
            self._pages[field] = self._judge.page(self._mended(field))
        return self._pages[field]

    def _of_term(self, term: Term) -> list[Span]:
        """Where the words of a term stand in a row, in one of its spellings."""
        page = self.page(term.field)
        found: set[Span] = set()
        for row in self._judge.rows(term):
            count = len(row.words)
            for start in range(len(page.words) - count + 1):
                if self._stands(page, row, start, term.exact):
                    found.add((start, start + count - 1))
        return sorted(found)

    def _stands(self, page: Page, row: Page, start: int, exact: bool) -> bool:
        """Whether a row of words stands from a position on, with its signs."""
        for number, word in enumerate(row.words):
            held = page.words[start + number]
            if held.folded == SEPARATOR or not matches(word.folded, held.folded):
                return False
            if exact and not matches(word.written, held.written):
                return False
        count = len(row.words)
        return all(has_signs(page.gap(start + number), row.gap(number), number == 0, number == count)
                   for number in range(count + 1))

    def _distance(self, tree: Near, earlier: Span, later: Span) -> int:
        """How many words the later begins behind the end of the earlier; the end of a sentence counts as one."""
        words = self.page(field_of(tree)).words
        return later[0] - earlier[1] + words[later[0]].sentence - words[earlier[1]].sentence

    def _is_near(self, tree: Near, left: Span, right: Span) -> bool:
        if left[1] < right[0]:
            return self._distance(tree, left, right) <= tree.within
        return not tree.ordered and right[1] < left[0] and self._distance(tree, right, left) <= tree.within

    def _near(self, tree: Near) -> list[Span]:
        """From the first to the last word of each two that are near; or those with none near."""
        left, right = self.spans(tree.left), self.spans(tree.right)
        if tree.unless:
            return [one for one in left if not any(self._is_near(tree, one, other) for other in right)]
        return sorted({(min(one[0], other[0]), max(one[1], other[1]))
                       for one, other in product(left, right) if self._is_near(tree, one, other)})

    def _same(self, tree: Same) -> list[Span]:
        """The places of the left part that share a sentence or paragraph with one of the right."""
        right = self.spans(tree.right)
        return [one for one in self.spans(tree.left)
                if any(self._share(tree, one, other) for other in right) != tree.unless]

    def _share(self, tree: Same, left: Span, right: Span) -> bool:
        words = self.page(field_of(tree)).words
        places = {words[place].sentence if tree.unit is Unit.SENTENCE else words[place].paragraph
                  for place in (*left, *right)}
        return len(places) == 1 and (not tree.ordered or right[0] > left[1])

    def _moved(self, tree: Slop) -> list[Span]:
        """Where the words of a term stand, each moved, so many places in all."""
        page = self.page(tree.term.field)
        row = self._judge.page(self._judge.mended(tree.term.text)).words
        places = [[place for place, held in enumerate(page.words)
                   if held.folded != SEPARATOR and matches(word.folded, held.folded)] for word in row]
        found: set[Span] = set()
        for chosen in product(*places):
            moves = [place - number for number, place in enumerate(chosen)]
            if len(set(chosen)) == len(chosen) and max(moves) - min(moves) <= tree.slop:
                found.add((min(chosen), max(chosen)))
        return sorted(found)

    def _is_within(self, tree: Range) -> bool:
        """Whether a field's day, number or one of its words lies in the range."""
        given = self._given.get(tree.field, "")
        if tree.field == "date":
            return bool(given) and lies(tree, date.fromisoformat(given[:10]), date.fromisoformat)
        if tree.field == "reach":
            return bool(given) and lies(tree, int(given), int)
        return any(lies(tree, word.folded.encode(), lambda end: self._judge.folded(end).encode())
                   for word in self.page(tree.field).words if word.folded != SEPARATOR)

    def _is_on(self, site: str) -> bool:
        """Whether the article's address is on a site or one below it."""
        host = self._given.get("url", "").partition("://")[2].partition("/")[0]
        return host == site or host.endswith("." + site)


def lies(tree: Range, value: object, read: Callable[[str], object]) -> bool:
    """Whether a value lies in the range, of which the ends are read."""
    low = None if tree.low is None else read(tree.low)
    high = None if tree.high is None else read(tree.high)
    above = low is None or low < value or tree.with_low and low == value  # type: ignore[operator]
    return above and (high is None or value < high or tree.with_high and value == high)  # type: ignore[operator]


def field_of(tree: Tree) -> str:
    """The field in which a tree stands."""
    if isinstance(tree, Term):
        return tree.field
    if isinstance(tree, Some):
        return field_of(tree.parts[0])
    assert isinstance(tree, (Near, Same))
    return field_of(tree.left)


def matches(wild: str, word: str) -> bool:
    """Whether a word is what one with wildcards stands for."""
    if not wild:
        return not word
    if wild[0] == WILD_MANY:
        return any(matches(wild[1:], word[place:]) for place in range(len(word) + 1))
    return bool(word) and wild[0] in (word[0], WILD_ONE) and matches(wild[1:], word[1:])


def has_signs(given: str, wanted: str, is_first: bool, is_last: bool) -> bool:
    """Whether what stands between two words of an article has the signs of a term, directly beside the word."""
    signs = "".join(sign for sign in wanted if sign in SIGNS)
    if not signs:
        return True
    if is_first:
        return given.endswith(signs) and not given.removesuffix(signs).endswith(signs[0])
    if is_last:
        given = given.lstrip() if signs == "%" else given
        return given.startswith(signs) and not given.removeprefix(signs).startswith(signs[-1])
    return given == signs
