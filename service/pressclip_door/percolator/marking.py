"""`highlight`: the words of percolated documents at which a query holds, marked."""

from __future__ import annotations

from dataclasses import dataclass
from fnmatch import fnmatchcase
from typing import Any, Iterator, Mapping, Sequence

from .mapping import Field, FieldMap, Kind
from .part import Options, Part
from .trouble import not_served
from .words import BETWEEN, Cut, Cutter

Json = dict[str, Any]
# From a byte of a text to another.
Stretch = tuple[int, int]
USUAL_SIZE, USUAL_COUNT = 100, 5
_PASSED_OVER = ("type", "order", "fragmenter", "boundary_scanner", "boundary_scanner_locale", "boundary_chars",
                "boundary_max_scan", "phrase_limit", "max_analyzed_offset", "force_source", "require_field_match")


@dataclass(frozen=True)
class Style:
    """How a field is marked: what stands before and behind each word, and how many pieces of about how many characters
    are shown. No pieces are the whole text."""

    before: str = "<em>"
    behind: str = "</em>"
    size: int = USUAL_SIZE
    count: int = USUAL_COUNT


@dataclass(frozen=True)
class Marker:
    """Marks the fields that a search asks for."""

    fields: FieldMap
    styles: Sequence[tuple[str, Style]]

    async def marked(self, article: Json, alert: Json, cutter: Cutter) -> dict[str, list[str]]:
        """The pieces of each field of an article that has hits, by the one query of an alert."""
        found: dict[str, list[str]] = {}
        positions: dict[str, set[int]] = {}
        for hits in alert["hits"]:
            for hit in hits:
                positions.setdefault(hit["field"], set()).add(hit["position"])
        for field in self.fields.fields.values():
            style = next((style for pattern, style in self.styles if fnmatchcase(field.path, pattern)), None)
            places = positions.get(field.engine)
            if style is None or not places or field.kind not in (Kind.TEXT, Kind.WHOLE):
                continue
            text = article["fields"][field.engine]
            pieces = (text_pieces(text, await cutter.cut(text), places, style) if field.kind is Kind.TEXT else
                      whole_pieces(text, places, style))
            found[field.path] = pieces
        return found


def marker_of(part: Part | None, fields: FieldMap) -> Marker | None:
    """What `highlight` asks for; None where it is not there."""
    if part is None:
        return None
    options = Options(part, "highlight")
    named = options.need("fields")
    style = style_of(options, Style())
    options.end()
    parts = [one.members() for one in named.items()]
    return Marker(fields, [(pattern, style_of(Options(one, "highlight"), style, True))
                           for members in parts for pattern, one in members.items()])


def style_of(options: Options, usual: Style, is_last: bool = False) -> Style:
    """The style that options ask for."""
    before, behind = options.take("pre_tags"), options.take("post_tags")
    size, count, encoder = options.take("fragment_size"), options.take("number_of_fragments"), options.take("encoder")
    if encoder is not None and encoder.value != "default":
        raise not_served("encoder", encoder.place, "texts are shown as they are")
    for name in _PASSED_OVER:
        options.take(name)
    if is_last:
        options.end()
    return Style(tag_of(before, usual.before), tag_of(behind, usual.behind),
                 usual.size if size is None else size.number(0, 1 << 30),
                 usual.count if count is None else count.number(0, 1_000))


def tag_of(part: Part | None, usual: str) -> str:
    """The first of the tags that are asked for, or the usual one."""
    tags = [] if part is None else [tag.text() for tag in part.items()]
    return tags[0] if tags else usual


def text_pieces(text: str, cuts: Sequence[Cut], places: set[int], style: Style) -> list[str]:
    """The pieces of a text, in which the words at the places are marked; no piece reaches over two values."""
    whole = text.encode()
    found: list[str] = []
    for words in values_of(cuts):
        marked = [(cut.start, cut.end) for place, cut in words if place in places]
        if not marked:
            continue
        start = value_edge(whole, words[0][1].start, -1)
        end = value_edge(whole, words[-1][1].end, 1)
        for piece in ([(start, end)] if not style.count else windows(whole, (start, end), marked, style.size)):
            found.append(with_marks(whole, piece, marked, style))
            if style.count and len(found) == style.count:
                return found
    return found


def values_of(cuts: Sequence[Cut]) -> Iterator[list[tuple[int, Cut]]]:
    """The words of each value of a field, with their places."""
    words: list[tuple[int, Cut]] = []
    for place, cut in enumerate(cuts):
        if cut.word == BETWEEN:
            if words:
                yield words
            words = []
        else:
            words.append((place, cut))
    if words:
        yield words


def value_edge(whole: bytes, at: int, step: int) -> int:
    """Where the value ends that has a word at a place, in front of it or behind it."""
    gap = f"\n{BETWEEN}\n".encode()
    edge = whole.rfind(gap, 0, at) if step < 0 else whole.find(gap, at)
    if edge < 0:
        return 0 if step < 0 else len(whole)
    return edge + len(gap) if step < 0 else edge


def windows(whole: bytes, value: Stretch, marked: Sequence[Stretch], size: int) -> list[Stretch]:
    """Pieces of about so many bytes around marks, cut at blanks; the whole value where it is no longer than one."""
    start, end = value
    if end - start <= size:
        return [value]
    found: list[Stretch] = []
    for first, last in marked:
        if found and last <= found[-1][1]:
            continue
        low = max(start if not found else found[-1][1], first - size // 2)
        low = low if low <= start else blank_from(whole, low, first)
        high = min(end, max(last, low + size))
        high = high if high == end else max(last, whole.rfind(b" ", last, high + 1))
        found.append((low, high))
    return found


def blank_from(whole: bytes, low: int, first: int) -> int:
    """The place behind the first blank from a place on, or that of the word where there is none."""
    blank = whole.find(b" ", low, first)
    return first if blank < 0 else blank + 1


def with_marks(whole: bytes, piece: Stretch, marked: Sequence[Stretch], style: Style) -> str:
    """A piece of a text with its marks."""
    at, end = piece
    found: list[bytes] = []
    for first, last in marked:
        if at <= first and last <= end:
            found += [whole[at:first], style.before.encode(), whole[first:last], style.behind.encode()]
            at = last
    return b"".join([*found, whole[at:end]]).decode()


def whole_pieces(text: str, places: set[int], style: Style) -> list[str]:
    """The values that are compared whole and are hit, each marked."""
    words = text.split()
    values = (bytes.fromhex(words[place][1:]).decode() for place in sorted(places))
    return [f"{style.before}{value}{style.behind}" for value in values][:style.count or None]
