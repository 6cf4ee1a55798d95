"""Texts with the words marked at which queries hold, and excerpts of them."""

from __future__ import annotations

from typing import Any, Iterator, Mapping, Sequence

from .explaining import Explainer

Json = dict[str, Any]
# Of an excerpt: how many marks it has, and how many characters stand before, between and behind them.
MOST_MARKS = 4
MOST_AROUND = 60
ELLIPSIS = "…"
# What an excerpt does not end with, before the ellipsis.
_ENDS = " \t\r\n.,;:"


class Marker:
    """Marks the fields of one article; each field is cut into words once."""

    def __init__(self, explainer: Explainer, fields: Mapping[str, str]) -> None:
        self._explainer = explainer
        self._fields = fields
        self._words: dict[str, list[Json]] = {}

    async def marked(self, query: str, hits: Sequence[Json]) -> list[Json]:
        """For each field with a hit: the query, the field, and its text in pieces, of which each second one is marked.
        `Ended` where the words can't be had."""
        found: list[Json] = []
        for name in dict.fromkeys(hit["field"] for hit in hits):
            text = self._fields[name]
            if name not in self._words:
                self._words[name] = (await self._explainer.words(text)).get("words", [])
            positions = [hit["position"] for hit in hits if hit["field"] == name]
            found.append({"query": query, "field": name, "pieces": pieces(text, self._words[name], positions)})
        return found

    async def excerpts(self, query: str, hits: Sequence[Json]) -> list[Json]:
        """The marked fields, cut to what stands around their first marks."""
        return [{**one, "pieces": excerpt(one["pieces"])} for one in await self.marked(query, hits)]


def pieces(text: str, words: Sequence[Json], positions: Sequence[int]) -> list[str]:
    """The text in pieces: plain, marked, plain and so on, with the words at these positions marked."""
    encoded, found, end = text.encode(), [], 0
    for position in positions:
        if position < len(words):
            word = words[position]
            found += [encoded[end:word["start"]].decode(), encoded[word["start"]:word["end"]].decode()]
            end = word["end"]
    return [*found, encoded[end:].decode()]


def excerpt(marked: Sequence[str]) -> list[str]:
    """The first marks with some text around."""
    kept = list(marked[:2 * MOST_MARKS + 1])
    last = len(kept) - 1
    return [piece if place % 2 else cut(piece, is_first=place == 0, is_last=place == last)
            for place, piece in enumerate(kept)]


def cut(text: str, is_first: bool, is_last: bool) -> str:
    """A piece of plain text, shortened on the side that is far from a mark, or in the middle where marks are around."""
    most = MOST_AROUND if is_first != is_last else 2 * MOST_AROUND
    if len(text) <= most:
        return text
    if is_first and is_last:
        return beginning(text, most) + ELLIPSIS
    if is_first:
        return ELLIPSIS + ending(text, most)
    if is_last:
        return beginning(text, most) + ELLIPSIS
    return f"{beginning(text, MOST_AROUND)} {ELLIPSIS} {ending(text, MOST_AROUND)}"


def beginning(text: str, most: int) -> str:
    """The first so many characters, up to a blank where one is in their second half."""
    kept = text[:most]
    front, blank, _ = text[:most + 1].rpartition(" ")
    return (front if blank and len(front) >= most // 2 else kept).rstrip(_ENDS)


def ending(text: str, most: int) -> str:
    """The last so many characters, from a blank on where one is in their first half."""
    kept = text[-most:]
    _, blank, back = text[-most - 1:].partition(" ")
    return (back if blank and len(back) >= most // 2 else kept).lstrip()


def size_of(marked: Sequence[Json]) -> int:
    """About how many bytes marked fields take."""
    return sum(len(piece) for one in marked for piece in one["pieces"])


def by_query(alert: Json) -> Iterator[tuple[str, Sequence[Json]]]:
    """Each query of an alert of the engine with its hits."""
    return zip(alert["queries"], alert["hits"])
