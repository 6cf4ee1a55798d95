"""Nearness of words and rows of words, by their positions."""

from __future__ import annotations

from bisect import bisect_left, bisect_right
from collections.abc import Callable, Sequence

from .library import LIBRARY

# The positions of a row's first and last word.
Span = tuple[int, int]


# The library's proved nearness, `(first, second, between, ordered, fields)`, of two queries of the engine, each a word or
# the beginning of one; None where the library isn't built.
proved_near: Callable[[str, str, int, bool, dict[str, str]], bool] | None = getattr(LIBRARY, "near_holds", None)


class Gaps:
    """How far apart words stand: one position each, and the end of a sentence counts as a word."""

    def __init__(self, sentences: Sequence[int]) -> None:
        self._sentences = sentences

    def place(self, position: int) -> int:
        """Where the word at a position stands on this scale."""
        return position + self._sentences[position]


def near_holds(left: Sequence[Span], right: Sequence[Span], within: int, ordered: bool, gaps: Gaps) -> bool:
    """Whether a span of the one and a span of the other are near: they don't overlap, and the later begins at most
    `within` places after the earlier ends; with `ordered` the left one is the earlier. Both are in ascending order.
    Cost: a search for each span."""
    return _is_followed(left, right, within, gaps) or not ordered and _is_followed(right, left, within, gaps)


def words_are_near(left: Sequence[int], right: Sequence[int], within: int, ordered: bool) -> bool:
    """Whether a place of the one and a place of the other, both in ascending order, are different and at most `within`
    apart; with `ordered` the left one first. The end of a sentence takes a place, as `Gaps` counts. Cost: a search for
    each place on the left."""
    for place in left:
        at = bisect_left(right, place + 1)
        if at < len(right) and right[at] <= place + within:
            return True
        if not ordered:
            at = bisect_left(right, place) - 1
            if at >= 0 and right[at] >= place - within:
                return True
    return False


def near_spans(left: Sequence[Span], right: Sequence[Span], within: int, ordered: bool, gaps: Gaps) -> list[Span]:
    """The spans from the first to the last position of each pair that is near, in ascending order."""
    found = set(_followed(left, right, within, gaps))
    if not ordered:
        found.update(_followed(right, left, within, gaps))
    return sorted(found)


def away(left: Sequence[Span], right: Sequence[Span], within: int, ordered: bool, gaps: Gaps) -> list[Span]:
    """The spans on the left that no span on the right is near."""
    starts = [gaps.place(start) for start, _ in right]
    ends = sorted(gaps.place(end) for _, end in right)
    return [(start, end) for start, end in left
            if not _has(starts, gaps.place(end) + 1, gaps.place(end) + within)
            and (ordered or not _has(ends, gaps.place(start) - within, gaps.place(start) - 1))]


def _is_followed(earlier: Sequence[Span], later: Sequence[Span], within: int, gaps: Gaps) -> bool:
    starts = [gaps.place(start) for start, _ in later]
    return any(_has(starts, gaps.place(end) + 1, gaps.place(end) + within) for _, end in earlier)


def _has(ordered: Sequence[int], low: int, high: int) -> bool:
    """Whether one of the numbers, in ascending order, lies between two or is one of them."""
    place = bisect_left(ordered, low)
    return place < len(ordered) and ordered[place] <= high


def _followed(earlier: Sequence[Span], later: Sequence[Span], within: int, gaps: Gaps) -> list[Span]:
    starts = [gaps.place(start) for start, _ in later]
    return [(start, later[place][1]) for start, end in earlier
            for place in range(bisect_right(starts, gaps.place(end)), bisect_right(starts, gaps.place(end) + within))]


def slop_spans(places: Sequence[Sequence[int]], slop: int) -> list[Span]:
    """Where words stand near each other as Lucene counts it. `places` has the positions of each word in turn, in
    ascending order. Each takes a position of its own, and the position less the word's number in the row is at most
    `slop` above the least of them."""
    starts = sorted({position - number for number, held in enumerate(places) for position in held})
    chosen = (_chosen(places, start, slop) for start in starts)
    return sorted({(min(held), max(held)) for held in chosen if held})


def _chosen(places: Sequence[Sequence[int]], start: int, slop: int) -> list[int] | None:
    """A position for each word, each between its number after the start and so many further, or None."""
    allowed: list[Sequence[int]] = []
    for number, held in enumerate(places):
        allowed.append(held[bisect_left(held, start + number):bisect_right(held, start + number + slop)])
        if not allowed[-1]:
            return None
    taken: dict[int, int] = {}
    for number in range(len(allowed)):
        if not _take(number, allowed, taken, set()):
            return None
    return list(taken)


def _take(number: int, allowed: Sequence[Sequence[int]], taken: dict[int, int], tried: set[int]) -> bool:
    """Gives a word a position of its own, and another word another one where it has to."""
    for position in allowed[number]:
        if position in tried:
            continue
        tried.add(position)
        if position not in taken or _take(taken[position], allowed, taken, tried):
            taken[position] = number
            return True
    return False
