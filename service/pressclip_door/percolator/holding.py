"""Whether a query holds of a document that is kept, as filters beside `percolate` ask."""

from __future__ import annotations

from typing import Mapping, Sequence

from .leaves import is_within
from .tree import All, Front, Group, Never, Node, Phrase, Span, Word

Words = Mapping[str, Sequence[str]]


def fields_of(node: Node) -> set[str]:
    """The engine's fields that a query looks at."""
    if isinstance(node, Group):
        return {name for part in (*node.must, *node.should, *node.must_not) for name in fields_of(part)}
    return set() if isinstance(node, (All, Never)) else {node.field}


def holds(node: Node, words: Words) -> bool:
    """Whether a query holds of the words of each field, in order."""
    if isinstance(node, Group):
        return (all(holds(part, words) for part in node.must)
                and (not node.should or any(holds(part, words) for part in node.should))
                and not any(holds(part, words) for part in node.must_not))
    if isinstance(node, (All, Never)):
        return isinstance(node, All)
    there = words.get(node.field, ())
    if isinstance(node, Word):
        return node.word in there
    if isinstance(node, Front):
        return any(word.startswith(node.front) for word in there)
    if isinstance(node, Span):
        return any(is_within(word, node.low, node.high) for word in there)
    return has_run(node, there)


def has_run(phrase: Phrase, there: Sequence[str]) -> bool:
    """Whether the words of a phrase stand next to each other."""
    length = len(phrase.words)
    return any(tuple(there[at:at + length]) == phrase.words for at in range(len(there) - length + 1))
