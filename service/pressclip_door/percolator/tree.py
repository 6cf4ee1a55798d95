"""What a query means: a tree over the engine's fields, and the text by which the engine is told of it."""

from __future__ import annotations

from dataclasses import dataclass
from typing import Sequence, Union


@dataclass(frozen=True)
class All:
    """Holds of each document."""


@dataclass(frozen=True)
class Never:
    """Holds of no document."""


@dataclass(frozen=True)
class Word:
    """The field has the word."""

    field: str
    word: str


@dataclass(frozen=True)
class Phrase:
    """The field has the words next to each other."""

    field: str
    words: tuple[str, ...]


@dataclass(frozen=True)
class Front:
    """A word of the field begins so."""

    field: str
    front: str


@dataclass(frozen=True)
class End:
    """An end of a range."""

    text: str
    is_included: bool


@dataclass(frozen=True)
class Span:
    """A word of the field lies between two ends, by the bytes of UTF-8; an end that is None is open."""

    field: str
    low: End | None
    high: End | None


@dataclass(frozen=True)
class Group:
    """All of `must` hold, none of `must_not`, and one of `should` where it has any."""

    must: tuple[Node, ...] = ()
    should: tuple[Node, ...] = ()
    must_not: tuple[Node, ...] = ()


Node = Union[All, Never, Word, Phrase, Front, Span, Group]


def both(nodes: Sequence[Node]) -> Node:
    """All of them hold."""
    return nodes[0] if len(nodes) == 1 else Group(must=tuple(nodes))


def either(nodes: Sequence[Node]) -> Node:
    """One of them holds; never where there is none."""
    if not nodes:
        return Never()
    return nodes[0] if len(nodes) == 1 else Group(should=tuple(nodes))


def without(nodes: Sequence[Node]) -> Node:
    """None of them holds."""
    return Group(must_not=tuple(nodes))


def size(node: Node) -> int:
    """How many parts it has, about as the engine counts them."""
    if isinstance(node, Group):
        return 1 + sum(size(part) for part in (*node.must, *node.should, *node.must_not))
    return len(node.words) if isinstance(node, Phrase) else 1
