"""What a query of the dialect is read as: a tree, of which each part knows its place."""

from __future__ import annotations

from dataclasses import dataclass
from enum import Enum
from typing import Union

# Letters without case that stand in a term for its wildcards, so that a term is mended, folded and cut as a text is.
WILD_MANY = "\U00010330"
WILD_ONE = "\U00010331"

TEXT = "text"
TITLE = "title"
BODY = "body"


@dataclass(frozen=True)
class Place:
    """Where something stands in a query, in characters, from and to."""

    start: int
    end: int


class Refused(Exception):
    """A query can't be said: where, by which rule, and a sentence."""

    def __init__(self, place: Place, rule: str, says: str) -> None:
        super().__init__(says)
        self.place, self.rule, self.says = place, rule, says


class Level(Enum):
    """How likely a query means something else than what it is read as."""

    WARNING = "warning"
    NOTICE = "notice"
    HINT = "hint"


@dataclass(frozen=True)
class Remark:
    """What a part of a query is read as, where another tool reads it in another way."""

    place: Place
    level: Level
    rule: str
    says: str


class Unit(Enum):
    """What two words share."""

    SENTENCE = "sentence"
    PARAGRAPH = "paragraph"


@dataclass(frozen=True)
class Term:
    """A word or words in a row, without quotes and escapes, its wildcards as `WILD_MANY` and `WILD_ONE`."""

    place: Place
    text: str
    quoted: bool = False
    exact: bool = False
    field: str = TEXT


@dataclass(frozen=True)
class Every:
    """Each article."""

    place: Place


@dataclass(frozen=True)
class Has:
    """A field is given, and not blank."""

    place: Place
    field: str


@dataclass(frozen=True)
class Range:
    """A value of a field lies between two, which are as they were written; `None` is an open end."""

    place: Place
    field: str
    low: str | None
    high: str | None
    with_low: bool = True
    with_high: bool = True


@dataclass(frozen=True)
class Not:
    """The part does not hold."""

    place: Place
    part: Tree


@dataclass(frozen=True)
class All:
    """Each part holds."""

    place: Place
    parts: tuple[Tree, ...]


@dataclass(frozen=True)
class Some:
    """At least one part holds."""

    place: Place
    parts: tuple[Tree, ...]


@dataclass(frozen=True)
class AtLeast:
    """So many of the parts hold."""

    place: Place
    count: int
    parts: tuple[Tree, ...]


@dataclass(frozen=True)
class Often:
    """The part stands at so many places."""

    place: Place
    count: int
    part: Tree


@dataclass(frozen=True)
class Near:
    """The two stand at most so many words apart; with `ordered` the left one first; with `unless` one of the left
    stands with none of the right near it."""

    place: Place
    left: Tree
    right: Tree
    within: int
    ordered: bool = False
    unless: bool = False


@dataclass(frozen=True)
class Same:
    """The two stand in one sentence or paragraph; with `ordered` the left one first; with `unless` one of the left
    stands with none of the right in its sentence or paragraph."""

    place: Place
    left: Tree
    right: Tree
    unit: Unit
    ordered: bool = False
    unless: bool = False


@dataclass(frozen=True)
class Slop:
    """The words of a term stand near each other as Lucene counts it: each may be moved, so many places in all."""

    place: Place
    term: Term
    slop: int


Tree = Union[Term, Every, Has, Range, Not, All, Some, AtLeast, Often, Near, Same, Slop]


def parts_of(tree: Tree) -> tuple[Tree, ...]:
    """The parts right within one; none of a term, a field or a range."""
    if isinstance(tree, (All, Some, AtLeast)):
        return tree.parts
    if isinstance(tree, (Near, Same)):
        return (tree.left, tree.right)
    if isinstance(tree, (Not, Often)):
        return (tree.part,)
    return (tree.term,) if isinstance(tree, Slop) else ()
