"""What the lexemes of a query carry."""

from __future__ import annotations

from dataclasses import dataclass
from enum import Enum

from .tree import Every, Has, Place, Range, Slop, Term, Unit


class Kind(Enum):
    """The lexemes of the grammar, by its names."""

    OR = "OR"
    AND = "AND"
    NOT = "NOT"
    MUST = "MUST"
    WITHIN = "WITHIN"
    COMMA = "COMMA"
    FIELD = "FIELD"
    PLACES = "PLACES"
    OF = "OF"
    ITEM = "ITEM"
    OPEN = "_OPEN"
    CLOSE = "_CLOSE"


@dataclass(frozen=True)
class Within:
    """How near two things stand: within so many words, or in one unit."""

    words: int = 0
    unit: Unit | None = None
    ordered: bool = False
    unless: bool = False


@dataclass(frozen=True)
class FieldOf:
    """The field of the item behind, or that its capitals and accents count."""

    name: str
    exact: bool = False


Load = Term | Slop | Every | Has | Range | Within | FieldOf | int | None


@dataclass(frozen=True)
class Lexeme:
    """A lexeme, where it stands, how it is written, and what it carries."""

    kind: Kind
    place: Place
    text: str
    load: Load = None

    def __str__(self) -> str:
        return self.text
