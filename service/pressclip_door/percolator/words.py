"""How texts are cut into words, as the engine does it."""

from __future__ import annotations

from dataclasses import dataclass
from typing import Protocol, Sequence

# Stands between the values of a field that has several, so that no phrase reaches over. No query may name it.
BETWEEN = "\U00010600"


@dataclass(frozen=True)
class Cut:
    """A word, folded, and the bytes of the text where it stands."""

    word: str
    start: int
    end: int


class Cutter(Protocol):
    """Cuts texts into words."""

    async def cut(self, text: str) -> Sequence[Cut]:
        """The words of a text, in order."""


def lowered(text: str) -> str:
    """The text with each character in lower case by itself, as Elasticsearch's index has it."""
    return "".join(character.lower()[:1] for character in text)
