"""Queries of the engine's own syntax, written part by part."""

from __future__ import annotations

from collections.abc import Sequence
from dataclasses import dataclass

EVERY = "*:*"
_TEXT = "text"


@dataclass(frozen=True)
class Wide:
    """A query that holds of each article of which a part of the dialect holds, or `None` for one that each article
    holds; and whether it holds of no other."""

    query: str | None
    is_exact: bool


def escaped(word: str) -> str:
    """A word as the syntax takes it, whatever characters it has."""
    return "".join(char if char.isalnum() or char == "_" else "\\" + char for char in word)


def in_field(field: str, item: str) -> str:
    """An item in a field."""
    return item if field == _TEXT else f"{field}:{item}"


def word(field: str, one: str) -> str:
    """A field has the word."""
    return in_field(field, escaped(one))


def front(field: str, beginning: str) -> str:
    """A word of a field begins so."""
    return in_field(field, escaped(beginning) + "*")


def phrase(field: str, words: Sequence[str]) -> str:
    """A field has the words in a row."""
    if len(words) == 1:
        return word(field, words[0])
    return in_field(field, '"' + " ".join(escaped(one) for one in words) + '"')


def between(field: str, low: str | None, high: str | None, with_low: bool, with_high: bool) -> str:
    """A word of a field lies between two."""
    ends = ("*" if end is None else f'"{escaped(end)}"' for end in (low, high))
    return in_field(field, f"{'[' if with_low else '{'}{' TO '.join(ends)}{']' if with_high else '}'}")


def some(parts: Sequence[str]) -> str:
    """One of the parts holds."""
    held = list(dict.fromkeys(parts))
    return held[0] if len(held) == 1 else f"({' '.join(held)})"


def every(parts: Sequence[str], without: Sequence[str] = ()) -> str | None:
    """Each of the parts holds, and none of those that are without; `None` where each article holds it."""
    held = list(dict.fromkeys(parts))
    left_out = list(dict.fromkeys(without))
    if not left_out:
        if not held:
            return None
        if len(held) == 1:
            return held[0]
    signs = [f"+{part}" for part in held] or [EVERY]
    return f"({' '.join([*signs, *(f'-{part}' for part in left_out)])})"
