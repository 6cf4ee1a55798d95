"""Texts backwards: their words by their ends, for wildcards in front."""

from __future__ import annotations

import regex

_NOT_BY_CHARACTERS = regex.compile(r"[\p{M}\p{Cf}]")
_CLUSTER = regex.compile(r"\X")


def backwards(text: str) -> str:
    """The text with its characters in the other order, each with its accents."""
    if text.isascii() or not _NOT_BY_CHARACTERS.search(text):
        return text[::-1]
    return "".join(reversed(_CLUSTER.findall(text)))
