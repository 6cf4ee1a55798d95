"""Characters that are replaced, found fast: those beyond the first plane are looked for only where there is one."""

from __future__ import annotations

import re
from collections.abc import Mapping

_BEYOND = re.compile("[\U00010000-\U0010ffff]")


def has_beyond(text: str) -> bool:
    """Whether a character of the text is beyond the first plane, as emoji are."""
    return _BEYOND.search(text) is not None


class Table:
    """Characters with what takes the place of each."""

    def __init__(self, made: Mapping[str, str]) -> None:
        self._made = made
        self._near = _found([char for char in made if char < "\U00010000"])
        self._beyond = _found([char for char in made if char > "\uffff"])

    def __contains__(self, char: object) -> bool:
        return char in self._made

    def replaced(self, text: str) -> str:
        """The text with each of the characters replaced; one search for each plane where there is none."""
        text = self._near.sub(self._one, text)
        return self._beyond.sub(self._one, text) if has_beyond(text) else text

    def _one(self, match: re.Match[str]) -> str:
        return self._made[match[0]]


def _found(chars: list[str]) -> re.Pattern[str]:
    return re.compile(f"[{re.escape(''.join(chars))}]" if chars else r"(?!)")
