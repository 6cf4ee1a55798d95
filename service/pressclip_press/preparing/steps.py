"""What a step of preparing is: a function of a text, with its rule and a table of cases."""

from __future__ import annotations

import re
from collections.abc import Callable, Collection, Iterable
from dataclasses import dataclass

Change = Callable[[str], str]
Needs = Callable[[str], bool]


def one_of(characters: str) -> Needs:
    """Whether a character is one of these, which are written as a class of an expression is."""
    expression = re.compile(f"[{characters}]")
    return lambda char: expression.match(char) is not None


@dataclass(frozen=True)
class Step:
    """A step: its name in a profile, its rule in a sentence, texts with what it makes of them, and which characters it
    needs: a text without any of them it leaves as it is."""

    name: str
    rule: str
    change: Change
    cases: tuple[tuple[str, str], ...]
    needs: Needs
    # Whether it makes characters that a later step may need.
    makes_more: bool = False


class Steps:
    """Steps one after the other, without those of whose characters a text has none."""

    def __init__(self, steps: Iterable[Step], names: Collection[str]) -> None:
        self._steps = [step for step in steps if step.name in names]
        self._of_ascii = [step.change for step in self._steps if any(map(step.needs, map(chr, range(128))))]
        self._needed = _Needed(self._steps)
        self._chosen: dict[int, list[Change]] = {}

    def __call__(self, text: str) -> str:
        """The text changed. Cost: one walk over it for each step that is needed, and one more."""
        if text.isascii():
            changes = self._of_ascii
        else:
            needed = 0
            for char in set(text):
                needed |= self._needed[char]
            changes = self._chosen.get(needed) or self._choice(needed)
        for change in changes:
            text = change(text)
        return text

    def _choice(self, needed: int) -> list[Change]:
        """The steps of these bits, and all behind one that makes more."""
        made: list[Change] = []
        takes_all = False
        for number, step in enumerate(self._steps):
            if takes_all or needed >> number & 1:
                made.append(step.change)
                takes_all = takes_all or step.makes_more
        self._chosen[needed] = made
        return made


class _Needed(dict[str, int]):
    """For each character the steps that need it, as bits."""

    def __init__(self, steps: list[Step]) -> None:
        super().__init__()
        self._steps = steps

    def __missing__(self, char: str) -> int:
        bits = sum(1 << number for number, step in enumerate(self._steps) if step.needs(char))
        self[char] = bits
        return bits
