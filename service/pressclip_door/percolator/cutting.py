"""Texts are cut into words by the program that the door explains queries by."""

from __future__ import annotations

from collections import OrderedDict
from typing import Sequence

from ..explaining import Explainer
from .trouble import Trouble
from .words import Cut

MOST_REMEMBERED = 10_000
MOST_REMEMBERED_CHARACTERS = 200


class ExplainerCutter:
    """Cuts texts, and remembers the last short ones."""

    def __init__(self, explainer: Explainer) -> None:
        self._explainer = explainer
        self._known: OrderedDict[str, tuple[Cut, ...]] = OrderedDict()

    async def cut(self, text: str) -> Sequence[Cut]:
        """The words of a text, in order; `Trouble` where it is too long."""
        known = self._known.get(text)
        if known is not None:
            self._known.move_to_end(text)
            return known
        told = await self._explainer.words(text)
        if "words" not in told:
            raise Trouble("illegal_argument_exception", f"a text can't be cut into words: {told.get('says', told)}")
        cuts = tuple(Cut(one["word"], one["start"], one["end"]) for one in told["words"])
        if len(text) <= MOST_REMEMBERED_CHARACTERS:
            self._known[text] = cuts
            if len(self._known) > MOST_REMEMBERED:
                self._known.popitem(last=False)
        return cuts
