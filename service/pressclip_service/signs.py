"""Signs of life: each role gives one a second, with the request that it is at, and sees those of others."""

from __future__ import annotations

import time
from typing import Sequence

from .names import Settings
from .scripts import SIGN
from .store import NoGrid, Store
from .turns import Sign, State

SIGN_SECONDS = 1.0


class Signs:
    """The signs that one role gives."""

    def __init__(self, store: Store, settings: Settings, role: str, others: Sequence[str] = ()) -> None:
        self._store = store
        self._settings = settings
        self._role = role
        self._others = others
        self._given = float("-inf")

    @property
    def is_due(self) -> bool:
        """Whether the last sign was a second ago."""
        return time.monotonic() - self._given >= SIGN_SECONDS

    def give(self, number: int, state: State) -> list[Sign | None]:
        """Gives a sign, and the last signs of the others. `NoGrid` where the grid is gone."""
        self._given = time.monotonic()
        arguments = [self._settings.mark, self._role, number, state.value, *self._others]
        [heard] = self._store.scripted(SIGN, [([self._store.names.prefix], arguments)])
        if heard is None:
            raise NoGrid.gone(self._store.names.grid)
        return [Sign.of(text) for text in heard]
