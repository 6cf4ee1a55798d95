"""The gatherer: keeps what the workers told, once all shards have told it.

It runs a script again and again, which does all of it at once in Redis. Many replies share one sync of the disk; nobody
waits for it but clients that ask for replies to lines of an earlier life. One at a time does the work; a second one
does no harm.
"""

from __future__ import annotations

import time

from .names import GATHERER
from .scripts import KEEP
from .signs import Signs
from .store import Store
from .turns import State

PAUSE_SECONDS = 0.25
MOST_ANSWERS = 1_024
MOST_BYTES = 4 << 20


def gather(store: Store) -> None:
    """Keeps replies as they are told; ends by an error alone."""
    settings = store.settings()
    signs = Signs(store, settings, GATHERER)
    most = max(1, MOST_ANSWERS // settings.shards)
    while True:
        if signs.is_due:
            signs.give(store.kept_number(), State.READY)
        [has_more] = store.scripted(KEEP, [([store.names.prefix], [most, MOST_BYTES])])
        if not has_more:
            time.sleep(PAUSE_SECONDS)
