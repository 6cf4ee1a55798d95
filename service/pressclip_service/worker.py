"""A worker: beside one engine, for one shard and one replica of it.

It reads all requests in their order, hands its engine the part that is its own, and tells the answers that are its own
under the ids of the requests. Started anew it builds the engine from the shard's snapshot and the requests behind it,
and answers again what is not kept.
"""

from __future__ import annotations

from typing import Sequence

from .ends import Ends
from .engine import Engine
from .errors import EngineDied, ServiceError, tell
from .names import Settings
from .session import Place, Session, TakesOver
from .snapshots import Replaced
from .store import Store
from .teller import NotHeld


def _answer(store: Store, settings: Settings, place: Place, engine: Engine) -> None:
    """Answers with one engine, which is gone at the end."""
    try:
        Session(store, settings, place, engine).run()
    finally:
        engine.kill()


def work(store: Store, shard: int, replica: int, command: Sequence[str]) -> None:
    """Answers for a shard and a replica, with one engine after another where they end. `EngineFailed` where six in a
    row ended and none of them came further than those before."""
    settings = store.settings()
    if not (0 <= shard < settings.shards and 0 <= replica < settings.replicas):
        raise ServiceError(f"there is no shard {shard} with a replica {replica} in this grid: {settings}")
    place = Place(shard, replica, settings.replicas)
    ends, furthest = Ends(), place.furthest
    while True:
        try:
            _answer(store, settings, place, Engine(command))
        except (Replaced, NotHeld, TakesOver) as why:
            tell(store.program, f"{why}; it begins anew")
        except EngineDied as error:
            if place.furthest > furthest:
                ends.replied()
            furthest = place.furthest
            ends.ended(str(error))
            tell(store.program, f"{error}; another one is built")
