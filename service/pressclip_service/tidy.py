"""Tidying: snapshots of the shards, and streams cut off below what everybody has passed."""

from __future__ import annotations

import time

from .errors import tell
from .lives import forget_what_is_over
from .names import TIDIER, Id, worker_name
from .signs import Signs
from .snapshots import Replaced, live_at, replace, snapshot_of
from .store import PAUSE_SECONDS, Store
from .turns import State


class Tidier:
    """Makes snapshots once enough requests were answered, and then drops what nobody needs; forgets clients whose life
    is over."""

    def __init__(self, store: Store, after: int) -> None:
        self.store = store
        self.after = after
        self.settings = store.settings()
        self.workers = [worker_name(shard, replica) for shard in range(self.settings.shards)
                        for replica in range(self.settings.replicas)]

    def run(self) -> None:
        """Tidies whenever the stream is long enough; ends by an error alone."""
        signs = Signs(self.store, self.settings, TIDIER)
        while True:
            if signs.is_due:
                signs.give(min(snapshot_of(self.store, shard).number for shard in range(self.settings.shards)),
                           State.READY)
                self.forget()
            if self.store.do(lambda client: client.xlen(self.store.names.requests)) > self.after:
                self.tidy()
            time.sleep(PAUSE_SECONDS * 5)

    def forget(self) -> None:
        """Forgets clients whose life is over."""
        for name in forget_what_is_over(self.store):
            tell(self.store.program, f"forgets {name}, whose life is over")

    def passed(self) -> Id:
        """Up to which request all have answered, all replies are kept, and nobody needs the stream."""
        answered = self.store.positions(self.store.names.answered)
        needs = self.store.positions(self.store.names.needs)
        lowest = Id(0, 0)
        told = (min(answered.get(name, lowest), needs.get(name, answered.get(name, lowest))) for name in self.workers)
        return min(self.store.kept(), *told)

    def tidy(self) -> bool:
        """A snapshot of each shard at what all have passed, and what stands before it dropped; False where another
        program did so meanwhile."""
        target = self.passed()
        kept: list[Id] = []
        for shard in range(self.settings.shards):
            snapshot = snapshot_of(self.store, shard)
            if snapshot.at < target:
                try:
                    live, number = live_at(self.store, shard, self.settings.shards, snapshot, target)
                except Replaced:
                    return False
                if not replace(self.store, shard, snapshot, live, target, number):
                    return False
            kept.append(max(snapshot.at, target))
        self._trim(min(*kept, self.passed()) if kept else target)
        return True

    def _trim(self, up_to: Id) -> None:
        """Drops requests before a place; that one itself may stay."""
        dropped = self.store.asked("XTRIM", self.store.names.requests, "MINID", up_to.text())
        if dropped:
            tell(self.store.program, f"snapshots stand at {up_to.text()}; {dropped} requests dropped")
