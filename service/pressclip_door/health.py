"""`/healthz`, `/readyz` and `/metrics`."""

from __future__ import annotations

import time
from pathlib import Path

from aiohttp import web
from prometheus_client import CONTENT_TYPE_LATEST, generate_latest

from pressclip_service.taking_over import OWN

from .bodies import of_json
from .dialects import dialects_of
from .door import Door
from .guard import needs
from .tokens import Role


class Health:
    """The handlers."""

    def __init__(self, door: Door) -> None:
        self._door = door

    @needs(Role.OPEN)
    async def health(self, request: web.Request) -> web.Response:
        """That the door lives, and the dialects of queries that it knows, its own first."""
        return of_json({"is_alive": True, "dialects": dialects_of(self._door)})

    @needs(Role.OPEN)
    async def ready(self, request: web.Request) -> web.Response:
        """Whether it answers now."""
        is_ready = self._door.engine.is_ready and not self._door.is_draining
        said = {"is_ready": is_ready, "queries": len(self._door.catalog), "shows_hits": self._door.shows_hits,
                "changes": self._door.following.changes}
        return of_json(said, status=200 if is_ready else 503)

    async def metrics(self, request: web.Request) -> web.Response:
        """The figures."""
        await self._measure()
        text = generate_latest(self._door.metrics.registry)
        return web.Response(body=text, headers={"Content-Type": CONTENT_TYPE_LATEST})

    async def _measure(self) -> None:
        """Sets what is measured when it is asked for."""
        door, metrics = self._door, self._door.metrics
        metrics.queries.set(len(door.catalog))
        metrics.in_flight.set(door.engine.in_flight)
        if door.settings.journal is not None:
            metrics.journal_bytes.set(size_of(door.settings.journal / OWN))
        if door.courier is not None:
            counts = await door.courier.counts()
            for carriage in door.courier.carriages:
                count, oldest = counts.get(carriage.route.name, (0, None))
                metrics.waiting.labels(carriage.route.name).set(count)
                seconds = 0.0 if oldest is None else time.time() - oldest
                metrics.waiting_seconds.labels(carriage.route.name).set(seconds)


def size_of(path: Path) -> int:
    """The size of a file; 0 where there is none."""
    try:
        return path.stat().st_size
    except OSError:
        return 0


def routes(door: Door) -> list[web.RouteDef]:
    """The routes of health."""
    health = Health(door)
    return [web.get("/healthz", health.health), web.get("/readyz", health.ready), web.get("/metrics", health.metrics)]
