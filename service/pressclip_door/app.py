"""The application: all routes over one door, started and ended together."""

from __future__ import annotations

import asyncio
import secrets
import time
from typing import Any, AsyncIterator, Coroutine, Sequence

from aiohttp import web

from pressclip_press.sources import as_written
from pressclip_service.engine import command_of
from pressclip_service.lines import MOST_LINE_BYTES
from pressclip_service.taking_over import has_journal

from . import alerts, articles, deliveries, explain, health, lines, openapi, page, percolator, queries
from .broadcasting import Broadcaster
from .catalog import Catalog
from .desk import PressDesk
from .door import Door
from .engine import Engine, Room
from .explaining import Explainer, explainer_command
from .following import Following
from .guard import guarding, sign
from .log import Log
from .metrics import Metrics
from .pipe import Ended
from .ring import Ring
from .settings import CLASSIC, PRESS, Settings
from .tokens import Token
from .trial import Trial

# Addresses are looked for in this order.
MODULES = (articles, queries, alerts, lines, explain, deliveries, health, openapi, percolator, page)


async def dumped(command: Sequence[str]) -> AsyncIterator[bytes]:
    """The lines that a command prints; `Ended` where it ends with another status than 0."""
    process = await asyncio.create_subprocess_exec(*command, stdin=asyncio.subprocess.DEVNULL,
                                                   stdout=asyncio.subprocess.PIPE, limit=2 * MOST_LINE_BYTES)
    assert process.stdout is not None
    async for line in process.stdout:
        yield line
    status = await process.wait()
    if status:
        raise Ended(f"{command[0]} ended with status {status} and could not dump the queries", status)


def door_of(settings: Settings, command: Sequence[str], dump: Sequence[str] | None) -> Door:
    """A door that is not started, over an engine's command; the queries that are there already are those that a
    command dumps."""
    log, metrics, limits = Log(), Metrics(), settings.limits
    catalog = Catalog(as_written) if settings.dialect == PRESS else Catalog()
    ring = Ring(secrets.token_hex(4), limits.alerts_kept, limits.alert_bytes_kept)
    explainer = Explainer(explainer_command())
    following = Following(catalog, ring, metrics, log, limits.articles_kept, settings.dialect == CLASSIC)

    def load() -> Coroutine[Any, Any, None] | None:
        is_there = settings.journal is None or has_journal(settings.journal)
        return catalog.load(dumped(dump)) if dump and is_there else None

    engine = Engine(command, Room(limits.lines_in_flight), following, load)
    plain, excerpted = (Broadcaster(ring, one, metrics, log, limits.unread_bytes, limits.unread_seconds)
                        for one in (None, explainer))
    courier = deliveries.courier_of(settings, explainer, metrics, log)
    following.courier = courier
    trial, desk = Trial([*command_of([], workers=0), "hits"]), PressDesk(settings.profile, explainer)
    return Door(settings, engine, explainer, trial, desk, ring, plain, excerpted, catalog, following, metrics, log,
                courier)


async def start(door: Door) -> None:
    """Starts what the door works with. `EngineFailed` and `Ended` as of an engine."""
    if door.courier:
        await door.courier.start()
    await door.trial.start()
    await door.engine.start()


async def stop(door: Door) -> None:
    """Ends what the door works with: the engine first, which still answers what it owes."""
    await door.engine.stop()
    await door.trial.stop()
    await door.desk.stop()
    if door.courier:
        await door.courier.stop()
    await door.explainer.stop()


def app_of(door: Door, tokens: Sequence[Token]) -> web.Application:
    """The application."""
    app = web.Application(middlewares=[guarding(door, tokens)], client_max_size=door.settings.limits.body_bytes)
    for module in MODULES:
        app.add_routes(module.routes(door))
    app.on_response_prepare.append(sign)

    async def drain(_: web.Application) -> None:
        """Waits until what was accepted is answered, for some seconds."""
        end = time.monotonic() + door.settings.limits.drain_seconds
        while door.handled and time.monotonic() < end:
            await asyncio.sleep(0.01)

    app.on_shutdown.append(drain)
    return app
