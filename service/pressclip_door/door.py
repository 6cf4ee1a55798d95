"""What all routes of the door work with."""

from __future__ import annotations

import asyncio
from dataclasses import dataclass, field

from .broadcasting import Broadcaster
from .catalog import Catalog
from .courier import Courier
from .desk import PressDesk
from .engine import Engine
from .explaining import Explainer
from .following import Following
from .log import Log
from .metrics import Metrics
from .ring import Ring
from .settings import CLASSIC, Settings
from .trial import Trial


@dataclass
class Door:
    """One door. `handled` counts the requests that are worked on, and `bytes_read` the bytes of bodies that are read;
    `draining` is set once the end has begun."""

    settings: Settings
    engine: Engine
    explainer: Explainer
    trial: Trial
    desk: PressDesk
    ring: Ring
    plain: Broadcaster
    excerpted: Broadcaster
    catalog: Catalog
    following: Following
    metrics: Metrics
    log: Log
    courier: Courier | None = None
    handled: int = 0
    bytes_read: int = 0
    draining: asyncio.Event = field(default_factory=asyncio.Event)

    @property
    def shows_hits(self) -> bool:
        """Whether the engine's replies to matches have hits, and these are places in the articles as they came."""
        return self.engine.shows_hits and self.settings.dialect == CLASSIC

    @property
    def is_draining(self) -> bool:
        """Whether the end has begun."""
        return self.draining.is_set()

    def spool_has_room(self) -> bool:
        """Whether alerts may come that have to be delivered."""
        return self.courier is None or self.courier.has_room()
