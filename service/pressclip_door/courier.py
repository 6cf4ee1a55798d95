"""Delivering alerts: each is on disk before its reply goes out, and is let go once it was taken where it goes."""

from __future__ import annotations

import asyncio
import json
import sqlite3
import time
from concurrent.futures import ThreadPoolExecutor
from dataclasses import dataclass
from hashlib import sha256
from typing import Any, Callable, Sequence, TypeVar

from pressclip_service.errors import EngineFailed

from .explaining import Explainer
from .log import Log
from .marking import Marker
from .metrics import Metrics
from .pipe import Behind, Ended
from .posting import Carrier, NotDelivered
from .raised import Raised
from .ring import compact
from .spool import Parcel, Spool

Json = dict[str, Any]
Result = TypeVar("Result")
SECONDS_OF_EXCERPTS = 5.0
MOST_AT_ONCE = 16
MOST_IN_A_ROW = 20
MOST_IN_A_MESSAGE = 500
HEADS_AT_ONCE = 64
SECONDS_TO_END = 5.0


class NotSpooled(Exception):
    """Alerts could not be kept, so that their replies may not go out."""


@dataclass(frozen=True)
class Bounds:
    """How long to wait behind a failure, first and at most, and how many parcels may wait."""

    first: float
    most: float
    waiting: int

    def pause_after(self, failures: int) -> float:
        """The pause behind so many failures in a row."""
        return min(self.most, self.first * 2.0 ** min(failures - 1, 30))


@dataclass(frozen=True)
class Route:
    """Where the alerts of the queries whose ids begin with the prefix go. With `together` those of so many seconds go
    in one message; None where each goes by itself, and in order of its query alone."""

    name: str
    prefix: str
    carrier: Carrier
    by_query: bool
    together: float | None = None


def id_of(raised: Raised, query: str) -> str:
    """The id of an alert: the same where the same article comes again."""
    text = json.dumps([query, raised.article, raised.fields], sort_keys=True)
    return sha256(text.encode()).hexdigest()[:32]


class Courier:
    """Keeps alerts for their routes, and carries them. `start` it, and `stop` it."""

    def __init__(self, spool: Spool, routes: Sequence[Route], explainer: Explainer, bounds: Bounds, metrics: Metrics,
                 log: Log) -> None:
        self._spool = spool
        self._explainer = explainer
        self._bounds = bounds
        self._thread = ThreadPoolExecutor(1, "spool")
        self._waiting = 0
        self.carriages = [Carriage(self, route, bounds, metrics, log) for route in routes]
        self._tasks: list[asyncio.Task[None]] = []

    def has_room(self) -> bool:
        """Whether alerts may come."""
        return self._waiting < self._bounds.waiting

    async def start(self) -> None:
        """Goes on with what waits."""
        self._waiting = sum(count for count, _ in (await self.counts()).values())
        self._tasks = [asyncio.create_task(carriage.run()) for carriage in self.carriages]

    async def stop(self) -> None:
        """Ends; what was not carried waits on disk."""
        for task in self._tasks:
            task.cancel()
        await asyncio.gather(*self._tasks, return_exceptions=True)
        for carriage in self.carriages:
            await carriage.stop()
        await self.in_thread(self._spool.close)
        self._thread.shutdown()

    async def counts(self) -> dict[str, tuple[int, float]]:
        """How many wait on each route, and since when the oldest does."""
        return await self.in_thread(self._spool.counts)

    async def in_thread(self, work: Callable[..., Result], *values: object) -> Result:
        """What a call of the spool gives, in its thread."""
        return await asyncio.get_running_loop().run_in_executor(self._thread, work, *values)

    def spool(self) -> Spool:
        """The spool, for calls in its thread."""
        return self._spool

    async def drop(self, parcels: Sequence[Parcel]) -> None:
        """Lets parcels go that were taken."""
        await self.in_thread(self._spool.drop, [parcel.number for parcel in parcels])
        self._waiting -= len(parcels)

    def is_wanted(self, queries: Sequence[str]) -> bool:
        """Whether an alert of one of these queries goes anywhere."""
        return any(query.startswith(carriage.route.prefix) for carriage in self.carriages for query in queries)

    async def keep(self, alerts: Sequence[Raised]) -> None:
        """Keeps alerts for their routes, synced; `NotSpooled` where the disk does not take them."""
        parcels: list[Parcel] = []
        for raised in alerts:
            parcels += await self._parcels(raised)
        try:
            await self.in_thread(self._spool.put, parcels)
        except sqlite3.Error as error:
            raise NotSpooled(str(error)) from None
        self._waiting += len(parcels)
        for carriage in self.carriages:
            carriage.news.set()

    async def _parcels(self, raised: Raised) -> list[Parcel]:
        """The parcels that an article brings."""
        found: list[Parcel] = []
        marker = Marker(self._explainer, raised.fields)
        for place, query in enumerate(raised.queries):
            names = [one.route.name for one in self.carriages if query.startswith(one.route.prefix)]
            if not names:
                continue
            excerpts = await excerpts_of(marker, query, raised.hits[place] if raised.hits else ())
            name = id_of(raised, query)
            for route in names:
                body = compact({"id": name, "at": raised.at, "route": route, "query": query,
                                "article": raised.article, "excerpts": excerpts})
                found.append(Parcel(0, route, query, name, raised.at, body))
        return found


async def excerpts_of(marker: Marker, query: str, hits: Sequence[Json]) -> list[Json]:
    """The excerpts of an alert; none where the words can't be had, or not in time."""
    try:
        excerpts = await asyncio.wait_for(marker.excerpts(query, hits), SECONDS_OF_EXCERPTS)
    except (asyncio.TimeoutError, Behind, Ended, EngineFailed):
        return []
    return [{"field": one["field"], "pieces": one["pieces"]} for one in excerpts]


class Carriage:
    """The work on one route."""

    def __init__(self, courier: Courier, route: Route, bounds: Bounds, metrics: Metrics, log: Log) -> None:
        self.route = route
        self.news = asyncio.Event()
        self.last_failure: str | None = None
        self._courier = courier
        self._bounds = bounds
        self._log = log
        self._taken = metrics.deliveries.labels(route.name, "taken")
        self._failed = metrics.deliveries.labels(route.name, "failed")
        self._failures = 0
        self._route_due = 0.0
        # Queries that wait after a failure: how often they failed in a row, and when they are due again.
        self._paused: dict[str, tuple[int, float]] = {}
        self._active: dict[str, asyncio.Task[None]] = {}
        self._after = ""

    async def run(self) -> None:
        """Carries as parcels come, until it is cancelled."""
        while True:
            self.news.clear()
            try:
                wait = await (self._start_lanes() if self.route.by_query else self._carry_first())
            except sqlite3.Error as error:
                self._log.event("spool failed", route=self.route.name, why=str(error))
                wait = self._bounds.most
            try:
                await asyncio.wait_for(self.news.wait(), wait)
            except asyncio.TimeoutError:
                pass

    async def stop(self) -> None:
        """Lets what is on its way come to its end, for some seconds."""
        if self._active:
            await asyncio.wait(list(self._active.values()), timeout=SECONDS_TO_END)
        for task in list(self._active.values()):
            task.cancel()
        await self.route.carrier.close()

    async def _start_lanes(self) -> float | None:
        """Starts on queries that are due, each in a task. Gives after how long to look again, if not for news."""
        now = time.monotonic()
        if now < self._route_due:
            return self._route_due - now
        most = 1 if self._failures else MOST_AT_ONCE
        turned = False
        while len(self._active) < most:
            spool = self._courier.spool()
            heads = await self._courier.in_thread(spool.heads, self.route.name, self._after, HEADS_AT_ONCE)
            for parcel in heads:
                if len(self._active) >= most:
                    break
                self._after = parcel.query
                if parcel.query not in self._active and self._paused.get(parcel.query, (0, 0.0))[1] <= now:
                    self._active[parcel.query] = asyncio.create_task(self._carry_lane(parcel))
            if len(heads) < HEADS_AT_ONCE and len(self._active) < most:
                self._after = ""
                if turned:
                    break
                turned = True
        due = min((due for _, due in self._paused.values()), default=None)
        return None if due is None else max(0.01, due - time.monotonic())

    async def _carry_lane(self, parcel: Parcel | None) -> None:
        """Carries parcels of one query in their order, as long as they are taken."""
        assert parcel is not None
        query = parcel.query
        spool = self._courier.spool()
        try:
            for _ in range(MOST_IN_A_ROW):
                if parcel is None or not await self._carry([parcel]):
                    break
                self._paused.pop(query, None)
                parcel = await self._courier.in_thread(spool.head, self.route.name, query)
        finally:
            del self._active[query]
            self.news.set()

    async def _carry_first(self) -> float | None:
        """Carries what is due in the order of all, one message. Gives after how long to look again, if not for news."""
        now = time.monotonic()
        if now < self._route_due:
            return self._route_due - now
        parcels = await self._courier.in_thread(self._courier.spool().first, self.route.name, MOST_IN_A_MESSAGE)
        if not parcels:
            return None
        together = self.route.together
        if together is None:
            parcels = parcels[:1]
        else:
            turn = parcels[0].at // together
            left = (turn + 1) * together - time.time()
            if left > 0:
                return left
            parcels = [parcel for parcel in parcels if parcel.at // together == turn]
        await self._carry(parcels)
        return max(0.0, self._route_due - time.monotonic())

    async def _carry(self, parcels: Sequence[Parcel]) -> bool:
        """Carries parcels together; whether they were taken."""
        try:
            await self.route.carrier.carry(parcels)
            await self._courier.drop(parcels)
        except NotDelivered as failure:
            self._fail(parcels[0], failure)
            return False
        except sqlite3.Error as error:
            self._fail(parcels[0], NotDelivered(f"the spool failed: {error}", is_route=True))
            return False
        self._taken.inc(len(parcels))
        self._failures = 0
        self.last_failure = None
        return True

    def _fail(self, parcel: Parcel, failure: NotDelivered) -> None:
        """Has the route wait, or the query."""
        self._failed.inc()
        self.last_failure = str(failure)
        if failure.is_route:
            self._failures += 1
            pause = self._bounds.pause_after(self._failures)
            self._route_due = time.monotonic() + pause
        else:
            failures = self._paused.get(parcel.query, (0, 0.0))[0] + 1
            pause = self._bounds.pause_after(failures)
            self._paused[parcel.query] = (failures, time.monotonic() + pause)
        self._log.event("not delivered", route=self.route.name, query=parcel.query, id=parcel.id, why=str(failure),
                        pause=round(pause, 2))
