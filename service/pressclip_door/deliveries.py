"""`/deliveries`: what waits to be delivered; and the courier of the settings."""

from __future__ import annotations

import time

from aiohttp import web

from .bodies import of_json
from .courier import Bounds, Courier, Route
from .door import Door
from .explaining import Explainer
from .guard import needs
from .log import Log
from .metrics import Metrics
from .posting import Mail, Post, Webhook
from .settings import Delivery, Settings, secret_of
from .spool import Spool
from .tokens import Role


def route_of(delivery: Delivery) -> Route:
    """The route of a delivery's settings."""
    if delivery.webhook is not None and delivery.secret is not None:
        webhook = Webhook(delivery.webhook, secret_of(delivery.secret))
        return Route(delivery.name, delivery.prefix, webhook, by_query=True)
    host, _, port = delivery.smtp.rpartition(":")
    post = Post(delivery.mail or "", delivery.sender, host, int(port), delivery.starttls, delivery.user,
                delivery.password)
    return Route(delivery.name, delivery.prefix, Mail(post), by_query=False, together=delivery.digest_seconds or None)


def courier_of(settings: Settings, explainer: Explainer, metrics: Metrics, log: Log) -> Courier | None:
    """The courier of the settings; None where they have no deliveries."""
    if not settings.deliveries or settings.spool is None:
        return None
    limits = settings.limits
    bounds = Bounds(limits.first_pause_seconds, limits.most_pause_seconds, limits.deliveries_waiting)
    return Courier(Spool(settings.spool), [route_of(one) for one in settings.deliveries], explainer, bounds, metrics,
                   log)


class Deliveries:
    """The handlers."""

    def __init__(self, door: Door) -> None:
        self._door = door

    @needs(Role.ADMIN)
    async def get(self, request: web.Request) -> web.Response:
        """How many alerts wait on each route, since when, and why the last was not taken."""
        courier = self._door.courier
        if courier is None:
            return of_json({"deliveries": []})
        counts = await courier.counts()
        told = []
        for carriage in courier.carriages:
            count, oldest = counts.get(carriage.route.name, (0, None))
            told.append({"name": carriage.route.name, "prefix": carriage.route.prefix, "waiting": count,
                         "oldest_seconds": None if oldest is None else round(time.time() - oldest, 1),
                         "failure": carriage.last_failure})
        return of_json({"deliveries": told})


def routes(door: Door) -> list[web.RouteDef]:
    """The route of deliveries."""
    return [web.get("/deliveries", Deliveries(door).get)]
