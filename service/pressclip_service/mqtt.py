"""`service/connect mqtt`: requests from a topic of an MQTT broker, and replies to another."""

from __future__ import annotations

import threading
from dataclasses import dataclass
from pathlib import Path
from typing import Any, Callable, Sequence

from paho.mqtt import client as mqtt

from .bridge import Bridge, Message, lines_of
from .errors import ServiceError, tell
from .patience import Patience

USUAL_PORT = 1883
USUAL_TLS_PORT = 8883
TURN_SECONDS = 0.2
PAUSE_SECONDS = 0.5
REFUSED_SUBSCRIPTION = 128


class BrokerRefuses(ServiceError):
    """The broker refuses a connection or a subscription."""


@dataclass(frozen=True)
class Place:
    """Where requests come from and replies go: the broker, the topics, and under which name its session is kept."""

    host: str
    port: int
    requests: str
    replies: str
    client: str
    user: str | None = None
    password: str | None = None
    authorities: Path | None = None

    def opened(self, name: str, is_kept: bool) -> mqtt.Client:
        """A client that is not connected yet; where its session is kept, the broker holds what comes meanwhile."""
        client = mqtt.Client(name, clean_session=not is_kept)
        if self.user is not None:
            client.username_pw_set(self.user, self.password)
        if self.authorities is not None:
            client.tls_set(str(self.authorities))
        client.connect_async(self.host, self.port)
        return client


class Replies:
    """The topic of replies, over a connection of its own."""

    def __init__(self, place: Place, bridge: Bridge) -> None:
        self._place, self._bridge = place, bridge
        self._kept: set[int] = set()
        self._changed = threading.Condition()
        self._client = place.opened(f"{place.client}-replies", is_kept=False)
        self._client.on_publish = self._hear
        self._client.loop_start()

    def _hear(self, client: mqtt.Client, data: object, number: int) -> None:
        with self._changed:
            self._kept.add(number)
            self._changed.notify_all()

    def put(self, message: Message, reply: bytes) -> None:
        """Sends a reply off, and waits until the broker has it."""
        number = self._client.publish(self._place.replies, reply, qos=1).mid
        with self._changed:
            self._changed.wait_for(lambda: number in self._kept)
            self._kept.remove(number)
        self._bridge.kept(message)

    def done(self, message: Message) -> None:
        """The broker hears that a request is done once its handler returns."""

    def serve(self) -> None:
        """The client's own thread hears what is kept."""


class Source:
    """The topic of requests: one at a time, and the broker hears that one is done once its replies are kept."""

    def __init__(self, program: str, place: Place) -> None:
        self._program, self._place = program, place
        self._patience = Patience(program)
        self._client = place.opened(place.client, is_kept=True)
        self._client.on_connect = self._subscribe
        self._client.on_subscribe = self._look_at_grant
        self._client.on_message = self._take
        self._is_connected = False
        self.bridge: Bridge | None = None

    def _subscribe(self, client: mqtt.Client, data: object, flags: dict[str, Any], code: int) -> None:
        if code:
            raise BrokerRefuses(f"the broker refuses the connection: {mqtt.connack_string(code)}")
        client.subscribe(self._place.requests, qos=1)

    def _look_at_grant(self, client: mqtt.Client, data: object, number: int, granted: Sequence[int]) -> None:
        if REFUSED_SUBSCRIPTION in granted:
            raise BrokerRefuses(f"the broker refuses the subscription to {self._place.requests}")
        tell(self._program, f"reads {self._place.requests} as {self._place.client}, and writes {self._place.replies}")

    def _take(self, client: mqtt.Client, data: object, given: mqtt.MQTTMessage) -> None:
        """Has a request answered, and waits until its replies are kept."""
        assert self.bridge
        message = Message(given.mid, None, lines_of(given.payload))
        self.bridge.take(message)
        self.bridge.wait_for(message)

    def turn(self) -> None:
        """Takes what comes soon; connects where that has to be."""
        if not self._is_connected:
            try:
                self._client.reconnect()
            except OSError as error:
                where = f"{self._place.host}:{self._place.port}"
                self._patience.look(f"waits for MQTT at {where}: {error.strerror or error}")
                threading.Event().wait(PAUSE_SECONDS)
                return
            self._is_connected = True
        self._patience.begin()
        self._is_connected = self._client.loop(TURN_SECONDS) == mqtt.MQTT_ERR_SUCCESS

    def close(self) -> None:
        """Takes leave; the broker keeps the session."""
        self._client.disconnect()


def connect(program: str, place: Place, command: Sequence[str], is_over: Callable[[], bool]) -> None:
    """Answers the requests of a topic until the work is over."""
    source = Source(program, place)
    bridge = source.bridge = Bridge(program, command, lambda own: Replies(place, own))
    try:
        while not is_over():
            source.turn()
            bridge.look()
        bridge.end()
    finally:
        bridge.drop()
        source.close()
