"""`service/connect kafka`: requests from a topic of Kafka, and replies to another."""

from __future__ import annotations

from dataclasses import dataclass, field
from typing import Any, Callable, Sequence

from confluent_kafka import (OFFSET_BEGINNING, Consumer, KafkaError, KafkaException,  # type: ignore[import]
                             Producer, TopicPartition)

from .bridge import Bridge, Message, lines_of
from .errors import ServiceError, tell
from .patience import Patience

PARTITION = 0
TURN_SECONDS = 0.2
MOST_MESSAGE_BYTES = 100_000_000


class KafkaFailed(ServiceError):
    """Kafka refuses, or the topic is not as it has to be."""


@dataclass(frozen=True)
class Place:
    """Where requests come from and replies go: the brokers, the topics, the group whose offsets count, and further
    settings of librdkafka."""

    brokers: str
    requests: str
    replies: str
    group: str
    settings: dict[str, str] = field(default_factory=dict)

    def all(self, own: dict[str, Any]) -> dict[str, Any]:
        """Settings of a client."""
        return {"bootstrap.servers": self.brokers, **self.settings, **own}


class Replies:
    """The topic of replies. A request's offset counts once its replies are there, and those of all requests before."""

    def __init__(self, place: Place, consumer: Consumer, bridge: Bridge) -> None:
        self._place, self._consumer, self._bridge = place, consumer, bridge
        self._producer = Producer(place.all({"enable.idempotence": True, "acks": "all", "linger.ms": 0,
                                             "message.max.bytes": MOST_MESSAGE_BYTES, "log_level": 0}))

    def put(self, message: Message, reply: bytes) -> None:
        """Sends a reply off at once, with the key of its request."""
        def kept(error: KafkaError | None, _: object) -> None:
            if error:
                self._bridge.fail(self._refused(message, reply, error))
            else:
                self._bridge.kept(message)

        while True:
            try:
                self._producer.produce(self._place.replies, reply, message.key, PARTITION, kept)
                return
            except BufferError:
                self._producer.poll(TURN_SECONDS)
            except KafkaException as error:
                raise self._refused(message, reply, error.args[0]) from error

    def _refused(self, message: Message, reply: bytes, error: KafkaError) -> KafkaFailed:
        return KafkaFailed(f"Kafka refuses a reply of {len(reply)} bytes to the request at offset {message.place}:"
                           f" {error.str()}")

    def done(self, message: Message) -> None:
        """The next life begins behind this message."""
        behind = TopicPartition(self._place.requests, PARTITION, message.place + 1)
        try:
            self._consumer.store_offsets(offsets=[behind])
        except KafkaException as error:
            self._bridge.fail(KafkaFailed(f"the offset {message.place} can't be kept: {error.args[0].str()}"))

    def serve(self) -> None:
        """Hears which replies are kept."""
        self._producer.poll(0)


class Source:
    """The topic of requests, which has one partition: changes and articles have one order there alone."""

    def __init__(self, program: str, place: Place) -> None:
        self._program, self._place = program, place
        self._last_error, self._is_open = "no answer", False
        self.consumer = Consumer(place.all({
            "group.id": place.group, "enable.auto.commit": True, "enable.auto.offset.store": False,
            "auto.offset.reset": "error", "auto.commit.interval.ms": 1_000, "error_cb": self._hear, "log_level": 0,
            "fetch.message.max.bytes": MOST_MESSAGE_BYTES, "receive.message.max.bytes": 2 * MOST_MESSAGE_BYTES}))

    def _hear(self, error: KafkaError) -> None:
        self._last_error = error.str()
        if self._is_open and error.code() == KafkaError._ALL_BROKERS_DOWN:
            tell(self._program, f"waits for Kafka at {self._place.brokers}: {error.str()}")

    def open(self, is_over: Callable[[], bool]) -> bool:
        """Waits for Kafka, and goes to where the group stands; whether it is there before the work is over."""
        patience = Patience(self._program)
        while not is_over():
            try:
                topic = self.consumer.list_topics(self._place.requests, timeout=1).topics[self._place.requests]
                self._look_at(topic)
                (kept,) = self.consumer.committed([TopicPartition(self._place.requests, PARTITION)], timeout=1)
            except KafkaException:
                self.consumer.poll(0)
                patience.look(f"waits for Kafka at {self._place.brokers}: {self._last_error}")
                continue
            start = kept.offset if kept.offset >= 0 else OFFSET_BEGINNING
            self.consumer.assign([TopicPartition(self._place.requests, PARTITION, start)])
            self._is_open = True
            return True
        return False

    def _look_at(self, topic: Any) -> None:
        """`KafkaFailed` where the topic is not there, or has many partitions."""
        if topic.error:
            raise KafkaFailed(f"the topic {self._place.requests}: {topic.error.str()}")
        if len(topic.partitions) != 1:
            raise KafkaFailed(f"the topic {self._place.requests} has {len(topic.partitions)} partitions, and"
                              " requests have one order in one partition alone: make a topic of one")

    def next(self) -> Message | None:
        """The next request, if one comes soon; `KafkaFailed` also where Kafka no longer has the group's offset."""
        record = self.consumer.poll(TURN_SECONDS)
        if record is None:
            return None
        if record.error():
            raise KafkaFailed(f"the topic {self._place.requests}: {record.error().str()}")
        return Message(record.offset(), record.key(), lines_of(record.value()))


def connect(program: str, place: Place, command: Sequence[str], is_over: Callable[[], bool]) -> None:
    """Answers the requests of a topic until the work is over; what was read by then is answered, its offset kept."""
    try:
        source = Source(program, place)
    except KafkaException as error:
        raise KafkaFailed(f"librdkafka refuses its settings: {error.args[0].str()}") from error
    if not source.open(is_over):
        return
    bridge = Bridge(program, command, lambda own: Replies(place, source.consumer, own))
    tell(program, f"reads {place.requests} as {place.group}, and writes {place.replies}")
    try:
        while not is_over():
            message = source.next()
            if message:
                bridge.take(message)
            bridge.outlet.serve()
            bridge.look()
        bridge.end()
    finally:
        bridge.drop()
        source.consumer.close()
