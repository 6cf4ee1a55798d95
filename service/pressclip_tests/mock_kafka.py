#!/usr/bin/python3
"""A Kafka to test against: librdkafka's own mock broker, and one client of it.

Prints its address. Reads lines that are JSON lists, and answers each with a line that is one JSON value:
`["put", topic, [value, ..]]`, `["get", topic, count]` for the values from the topic's start, once there are so many or
none comes for some seconds, `["stands", group, topic]` for the offset that the group has kept,
`["stand", group, topic, offset]` to have it keep another, and `["refuse", topic, code]` for the error by which the
topic is refused from then on. Ends with its input.
"""

from __future__ import annotations

import ctypes
import json
import sys
from typing import Callable

from confluent_kafka import Consumer, Producer, TopicPartition  # type: ignore[import]

PATIENCE_SECONDS = 20.0
# A topic of one partition, which requests go to; one of the replies; and one of four partitions.
TOPICS = {b"requests": 1, b"replies": 1, b"many": 4}
_LIBRARY = ctypes.CDLL("librdkafka.so.1")
_PRODUCER = 0


class Mock:
    """The broker."""

    def __init__(self) -> None:
        _LIBRARY.rd_kafka_conf_new.restype = ctypes.c_void_p
        _LIBRARY.rd_kafka_new.restype = ctypes.c_void_p
        _LIBRARY.rd_kafka_mock_cluster_new.restype = ctypes.c_void_p
        _LIBRARY.rd_kafka_mock_cluster_bootstraps.restype = ctypes.c_char_p
        why = ctypes.create_string_buffer(500)
        conf = ctypes.c_void_p(_LIBRARY.rd_kafka_conf_new())
        _LIBRARY.rd_kafka_conf_set(conf, b"log_level", b"0", why, ctypes.c_size_t(500))
        handle = ctypes.c_void_p(_LIBRARY.rd_kafka_new(_PRODUCER, conf, why, ctypes.c_size_t(500)))
        self._cluster = ctypes.c_void_p(_LIBRARY.rd_kafka_mock_cluster_new(handle, 1))
        for topic, partitions in TOPICS.items():
            _LIBRARY.rd_kafka_mock_topic_create(self._cluster, topic, partitions, 1)

    def address(self) -> str:
        """Where it listens."""
        address: bytes = _LIBRARY.rd_kafka_mock_cluster_bootstraps(self._cluster)
        return address.decode()

    def refuse(self, topic: str, code: int) -> None:
        """Has it refuse a topic by an error, or no more by 0."""
        _LIBRARY.rd_kafka_mock_topic_set_error(self._cluster, topic.encode(), code)


class Client:
    """What a test puts in and gets out."""

    def __init__(self, address: str) -> None:
        self._address = address
        self._producer = Producer({"bootstrap.servers": address, "linger.ms": 0})

    def put(self, topic: str, values: list[str]) -> int:
        """Puts values in, and gives how many are kept."""
        for value in values:
            self._producer.produce(topic, value.encode(), b"key of " + value[:20].encode(), 0)
        left: int = self._producer.flush(PATIENCE_SECONDS)
        return len(values) - left

    def get(self, topic: str, count: int) -> list[str]:
        """The values of a topic from its start."""
        consumer = self._consumer("reader")
        consumer.assign([TopicPartition(topic, 0, 0)])
        found: list[str] = []
        while len(found) < count and (record := consumer.poll(PATIENCE_SECONDS)):
            found.append(record.value().decode())
        consumer.close()
        return found

    def stands(self, group: str, topic: str) -> int:
        """The offset that a group has kept, and -1 where it has none."""
        consumer = self._consumer(group)
        (kept,) = consumer.committed([TopicPartition(topic, 0)], timeout=PATIENCE_SECONDS)
        consumer.close()
        offset: int = kept.offset
        return max(offset, -1)

    def stand(self, group: str, topic: str, offset: int) -> None:
        """Has a group keep an offset."""
        consumer = self._consumer(group)
        consumer.commit(offsets=[TopicPartition(topic, 0, offset)], asynchronous=False)
        consumer.close()

    def _consumer(self, group: str) -> Consumer:
        return Consumer({"bootstrap.servers": self._address, "group.id": group, "enable.auto.commit": False})


def main() -> None:
    """Does what the lines ask for."""
    mock = Mock()
    client = Client(mock.address())
    print(mock.address(), flush=True)
    does: dict[str, Callable[..., object]] = {"put": client.put, "get": client.get, "stands": client.stands,
                                              "stand": client.stand, "refuse": mock.refuse}
    for line in sys.stdin:
        word, *rest = json.loads(line)
        print(json.dumps(does[word](*rest)), flush=True)


if __name__ == "__main__":
    main()
