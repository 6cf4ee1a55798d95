#!/usr/bin/python3
"""Listens to alerts over so many connections, says when all are open, and prints the delay of each block of alerts.

The id of an article is when it was sent; of a block the first alert counts, which waited longest. Ends once each
connection has heard so many alerts, or where none comes for some seconds.
"""

from __future__ import annotations

import json
import re
import select
import socket
import sys
import time

PATIENCE_SECONDS = 10.0
ARTICLE = re.compile(rb'"article":"(\d+)"')


def opened(port: int) -> socket.socket:
    """A connection whose answer has begun."""
    connection = socket.create_connection(("127.0.0.1", port))
    connection.sendall(b"GET /alerts HTTP/1.1\r\nHost: 127.0.0.1\r\n\r\n")
    head = b""
    while not head.endswith(b"\r\n\r\n"):
        head += connection.recv(1)
    if b" 200 " not in head:
        sys.exit(f"{head!r}")
    connection.setblocking(False)
    return connection


def main(port: int, count: int, alerts: int) -> None:
    """Listens."""
    by_number = {connection.fileno(): connection for connection in (opened(port) for _ in range(count))}
    left = {number: alerts for number in by_number}
    poll = select.epoll()
    for number in by_number:
        poll.register(number, select.EPOLLIN)
    print("open", flush=True)
    delays: list[float] = []
    while left and (ready := poll.poll(PATIENCE_SECONDS)):
        for number, _ in ready:
            block = by_number[number].recv(1 << 16)
            now = time.monotonic_ns()
            sent = ARTICLE.findall(block)
            if sent:
                delays.append((now - int(sent[0])) / 1e6)
                left[number] -= len(sent)
            if not block or left[number] <= 0:
                del left[number]
                poll.unregister(number)
    print(json.dumps(delays))


if __name__ == "__main__":
    main(*map(int, sys.argv[1:]))
