"""Telling systemd how the service is."""

from __future__ import annotations

import asyncio
import os
import socket
from typing import Callable


def notify(*words: str) -> None:
    """Tells systemd, where it listens, words such as READY=1."""
    address = os.environ.get("NOTIFY_SOCKET")
    if not address:
        return
    with socket.socket(socket.AF_UNIX, socket.SOCK_DGRAM | socket.SOCK_CLOEXEC) as teller:
        try:
            teller.connect("\0" + address[1:] if address.startswith("@") else address)
            teller.sendall("\n".join(words).encode())
        except OSError:
            pass


async def watch(is_well: Callable[[], bool]) -> None:
    """Tells systemd that the service is well, as often as its watchdog wants; not where it isn't."""
    text = os.environ.get("WATCHDOG_USEC", "")
    if not text.isdigit() or os.environ.get("WATCHDOG_PID", str(os.getpid())) != str(os.getpid()):
        return
    while True:
        if is_well():
            notify("WATCHDOG=1")
        await asyncio.sleep(int(text) / 3e6)
