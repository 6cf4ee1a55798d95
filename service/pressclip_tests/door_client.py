#!/usr/bin/python3
"""A client on aiohttp: reads acts from standard input, each a method, a path and a body, and prints what came of them.

The method LISTEN takes so many messages of a WebSocket, and posts a body before it takes them.
"""

from __future__ import annotations

import asyncio
import json
import sys
from typing import Any

import aiohttp


async def listen(session: aiohttp.ClientSession, path: str, body: dict[str, Any]) -> object:
    """So many messages of a WebSocket, and the code by which it was closed after a message to it."""
    async with session.ws_connect(path) as socket:
        async with session.post(body["post"], json=body["body"]) as answer:
            await answer.read()
        heard = [json.loads(await socket.receive_str(timeout=20)) for _ in range(body["count"])]
        await socket.send_str("hello")
        await socket.receive(timeout=20)
        return [heard, socket.close_code]


async def act(session: aiohttp.ClientSession, method: str, path: str, body: Any) -> object:
    """What came of one act."""
    if method == "LISTEN":
        return await listen(session, path, body)
    async with session.request(method, path, json=body) as answer:
        return [answer.status, await answer.json(content_type=None)]


async def main(address: str) -> None:
    """Does all acts in turn."""
    async with aiohttp.ClientSession(address) as session:
        print(json.dumps([await act(session, *one) for one in json.load(sys.stdin)]))


if __name__ == "__main__":
    asyncio.run(main(sys.argv[1]))
