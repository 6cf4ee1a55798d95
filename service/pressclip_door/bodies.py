"""Reading what a request brings."""

from __future__ import annotations

import asyncio
import json
from typing import Any

from aiohttp import web

from .door import Door
from .problems import Problem

Json = dict[str, Any]
JSON_TYPES = ("application/json",)
_WRITER = json.JSONEncoder(ensure_ascii=False)


async def body_of(door: Door, request: web.Request) -> bytes:
    """The whole body; `Problem` where it is too large, of another type than JSON, or slow."""
    if request.headers.get("Content-Type") not in JSON_TYPES and request.content_type not in JSON_TYPES:
        raise Problem("type", "send application/json")
    return await read_all(door, request)


async def read_all(door: Door, request: web.Request) -> bytes:
    """The whole body of any type."""
    limits = door.settings.limits
    if (request.content_length or 0) > limits.body_bytes:
        raise Problem("body", f"at most {limits.body_bytes:,} bytes are taken")
    expected = limits.body_bytes if request.content_length is None else request.content_length
    if door.bytes_read + expected > limits.bodies_bytes:
        raise Problem("behind", "too many bodies are read already", {"Retry-After": "1"})
    if request.content.is_eof():
        return await request.read()
    door.bytes_read += expected
    try:
        async with asyncio.timeout(limits.body_seconds):
            return await request.read()
    except TimeoutError:
        raise Problem("slow", f"the body did not come within {limits.body_seconds:.0f} s") from None
    finally:
        door.bytes_read -= expected


async def object_of(door: Door, request: web.Request) -> Json:
    """The body as a JSON object; `Problem` where it is none."""
    return object_in(await body_of(door, request))


def object_in(text: bytes) -> Json:
    """A text as a JSON object; `Problem` where it is none."""
    try:
        value = json.loads(text.decode())
    except (ValueError, RecursionError) as error:
        raise Problem("json", str(error)) from None
    if b"\\ud" in text.lower() and not is_whole(value):
        raise Problem("json", "half of a surrogate pair")
    if not isinstance(value, dict):
        raise Problem("shape", "a JSON object is asked for")
    return value


def is_whole(value: object) -> bool:
    """Whether the texts in a value have no half of a surrogate pair."""
    try:
        json.dumps(value, ensure_ascii=False).encode()
    except UnicodeEncodeError:
        return False
    return True


def of_json(value: Json, status: int = 200) -> web.Response:
    """An answer of JSON, in one line."""
    return web.Response(text=_WRITER.encode(value) + "\n", status=status, content_type=JSON_TYPES[0])


def with_members(value: Json, needed: dict[str, type], allowed: dict[str, type] | None = None) -> Json:
    """The value, which has these members of these types and no others; `Problem` else."""
    kinds = {**needed, **(allowed or {})}
    for name in needed:
        if name not in value:
            raise Problem("shape", f"the member {name} is missing", member=name)
    for name, member in value.items():
        if name not in kinds:
            raise Problem("shape", f"there is no member {name}", member=name)
        if not isinstance(member, kinds[name]):
            raise Problem("shape", f"the member {name} is of another type", member=name)
    return value


def limit_of(request: web.Request, usual: int, most: int, name: str = "limit") -> int:
    """How many are asked for by a member of the address; as many as usual where it is left out."""
    text = request.query.get(name)
    if text is None:
        return usual
    if not text.isascii() or not text.isdigit() or not 1 <= int(text[:9]) <= most:
        raise Problem("shape", f"{name} is a number from 1 to {most}", member=name)
    return int(text)


def is_asked(request: web.Request, name: str) -> bool:
    """Whether a member of the address is `true`; `Problem` where it is anything but `true` or `false`."""
    text = request.query.get(name, "false") if request.query_string else "false"
    if text not in ("true", "false"):
        raise Problem("shape", f"{name} is true or false", member=name)
    return text == "true"
