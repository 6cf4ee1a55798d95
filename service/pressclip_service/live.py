"""The live queries that a list of accepted changes leaves, and lines that register them."""

from __future__ import annotations

import json
from typing import Any, Iterable, Iterator

from .lines import MOST_LINE_BYTES

MOST_LISTED = 1_024


def value_of(line: bytes) -> dict[str, Any]:
    """The JSON object of a line that the engine accepted."""
    value: dict[str, Any] = json.loads(line.decode())
    return value


def text_of(value: object) -> bytes:
    """A value as compact JSON; no longer than any other way to write it."""
    return json.dumps(value, ensure_ascii=False, separators=(",", ":")).encode()


def register_lines(items: Iterable[bytes]) -> Iterator[bytes]:
    """Lines, without line feeds, that register listed queries, each given as JSON."""
    front, back = b'{"op":"register","queries":[', b"]}"
    held: list[bytes] = []
    room = MOST_LINE_BYTES - len(front) - len(back)
    size = 0
    for item in items:
        if held and (len(held) == MOST_LISTED or size + len(item) + 1 > room):
            yield front + b",".join(held) + back
            held, size = [], 0
        held.append(item)
        size += len(item) + 1
    if held:
        yield front + b",".join(held) + back


class LiveQueries:
    """The registered queries, by id, each as its listing."""

    def __init__(self) -> None:
        self.by_id: dict[str, dict[str, str]] = {}

    def take(self, line: bytes) -> None:
        """Follows an accepted change."""
        change = value_of(line)
        operation = change["op"]
        if operation == "register":
            for listing in change["queries"]:
                self.by_id.pop(listing["id"], None)
                self.by_id[listing["id"]] = listing
        elif operation == "delete":
            for name in change["ids"]:
                self.by_id.pop(name, None)
        elif operation == "clear":
            self.by_id.clear()

    def lines(self) -> Iterator[bytes]:
        """Lines that register them, in the order in which they were registered last."""
        return register_lines(text_of(listing) for listing in self.by_id.values())
