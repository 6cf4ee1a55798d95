"""The lines of an example for `crates/examples`: requests or events, and the replies that they are to have."""

from __future__ import annotations

import json
from typing import Any, Callable, Iterable, NamedTuple, Optional, Sequence, Union

# A request, an event or a reply, by the names of its members.
Value = dict[str, Any]


class Turn(NamedTuple):
    """A line, given as it stands or as a value, and its reply but for the number; where hits are shown, also that."""

    line: Union[Value, str, bytes]
    reply: Value
    with_hits: Optional[Value] = None


# What a seed gives: the turns of one example.
Turns = Callable[[int], Iterable[Turn]]


def line_of(value: object) -> str:
    """The value as compact JSON, members in the order of their names."""
    return json.dumps(value, ensure_ascii=False, separators=(",", ":"), sort_keys=True) + "\n"


def written(line: Union[Value, str, bytes]) -> bytes:
    """A request as a line, or a text or bytes as they stand."""
    if isinstance(line, dict):
        return line_of(line).encode()
    return (line.encode() if isinstance(line, str) else line) + b"\n"


def numbered(replies: Sequence[Value]) -> bytes:
    """The replies, each with the number of its line."""
    return "".join(line_of({**reply, "line": number}) for number, reply in enumerate(replies, 1)).encode()


def files_of(name: str, turns: Iterable[Turn]) -> dict[str, bytes]:
    """The files of an example: NAME.jsonl has its lines, NAME.out their replies, and NAME.hits those with hits, where
    its turns have them."""
    played = list(turns)
    files = {f"{name}.jsonl": b"".join(written(turn.line) for turn in played),
             f"{name}.out": numbered([turn.reply for turn in played])}
    with_hits = [turn.with_hits for turn in played if turn.with_hits is not None]
    if with_hits:
        files[f"{name}.hits"] = numbered(with_hits)
    return files
