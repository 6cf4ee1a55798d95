"""What is read off a reply of the engine by its bytes alone, with no JSON value made of it.

Members of a reply stand in byte order of their names and no spaces stand between them. A quotation mark inside a text
is written with a backslash, so `,"line":` occurs where the member stands and nowhere else.
"""

from __future__ import annotations

from enum import Enum

from .errors import EngineFailed

_LINE_FIRST = b'{"line":'
_LINE_LATER = b',"line":'


class Kind(Enum):
    """What a reply says of its line."""

    REGISTERED = "registered"
    DELETED = "deleted"
    CLEARED = "cleared"
    COUNTED = "count"
    REFUSED = "refused"
    OTHER = "other"


CHANGES = frozenset({Kind.REGISTERED, Kind.DELETED, Kind.CLEARED})
_REFUSED_CHANGES = (b',"refused":"query"', b',"refused":"listener"', b',"refused":"full"')


def place_of_number(reply: bytes) -> tuple[int, int]:
    """Where the digits of the line's number stand, from and to."""
    if reply.startswith(_LINE_FIRST):
        start = len(_LINE_FIRST)
    else:
        start = reply.find(_LINE_LATER) + len(_LINE_LATER)
        if start < len(_LINE_LATER):
            raise EngineFailed(f"the engine answered what is no reply: {reply[:80]!r}")
    end = start
    while reply[end:end + 1].isdigit():
        end += 1
    return start, end


def number_of(reply: bytes) -> int:
    """The number of the line that is answered."""
    start, end = place_of_number(reply)
    if start == end:
        raise EngineFailed(f"the engine answered what is no reply: {reply[:80]!r}")
    return int(reply[start:end])


def renumbered(reply: bytes, number: int) -> bytes:
    """The reply as one to the line of this number."""
    start, end = place_of_number(reply)
    return b"%b%d%b" % (reply[:start], number, reply[end:])


def kind_of(reply: bytes) -> Kind:
    """What the reply says of its line."""
    if reply.startswith(b'{"alerts":'):
        return Kind.OTHER
    for front, kind in ((b'{"deleted":', Kind.DELETED), (b'{"cleared":', Kind.CLEARED), (b'{"count":', Kind.COUNTED)):
        if reply.startswith(front):
            return kind
    after = reply[place_of_number(reply)[1]:]
    if after.startswith(b',"registered":'):
        return Kind.REGISTERED
    return Kind.REFUSED if after.startswith(b',"refused":') else Kind.OTHER


def asks_change(reply: bytes) -> bool:
    """Whether the line that is answered so asks for a change, as a journal keeps it also where it is refused."""
    return kind_of(reply) in CHANGES or reply[place_of_number(reply)[1]:].startswith(_REFUSED_CHANGES)


def count_in(reply: bytes) -> int:
    """The count that a reply to a change or to a count gives."""
    if reply.startswith(_LINE_FIRST):
        return int(reply[reply.rindex(b":") + 1:reply.rindex(b"}")])
    return int(reply[reply.index(b":") + 1:reply.index(b",")])
