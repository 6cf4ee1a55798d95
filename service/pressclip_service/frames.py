"""Frames: how a journal of before lies in its file.

A frame is a magic that no text has (its first byte is none of UTF-8's), a kind, the length of its payload, a number, a
link, a checksum over all of that and the payload, and the payload. The link is a digest over the link of the record
before and over what this one says, so a record that is missing, doubled or swapped is seen. The checksum says whether a
frame is whole by itself: what is synced at once is one frame, so a crash tears the last frame and no other.

Frames of form 1 have no link.
"""

from __future__ import annotations

import mmap
import struct
import zlib
from dataclasses import dataclass
from hashlib import blake2b
from typing import Iterator, Union

LINK_BYTES = 16
# The link that the first record goes on from.
FIRST_LINK = bytes(LINK_BYTES)
MAGIC_FRONT = b"\xffPJ"
_SAID = struct.Struct("<BIQ")
_SUM = struct.Struct("<I")
_HEAD = struct.Struct(f"<QQ{LINK_BYTES}s")

# The first frame: its number is how many changes were accepted before this file, its payload a `Head`.
HEAD = 0
# Lines that register the queries that were live then.
LIVE = 1
# Accepted changes, a line each: the number is how many were accepted before them.
CHANGES = 2

Data = Union[bytes, mmap.mmap]


@dataclass(frozen=True)
class Frame:
    """A frame that was read, and where it stands."""

    kind: int
    number: int
    link: bytes
    payload: bytes
    start: int
    end: int

    def lines(self) -> list[bytes]:
        """The lines of the payload."""
        return self.payload.split(b"\n") if self.payload else []


class BadFrame(Exception):
    """What stands at a place is no frame; whether a whole one stands behind it."""

    def __init__(self, start: int, followed: bool) -> None:
        super().__init__(start)
        self.start = start
        self.followed = followed


def link_after(before: bytes, kind: int, number: int, payload: bytes) -> bytes:
    """The link of a record that says this, behind a record with the link `before`."""
    digest = blake2b(before, digest_size=LINK_BYTES)
    digest.update(_SAID.pack(kind, len(payload), number))
    digest.update(payload)
    return digest.digest()


class Form:
    """A form of frames: how they lie, with links of so many bytes."""

    def __init__(self, number: int, link_bytes: int) -> None:
        self.number = number
        self.magic = MAGIC_FRONT + b"%d" % number
        self._front = struct.Struct(f"<4sBIQ{link_bytes}s")
        self._before_payload = self._front.size + _SUM.size

    def frame_at(self, data: Data, start: int) -> Frame | None:
        """The frame that begins there, if a whole one with the right checksum does."""
        if len(data) - start < self._before_payload:
            return None
        magic, kind, length, number, link = self._front.unpack_from(data, start)
        end = start + self._before_payload + length
        if magic != self.magic or end > len(data):
            return None
        payload = bytes(data[start + self._before_payload:end])
        checksum = zlib.crc32(payload, zlib.crc32(data[start:start + self._front.size]))
        if (checksum,) != _SUM.unpack_from(data, start + self._front.size):
            return None
        return Frame(kind, number, link, payload, start, end)

    def frames(self, data: Data, start: int = 0) -> Iterator[Frame]:
        """The frames of a file from a place on; `BadFrame` where one is not whole."""
        while start < len(data):
            frame = self.frame_at(data, start)
            if frame is None:
                raise BadFrame(start, self._is_followed(data, start))
            yield frame
            start = frame.end

    def _is_followed(self, data: Data, start: int) -> bool:
        """Whether a whole frame stands somewhere behind a place."""
        at = data.find(self.magic, start + 1)
        while at >= 0:
            if self.frame_at(data, at) is not None:
                return True
            at = data.find(self.magic, at + 1)
        return False


FORM = Form(2, LINK_BYTES)
FORMS = (Form(1, 0), FORM)


def form_of(data: Data) -> Form | None:
    """The form of the frames of a file, by its first bytes."""
    return next((form for form in FORMS if data[:len(form.magic)] == form.magic), None)


@dataclass(frozen=True)
class Head:
    """What the first frame says: how many changes were accepted before the file was written; and how many records it
    had when it was put in its place, where the last of them ends, and its link."""

    changes: int
    records: int
    end: int
    link: bytes

    @staticmethod
    def of(frame: Frame) -> Head | None:
        """What a head's frame says, where it is one."""
        is_one = frame.kind == HEAD and len(frame.payload) == _HEAD.size
        if not is_one or frame.link != link_after(FIRST_LINK, HEAD, frame.number, frame.payload):
            return None
        return Head(frame.number, *_HEAD.unpack(frame.payload))
