"""Journals of before, as they lay in the file `journal`."""

from __future__ import annotations

import hashlib
import struct
import zlib
from typing import Sequence

HEAD, LIVE, CHANGES = 0, 1, 2
NOTHING = bytes(16)
HEAD_BYTES = 69


def frame_of_form_1(kind: int, number: int, payload: bytes) -> bytes:
    """A frame as form 1 had it: magic, kind, length, number, CRC-32 of all of that and the payload, payload."""
    front = b"\xffPJ1" + struct.pack("<BIQ", kind, len(payload), number)
    return front + struct.pack("<I", zlib.crc32(front + payload)) + payload


def of_form_1(lines: Sequence[bytes], before: int) -> bytes:
    """A journal of form 1 behind so many changes: two lines of live queries, and each further line a change."""
    records = [frame_of_form_1(HEAD, before, b"")]
    records += [frame_of_form_1(LIVE, before, line) for line in lines[:2]]
    records += [frame_of_form_1(CHANGES, before + place, line) for place, line in enumerate(lines[2:])]
    return b"".join(records)


def frame_of_form_2(before: bytes, kind: int, number: int, payload: bytes) -> tuple[bytes, bytes]:
    """A frame as form 2 has it behind a link, and its own link: magic, kind, length, number, link, CRC-32 of all of
    that and the payload, payload."""
    said = struct.pack("<BIQ", kind, len(payload), number)
    link = hashlib.blake2b(before + said + payload, digest_size=16).digest()
    front = b"\xffPJ2" + said + link
    return front + struct.pack("<I", zlib.crc32(front + payload)) + payload, link


def frames_of_form_2(changes: Sequence[Sequence[bytes]], live: Sequence[bytes] = (), before: int = 0,
                     synced: int = 0) -> list[bytes]:
    """The frames of a journal of form 2 behind so many changes: its head, lines of live queries, and records of changes,
    of which the first so many were there when the file took its place."""
    head, records, link, number = (0, HEAD_BYTES, NOTHING), [b""], NOTHING, before
    for payload in (*((LIVE, line) for line in live), *((CHANGES, b"\n".join(lines)) for lines in changes)):
        record, link = frame_of_form_2(link, payload[0], number, payload[1])
        records.append(record)
        number += payload[1].count(b"\n") + 1 if payload[0] == CHANGES else 0
        if len(records) <= 1 + len(live) + synced:
            head = (len(records) - 1, HEAD_BYTES + sum(map(len, records)), link)
    records[0], _ = frame_of_form_2(NOTHING, HEAD, before, struct.pack("<QQ16s", *head))
    return records
