"""The lines that entered under a name in earlier lives, by their digests."""

from __future__ import annotations

import hashlib
import zlib
from collections import deque

from .errors import ServiceError
from .lives import Entered
from .names import DIGEST, LINE_NUMBER, Id
from .store import Entry, Store

DIGEST_BYTES = 16
LINES_AT_ONCE = 512


def digest_of(line: bytes) -> bytes:
    """By which a line is known again."""
    return hashlib.blake2b(line, digest_size=DIGEST_BYTES).digest()


class EarlierLines:
    """What is known of these lines. They are compared in the order of their numbers, each once."""

    def __init__(self, store: Store, client: str, entered: Entered) -> None:
        self._store = store
        self._client = client
        self._entered = entered
        self._key = store.names.lines(client)
        self._after = Id(0, 0)
        self._next: deque[Entry] = deque()
        self._is_known = False

    def has(self, number: int, line: bytes) -> bool | None:
        """Whether the line of this number entered; None where that is not known any more. `ServiceError` where another
        one did."""
        while not self._next or int(self._next[0][1][LINE_NUMBER]) < number:
            if self._next:
                self._next.popleft()
                self._is_known = True
            elif not self._read():
                break
        if self._next and int(self._next[0][1][LINE_NUMBER]) == number:
            self._is_known = True
            if self._next[0][1][DIGEST] != digest_of(line):
                raise self.is_another(number)
            return True
        if number == self._entered.number and zlib.crc32(line) != self._entered.checksum:
            raise self.is_another(number)
        return False if self._is_known else None

    def _read(self) -> bool:
        entries = self._store.read({self._key: self._after}, LINES_AT_ONCE, None).get(self._key, [])
        self._next.extend(entry for entry in entries if DIGEST in entry[1] and entry[1].get(LINE_NUMBER, b"").isdigit())
        self._after = entries[-1][0] if entries else self._after
        return bool(entries)

    def is_another(self, number: int) -> ServiceError:
        """What it means that the line of this number is not the one that entered, or that none did."""
        return ServiceError(f"line {number} is another than the one that entered under the name {self._client}")
