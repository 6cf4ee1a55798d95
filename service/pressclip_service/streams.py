"""The standard streams: one that is closed is stood in for, so that no file takes its number."""

from __future__ import annotations

import fcntl
import os
import select

INPUT, OUTPUT, ERRORS = 0, 1, 2
# The null device stands in for a closed stream, opened so that reading and writing fail as they did; what is told on
# standard error goes nowhere.
_STAND_INS = ((INPUT, os.O_WRONLY), (OUTPUT, os.O_RDONLY), (ERRORS, os.O_WRONLY))


def hold_standard_streams() -> None:
    """Opens the null device for each standard stream that is closed. Each command does this first: what it opens later,
    and what a child opens, then has another number."""
    for number, mode in _STAND_INS:
        try:
            os.fstat(number)
        except OSError:
            os.set_inheritable(os.open(os.devnull, mode), True)


def can_read(descriptor: int) -> bool:
    """Whether the descriptor is open for reading."""
    return _mode(descriptor) in (os.O_RDONLY, os.O_RDWR)


def can_write(descriptor: int) -> bool:
    """Whether the descriptor is open for writing."""
    return _mode(descriptor) in (os.O_WRONLY, os.O_RDWR)


def _mode(descriptor: int) -> int:
    return fcntl.fcntl(descriptor, fcntl.F_GETFL) & os.O_ACCMODE


def write_waiting(descriptor: int, text: bytes) -> None:
    """Writes the whole text, and waits where nobody takes it yet, also on a descriptor that does not block."""
    left = memoryview(text)
    while left:
        try:
            left = left[os.write(descriptor, left):]
        except BlockingIOError:
            poll = select.poll()
            poll.register(descriptor, select.POLLOUT)
            poll.poll()
