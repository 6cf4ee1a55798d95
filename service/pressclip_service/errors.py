"""How the programs of this folder end: each error that is expected has a status of its own."""

from __future__ import annotations

import os
from typing import Callable

from .streams import ERRORS, hold_standard_streams, write_waiting

STATUS_ENDED = 0
STATUS_ENGINE = 1
STATUS_USAGE = 2
STATUS_BROKEN = 3
STATUS_STORAGE = 4
STATUS_LOCKED = 5
STATUS_NO_READER = 6
STATUS_INTERRUPTED = 130


class ServiceError(Exception):
    """An error that is told in one line and ends the program with its status."""

    status = STATUS_ENGINE


class EngineFailed(ServiceError):
    """The engine can't be started, ended again and again, or answered what it never should."""

    status = STATUS_ENGINE


class EngineDied(EngineFailed):
    """The engine ended before it gave all replies."""


class BrokenJournal(ServiceError):
    """The journal is not what was written; nothing was changed."""

    status = STATUS_BROKEN


class StorageFailed(ServiceError):
    """The journal can't be read or written."""

    status = STATUS_STORAGE


class InputFailed(ServiceError):
    """Standard input can't be read."""

    status = STATUS_STORAGE


class JournalLocked(ServiceError):
    """Another process has the journal open."""

    status = STATUS_LOCKED


class BrokenFile(ServiceError):
    """Redis's file is not what was written, and not at its end alone; nothing was changed."""

    status = STATUS_BROKEN


class FileInUse(ServiceError):
    """Another process has Redis's folder, or its file open; nothing was changed."""

    status = STATUS_LOCKED


class NoReader(ServiceError):
    """Nobody reads the replies any more."""

    status = STATUS_NO_READER


def tell(program: str, text: str) -> None:
    """A line on standard error, which may be closed."""
    try:
        write_waiting(ERRORS, f"{program}: {text}\n".encode(errors="backslashreplace"))
    except OSError:
        pass


def ending(program: str, work: Callable[[], int]) -> int:
    """The status of a command's work; an expected error is told in one line. Standard streams that are closed are
    stood in for first."""
    hold_standard_streams()
    try:
        return work()
    except ServiceError as error:
        tell(program, str(error))
        return error.status
    except KeyboardInterrupt:
        return STATUS_INTERRUPTED


def read_block(descriptor: int, most: int) -> bytes | None:
    """What is there to read, up to so many bytes; none at its end, and None where nothing is there yet. `InputFailed`
    where it can't be read."""
    try:
        return os.read(descriptor, most)
    except BlockingIOError:
        return None
    except OSError as error:
        raise InputFailed(f"standard input can't be read: {error.strerror}; what was read before is answered") from None


def write_all(descriptor: int, text: bytes) -> None:
    """Writes the whole text and waits where nobody takes it yet; `NoReader` where nobody ever will."""
    try:
        write_waiting(descriptor, text)
    except BrokenPipeError:
        raise NoReader("nobody reads the replies: standard output is closed") from None
    except OSError as error:
        raise NoReader(f"the replies can't be written: {error.strerror}") from error
