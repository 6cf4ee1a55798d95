"""Folders and their locks: made for their owner alone, and synced."""

from __future__ import annotations

import fcntl
import os
import time
from contextlib import contextmanager
from pathlib import Path
from typing import Iterator

from .errors import StorageFailed

FILE_MODE, FOLDER_MODE = 0o600, 0o700
_TURN_SECONDS = 0.05


@contextmanager
def storage(doing: str) -> Iterator[None]:
    """What the system refuses is told as a failure of what is being done."""
    try:
        yield
    except OSError as error:
        raise StorageFailed(f"can't {doing}: {error.strerror}") from error


def sync_folder(folder: Path) -> None:
    """Syncs which names stand in a folder."""
    descriptor = os.open(folder, os.O_RDONLY | os.O_DIRECTORY)
    try:
        os.fsync(descriptor)
    finally:
        os.close(descriptor)


def make_folder(folder: Path) -> None:
    """Makes a folder and what is missing above it, each for its owner alone, and synced in the one above."""
    missing = []
    at = folder.absolute()
    while not at.exists():
        missing.append(at)
        at = at.parent
    for new in reversed(missing):
        new.mkdir(mode=FOLDER_MODE, exist_ok=True)
        sync_folder(new.parent)


def take_lock(path: Path, seconds: float) -> int | None:
    """A descriptor that holds the lock of a file, which is made where there is none, after a wait of some seconds for
    whoever ends still; None where another process has it."""
    held = os.open(path, os.O_RDWR | os.O_CREAT | os.O_CLOEXEC, FILE_MODE)
    deadline = time.monotonic() + seconds
    while True:
        try:
            fcntl.flock(held, fcntl.LOCK_EX | fcntl.LOCK_NB)
            return held
        except OSError as error:
            if not isinstance(error, BlockingIOError):
                os.close(held)
                raise
        if time.monotonic() > deadline:
            os.close(held)
            return None
        time.sleep(_TURN_SECONDS)
