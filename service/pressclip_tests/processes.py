"""Processes under test: asked line by line, and ended by their numbers."""

from __future__ import annotations

import os
import re
import select
import subprocess
import tempfile
import time
from pathlib import Path
from typing import Callable, Mapping, Sequence

PATIENCE_SECONDS = 120.0

# What was ended by SIGKILL in the middle of an input, over the whole test.
ENDED: list[str] = []


class Spoken:
    """A process that answers lines with lines."""

    def __init__(self, command: Sequence[str], before: Callable[[], None] | None = None,
                 environment: Mapping[str, str] | None = None) -> None:
        self._told = tempfile.TemporaryFile()
        self.status: int | None = None
        self.last_words = ""
        self.process = subprocess.Popen(command, stdin=subprocess.PIPE, stdout=subprocess.PIPE, stderr=self._told,
                                        bufsize=0, preexec_fn=before, env=environment)
        assert self.process.stdin and self.process.stdout
        os.set_blocking(self.process.stdin.fileno(), False)
        self.input, self.output = self.process.stdin.fileno(), self.process.stdout.fileno()
        self.unsent = bytearray()
        self.got = bytearray()

    def send(self, line: bytes) -> None:
        """Takes a line on its way."""
        self.unsent += line + b"\n"

    def turn(self, seconds: float) -> bool:
        """Writes and reads as far as that goes; whether anything came."""
        readable, writable, _ = select.select([self.output], [self.input] if self.unsent else [], [], seconds)
        if writable:
            try:
                del self.unsent[:os.write(self.input, memoryview(self.unsent)[:65_536])]
            except BrokenPipeError:
                self.unsent.clear()
        if readable:
            block = os.read(self.output, 1 << 20)
            self.got += block
            return bool(block)
        return False

    def wait_for_replies(self) -> list[bytes]:
        """The next replies, after a wait; none where it ended, or where they take too long."""
        start = time.monotonic()
        while not (found := self.replies()):
            if time.monotonic() - start > PATIENCE_SECONDS:
                return []
            if not self.turn(1) and not self.unsent and self.process.poll() is not None and not self.turn(0):
                return self.replies()
        return found

    def so_many_replies(self, count: int) -> list[bytes]:
        """The next so many replies."""
        found: list[bytes] = []
        while len(found) < count:
            replies = self.wait_for_replies()
            if not replies:
                raise AssertionError(f"{len(found)} of {count} replies: {self.told()}")
            found += replies
        return found

    def replies(self) -> list[bytes]:
        """The whole replies that came, taken out."""
        whole = self.got.rfind(b"\n") + 1
        lines = bytes(self.got[:whole]).splitlines()
        del self.got[:whole]
        return lines

    def told(self) -> str:
        """What was told on standard error so far."""
        size = os.fstat(self._told.fileno()).st_size
        return os.pread(self._told.fileno(), size, 0).decode()

    def kill(self) -> bytes:
        """Ends it at once, and gives what it had written still."""
        self.process.kill()
        self.process.wait()
        while self.turn(PATIENCE_SECONDS):
            pass
        return bytes(self.got)

    def close(self) -> None:
        """Ends its input, waits for its end, and lets go of it."""
        assert self.process.stdin and self.process.stdout
        self.process.stdin.close()
        self.status = self.process.wait(PATIENCE_SECONDS)
        self.last_words = self.told()
        self.process.stdout.close()
        self._told.close()


def children_of(parent: int) -> list[int]:
    """The children of a process; none where it is gone."""
    try:
        return [int(child) for child in Path(f"/proc/{parent}/task/{parent}/children").read_text().split()]
    except OSError:
        return []


def engine_of(parent: int) -> int | None:
    """The engine that is a child of a process: the child whose words end in `run` and a number."""
    for child in children_of(parent):
        try:
            words = Path(f"/proc/{child}/cmdline").read_bytes().split(b"\0")
        except OSError:
            continue
        if len(words) >= 3 and words[-3] == b"run" and re.fullmatch(rb"\d\d?", words[-2]):
            return child
    return None
