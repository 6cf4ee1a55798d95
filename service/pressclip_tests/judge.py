"""What is due: the replies of `pressclip run 0`, line by line."""

from __future__ import annotations

import json
import os
import subprocess
import tempfile
from dataclasses import dataclass
from pathlib import Path
from typing import Sequence

from pressclip_service.engine import command_of, program

from .inputs import joined

CHANGES = ("registered", "deleted", "cleared")
# A line that is refused so asks for a change all the same.
REFUSED_CHANGES = ("query", "listener", "full")


class Failed(AssertionError):
    """What came is not what was due."""


def need(holds: bool, what: str) -> None:
    """`Failed` where it does not hold."""
    if not holds:
        raise Failed(what)


def replies_of_engine(text: bytes, words: Sequence[str] = ()) -> bytes:
    """What the plain program answers, with more words or without."""
    done = subprocess.run([*command_of([], workers=0), *words], input=text, stdout=subprocess.PIPE, check=False)
    need(done.returncode == 0, f"{program()} ended with status {done.returncode}")
    return done.stdout


@dataclass(frozen=True)
class Due:
    """Lines, the reply that is due to each (None to a blank one), and which ask for a change, and so are kept."""

    lines: list[bytes]
    replies: list[bytes | None]
    changes: list[bool]

    @staticmethod
    def of(lines: list[bytes]) -> Due:
        """What the plain program answers to the lines."""
        replies: list[bytes | None] = [None] * len(lines)
        changes = [False] * len(lines)
        for reply in replies_of_engine(joined(lines)).splitlines():
            value = json.loads(reply)
            replies[value["line"] - 1] = reply
            changes[value["line"] - 1] = (any(word in value for word in CHANGES)
                                          or value.get("refused") in REFUSED_CHANGES)
        return Due(lines, replies, changes)

    def text(self) -> bytes:
        """All replies, as they are written."""
        return b"".join(reply + b"\n" for reply in self.replies if reply is not None)

    def kept_up_to(self, kept: int, answered: int, sent: int) -> int:
        """The place behind the last line that was kept, where so many changes are: as far as was sent, and as was
        answered at least."""
        least, most = sum(self.changes[:answered]), sum(self.changes[:sent])
        need(least <= kept <= most, f"{kept} changes are kept, and {least} were answered and {most} sent")
        place = answered
        while sum(self.changes[:place]) < kept:
            place += 1
        return place

    def numbered_from(self, start: int, index: int) -> bytes | None:
        """The reply to the line at the index, in an input that begins with the line at `start`."""
        reply = self.replies[index]
        if reply is None:
            return None
        value = json.loads(reply)
        need(_written(value) == reply, f"a reply is written in another way: {reply[:200]!r}")
        value["line"] = index + 1 - start
        return _written(value)


def _written(value: dict[str, object]) -> bytes:
    return json.dumps(value, ensure_ascii=False, separators=(",", ":")).encode()


def same(got: bytes, due: bytes, what: str) -> None:
    """`Failed`, with the first line that differs, where the two are not the same bytes."""
    if got == due:
        return
    theirs, ours = due.split(b"\n"), got.split(b"\n")
    for number, (one, other) in enumerate(zip(ours, theirs)):
        if one != other:
            raise Failed(f"{what}: reply {number + 1} is\n  {one[:600]!r}\nand should be\n  {other[:600]!r}")
    raise Failed(f"{what}: {len(ours) - 1} replies, and {len(theirs) - 1} are due")


def folder() -> tempfile.TemporaryDirectory[str]:
    """A folder of the test's own."""
    return tempfile.TemporaryDirectory(prefix="pressclip-test-", dir=os.environ.get("TMPDIR"))


SERVICE = Path(__file__).resolve().parents[1]
KEEP = SERVICE / "keep"
GRID = SERVICE / "grid"
REDIS = SERVICE / "redis"
