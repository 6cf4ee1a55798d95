"""The end of Redis's file, where Redis was ended in the middle of a write.

What a script changes stands in the file as one transaction, and of the last one only a front may be there. Redis 7.0
leaves out the command that is torn, but what stands before it in the transaction stays in the file, and is done with
the next transaction when the file is read once more. So the whole front is cut off before Redis starts.
"""

from __future__ import annotations

import errno
import fcntl
import os
import re
import subprocess
import time
from pathlib import Path
from typing import BinaryIO

from .errors import BrokenFile, FileInUse
from .folders import take_lock
from .place import command_name

FOLDER, MANIFEST, LOCK = "appendonlydir", "appendonly.aof.manifest", "service-redis.lock"
CHECK = "redis-check-aof"
# The grid's own transactions have some 4 MB at most.
MOST_BYTES_TORN = 64 << 20
PATIENCE_SECONDS = 2.0
_PART = re.compile(r"^file (\S+) seq \d+ type i", re.MULTILINE)
_WHOLE_UP_TO = re.compile(r"ok_up_to=(\d+)")
_NUMBER = re.compile(rb"([*$])(\d{1,12})\r\n")
_FRONT_OF_A_NUMBER = re.compile(rb"[*$]\d{0,12}\r?|")


class _Ends(Exception):
    """The text ends before the command does."""


class _NoCommand(Exception):
    """No command stands there."""


def _number(text: bytes, at: int, mark: bytes) -> tuple[int, int]:
    """The number in a line such as `*3` or `$12`, and where the next line begins."""
    found = _NUMBER.match(text, at)
    if found and found[1] == mark:
        return int(found[2]), found.end()
    if text[at:at + 1] in (b"", mark) and _FRONT_OF_A_NUMBER.fullmatch(text, at):
        raise _Ends()
    raise _NoCommand()


def _command(text: bytes, at: int) -> tuple[bytes, int]:
    """The first word of the command that begins there, and where the command ends."""
    count, at = _number(text, at, b"*")
    words = []
    for _ in range(count):
        length, at = _number(text, at, b"$")
        words.append(text[at:at + length])
        end = text[at + length:at + length + 2]
        at += length + 2
        if end != b"\r\n":
            raise _Ends() if b"\r\n".startswith(end) else _NoCommand()
    return (words or [b""])[0].upper(), at


def is_torn(text: bytes) -> bool:
    """Whether this is the front of one command or of one transaction, as they stand in Redis's file, and not the whole.
    Zeros may stand behind it, where a disk gave room for more than it wrote."""
    text = text.rstrip(b"\0")
    at = 0
    try:
        while True:
            is_first = at == 0
            word, at = _command(text, at)
            if word == b"EXEC" or (is_first and word != b"MULTI"):
                return False
    except _Ends:
        return True
    except _NoCommand:
        return False


def last_part(folder: Path) -> Path | None:
    """The file that a Redis of this folder writes to, where it has one."""
    manifest = folder / FOLDER / MANIFEST
    if not manifest.exists():
        return None
    parts = _PART.findall(manifest.read_text(errors="replace"))
    return folder / FOLDER / parts[-1] if parts else None


def lock_folder(folder: Path) -> None:
    """Has a folder to itself, as long as this process or what it becomes lives; waits a little for whoever ends still.
    `FileInUse` where another process has it."""
    held = take_lock(folder / LOCK, PATIENCE_SECONDS)
    if held is None:
        raise FileInUse(f"another {command_name('redis')} has the folder {folder}; two would break its file")
    os.set_inheritable(held, True)


def mend(folder: Path) -> int:
    """Cuts off what is torn at the end of the file of a Redis that has ended, and gives how many bytes that were.

    `BrokenFile` where the file is broken elsewhere, `FileInUse` where another process has it open. Cost: reads the file
    once."""
    file = last_part(folder)
    if file is None or not file.exists():
        return 0
    with open(file, "r+b") as opened:
        _have_alone(file, opened, needs_proof=False)
    done = subprocess.run([CHECK, str(file)], stdin=subprocess.DEVNULL, stdout=subprocess.PIPE,
                          stderr=subprocess.STDOUT, check=False)
    if done.returncode == 0:
        return 0
    found = _WHOLE_UP_TO.search(done.stdout.decode(errors="replace"))
    if not found:
        raise BrokenFile(f"{CHECK} can't read {file}: {done.stdout[-300:].decode(errors='replace')}")
    return _cut(file, int(found[1]))


def _cut(file: Path, end: int) -> int:
    """Cuts a file off where what is whole ends, if what stands behind is torn."""
    with open(file, "r+b") as opened:
        _have_alone(file, opened)
        opened.seek(end)
        rest = opened.read(MOST_BYTES_TORN)
        if opened.read(1) or not is_torn(rest):
            raise BrokenFile(f"{file} is broken behind byte {end}, and not at its end alone; nothing was changed")
        opened.truncate(end)
        os.fsync(opened.fileno())
    return len(rest)


def _have_alone(file: Path, opened: BinaryIO, needs_proof: bool = True) -> None:
    """Has the file to itself until it is closed; waits a little for whoever reads it still. A file system that can't
    say who else has it open is believed where no proof is needed."""
    deadline = time.monotonic() + PATIENCE_SECONDS
    while True:
        try:
            fcntl.fcntl(opened, fcntl.F_SETLEASE, fcntl.F_WRLCK)
            return
        except OSError as error:
            if not needs_proof and error.errno not in (errno.EAGAIN, errno.EBUSY):
                return
            if time.monotonic() > deadline:
                raise FileInUse(f"another process may have {file} open: {error.strerror}") from error
        time.sleep(0.05)
