"""A journal of before, in the file `journal`, taken over into that of `pressclip-keep`, in the file `changes`.

The lines that register what is live go into a new folder within the journal's, by that program. Its file is put in
place by a rename, and then the old one out of it: so as long as `journal` is there, it is what counts.
"""

from __future__ import annotations

import os
import shutil
import subprocess
from contextlib import suppress
from itertools import count
from pathlib import Path
from typing import Callable, Sequence

from .engine import environment
from .errors import STATUS_STORAGE, BrokenJournal, EngineFailed, JournalLocked, StorageFailed, tell
from .folders import make_folder, storage, sync_folder, take_lock
from .keeper import keeper
from .live import LiveQueries
from .reading import Reading, live_queries
from .replies import CHANGES, kind_of
from .signals import held_back_from_children

OLD, OWN, LOCK, FRESH = "journal", "changes", "lock", "taken-over"
# Files that say something of the old one alone.
_BESIDE_OLD = ("journal.new", "version")
PATIENCE_SECONDS = 2.0
# A journal of no queries is short again after so many changes, at the next start of the program.
_CLEARS_AT_ONCE = 100_000
_CLEAR = b'{"op":"clear"}'


def has_journal(folder: Path) -> bool:
    """Whether a folder has a journal, of any form."""
    return (folder / OWN).exists() or (folder / OLD).exists()


def has_old(folder: Path) -> bool:
    """Whether a folder's journal is one of before; `BrokenJournal` where it has another one too."""
    if not (folder / OLD).exists():
        return False
    if (folder / OWN).exists() and not _is_in_place(folder):
        raise BrokenJournal(f"{folder} has two journals, {OLD} and {OWN}: take one of them away; nothing was changed")
    return True


def _is_in_place(folder: Path) -> bool:
    """Whether a stop came between the two renames."""
    return (folder / FRESH).exists() and not (folder / FRESH / OWN).exists()


def prepare(program: str, folder: Path, registers: Callable[[Path], Sequence[str]]) -> None:
    """Makes the folder where there is none, and takes a journal of before over, of which it tells; `registers` is the
    command that answers register lines and keeps them in another folder.

    `JournalLocked` where another process has the journal for two seconds; `BrokenJournal`, `StorageFailed`, and
    `EngineFailed` where the engine refuses what was accepted before. Cost of taking over: reads the journal once, holds
    the live queries, and takes some 50,000 changes a second."""
    with storage(f"open the journal in {folder}"):
        make_folder(folder)
        held = take_lock(folder / LOCK, PATIENCE_SECONDS)
    if held is None:
        raise JournalLocked(f"another process has the journal in {folder}")
    try:
        if has_old(folder):
            _take_over(program, folder, registers)
    finally:
        if not ((folder / OLD).exists() and (folder / OWN).exists()):
            shutil.rmtree(folder / FRESH, ignore_errors=True)
        os.close(held)


def _take_over(program: str, folder: Path, registers: Callable[[Path], Sequence[str]]) -> None:
    reading = Reading(folder / OLD)
    live = live_queries(reading)
    if not (folder / OWN).exists():
        tell(program, f"{folder / OLD}, {reading.changes} changes of form {reading.form.number}, is taken over")
        _fill(folder / FRESH, reading.changes, live, registers)
    with storage(f"take {folder / OLD} over"):
        if not (folder / OWN).exists():
            os.rename(folder / FRESH / OWN, folder / OWN)
            sync_folder(folder)
        names = (folder / f"{OLD}.old.{number}" for number in count(1))
        aside = next(name for name in names if not name.exists())
        os.rename(folder / OLD, aside)
        sync_folder(folder)
    for name in _BESIDE_OLD:
        with suppress(OSError):
            (folder / name).unlink()
    torn = f"; {reading.torn} bytes at its end are torn, and left out" if reading.torn else ""
    tell(program, f"it is in {folder / OWN} now, and stays in {aside} as it was{torn}")


def _fill(fresh: Path, changes: int, live: LiveQueries, registers: Callable[[Path], Sequence[str]]) -> None:
    """Makes a journal of as many changes, which are clears but for the last, that register what is live."""
    shutil.rmtree(fresh, ignore_errors=True)
    lines = list(live.lines())
    for start in range(0, changes - len(lines), _CLEARS_AT_ONCE):
        _accepted(keeper(fresh, "0"), [_CLEAR] * min(_CLEARS_AT_ONCE, changes - len(lines) - start))
    _accepted(registers(fresh), lines)


def _accepted(command: Sequence[str], lines: Sequence[bytes]) -> None:
    """Has a command take lines, each of which it has to accept."""
    with held_back_from_children():
        done = subprocess.run(command, input=b"".join(line + b"\n" for line in lines), capture_output=True, check=False,
                              env=environment(), restore_signals=False)
    replies = done.stdout.splitlines()
    refused = next((reply for reply in replies if kind_of(reply) not in CHANGES), None)
    if refused is not None:
        raise EngineFailed(f"the engine refuses what it accepted before: {refused[:200]!r}; nothing was changed")
    if done.returncode or len(replies) != len(lines):
        why = f"{done.stderr.decode(errors='backslashreplace').strip()}; nothing was changed"
        raise StorageFailed(why) if done.returncode == STATUS_STORAGE else EngineFailed(why)
