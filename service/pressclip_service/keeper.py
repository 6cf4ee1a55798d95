"""`pressclip-keep`, the program that is engine and journal in one: where it is, and how standard input gets to it."""

from __future__ import annotations

import os
import select
import signal
import subprocess
import threading
from pathlib import Path
from typing import Sequence

from .engine import environment, widen
from .errors import EngineFailed, NoReader, read_block
from .lines import BLOCK_BYTES, LineCutter
from .place import IS_CHECKOUT, TOP
from .signals import Termination, held_back_from_children
from .streams import INPUT, OUTPUT, write_waiting

PROGRAM = "pressclip-keep"
_FOLDER = TOP / "crates" / "pressclip_keep" / "out" if IS_CHECKOUT else TOP


def keeper(folder: Path, *words: str) -> list[str]:
    """The command of the program over a folder: what the variable PRESSCLIP_KEEP names, or what this checkout built, or
    what the package has."""
    return [os.environ.get("PRESSCLIP_KEEP") or str(_FOLDER / PROGRAM), str(folder), *words]


def hand_on(into: int, termination: Termination) -> bool:
    """Writes the lines of standard input to a pipe as they come, to the input's end, or until an end is asked for or
    nobody reads the pipe; whether there were any. `InputFailed`.

    A line goes on once it was read whole, so that what an end cuts off is none."""
    cutter, has_any = LineCutter(), False
    poll = select.poll()
    for descriptor, events in ((INPUT, select.POLLIN), (termination.woken, select.POLLIN), (into, 0)):
        poll.register(descriptor, events)
    while True:
        ready = {descriptor for descriptor, _ in poll.poll()}
        if termination.is_asked or into in ready:
            return has_any
        if INPUT not in ready or (block := read_block(INPUT, BLOCK_BYTES)) is None:
            continue
        lines = cutter.feed(block) if block else cutter.end()
        if lines:
            has_any = True
            try:
                write_waiting(into, b"\n".join([*lines, b""]))
            except BrokenPipeError:
                return has_any
        if not block:
            return has_any


class Outlet(threading.Thread):
    """Where the program's replies go while standard output does not block: a pipe, whose bytes are written there as it
    takes them. The program waits for nothing that does not block."""

    def __init__(self) -> None:
        super().__init__(daemon=True)
        self.source, self.into = os.pipe()
        self.is_unread = False

    def run(self) -> None:
        """Hands on what comes, until the program has ended or nobody reads it."""
        try:
            while block := os.read(self.source, BLOCK_BYTES):
                write_waiting(OUTPUT, block)
        except OSError:
            self.is_unread = True
        os.close(self.source)

    def end(self) -> None:
        """Waits until all is handed on. `NoReader` where it could not be."""
        self.join()
        if self.is_unread:
            raise NoReader("nobody reads the replies")


def run(command: Sequence[str], termination: Termination) -> int:
    """Serves standard input by the program, and gives its status. Where an end is asked for before it was given
    anything it is ended at once, also while it reads its journal. `EngineFailed` where a signal ended it, `InputFailed`
    once it has answered what could be read.

    SIGPIPE and SIGXFSZ stay ignored, as Python has them, so that a write fails and the status says why. `NoReader`
    where standard output does not block, and nobody reads it."""
    outlet = None if os.get_blocking(OUTPUT) else Outlet()
    try:
        with held_back_from_children():
            process = subprocess.Popen(command, stdin=subprocess.PIPE, stdout=outlet.into if outlet else None,
                                       bufsize=0, env=environment(), restore_signals=False)
    except OSError as error:
        raise EngineFailed(f"{command[0]} can't be started: {error.strerror}") from error
    if outlet:
        os.close(outlet.into)
        outlet.start()
    assert process.stdin
    widen(process.stdin.fileno())
    is_dropped = False
    try:
        is_dropped = not hand_on(process.stdin.fileno(), termination) and termination.is_asked
        if is_dropped:
            process.kill()
    finally:
        process.stdin.close()
        status = process.wait()
    if outlet:
        outlet.end()
    if is_dropped and status == -signal.SIGKILL:
        return 0
    if status < 0:
        raise EngineFailed(f"{command[0]} was ended by signal {-status}; what was answered is kept")
    return status
