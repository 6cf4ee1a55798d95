"""An engine behind pipes: `pressclip run` as a child of this process."""

from __future__ import annotations

import fcntl
import os
import select
import shutil
import subprocess
from hashlib import sha256
from pathlib import Path
from typing import Callable, Iterable, Iterator, Sequence

from .errors import EngineDied, EngineFailed
from .lines import BLOCK_BYTES, LineCutter
from .place import IS_CHECKOUT, TOP, program_of
from .signals import held_back_from_children

PROGRAM = "pressclip"
_USUAL = program_of(PROGRAM, PROGRAM)
_PIPE_BYTES = 1 << 20
_WRITTEN_AT_ONCE = 1 << 18
_TURN_SECONDS = 0.5
# How the GNU C library hands out memory: small pieces, of which an article has some two for each word, are kept at hand
# when they come back, and what is large lies in large pages. A library that doesn't know these words passes over them.
_MEMORY = "glibc.malloc.tcache_count=500:glibc.malloc.hugetlb=1"


def program() -> str:
    """The engine's program: what the variable PRESSCLIP names, or what this checkout built; `pressclip` on the path where
    this is installed."""
    return os.environ.get("PRESSCLIP") or _USUAL


def command_of(words: Sequence[str], workers: int | None = None) -> list[str]:
    """The command that starts an engine: the words, or the engine's program where there are none. `pressclip` is the
    one on the path, and where none is there the engine's program."""
    if not words:
        return [program(), "run"] + ([] if workers is None else [str(workers)])
    if words[0] == PROGRAM and shutil.which(PROGRAM) is None:
        return [program(), *words[1:]]
    return list(words)


def need_program(command: Sequence[str]) -> None:
    """`EngineFailed` where the command's program is not there, or may not be run."""
    if shutil.which(command[0]):
        return
    if IS_CHECKOUT and command[0].startswith(f"{TOP}/"):
        raise EngineFailed(f"there is no program at {command[0]}: run ./build")
    raise EngineFailed(f"the engine {command[0]} can't be started: there is no such program")


def mark_of(command: Sequence[str]) -> str:
    """What tells the command's program from another: its path and the digest of its file. Cost: reads that file."""
    path = shutil.which(command[0])
    if path is None:
        return f"{command[0]}, which is not there" + (": run ./build" if IS_CHECKOUT else "")
    return f"{path} (SHA-256 {sha256(Path(path).read_bytes()).hexdigest()})"


def environment() -> dict[str, str]:
    """The environment of an engine: ours, which also says how memory is handed out where it didn't."""
    return {"GLIBC_TUNABLES": _MEMORY, **os.environ}


def widen(descriptor: int) -> None:
    """Lets a pipe hold more, where the system does."""
    try:
        fcntl.fcntl(descriptor, fcntl.F_SETPIPE_SZ, _PIPE_BYTES)
    except (AttributeError, OSError):
        pass


class Engine:
    """One process. Writes never wait: what its pipe has no room for stands in `unsent`."""

    def __init__(self, command: Sequence[str]) -> None:
        need_program(command)
        try:
            with held_back_from_children():
                self._process = subprocess.Popen(command, stdin=subprocess.PIPE, stdout=subprocess.PIPE, bufsize=0,
                                                 env=environment())
        except OSError as error:
            raise EngineFailed(f"the engine {command[0]} can't be started: {error.strerror}") from error
        assert self._process.stdin and self._process.stdout
        self.input = self._process.stdin.fileno()
        self.output = self._process.stdout.fileno()
        self.unsent = bytearray()
        self.sent = 0
        self.closed = False
        self._replies = LineCutter(most=None)
        os.set_blocking(self.input, False)
        widen(self.input)
        widen(self.output)

    @property
    def pid(self) -> int:
        """The number of the process."""
        return self._process.pid

    def send(self, line: bytes) -> int:
        """Takes a line on its way, and gives the number that the engine counts it by."""
        self.unsent += line
        self.unsent += b"\n"
        self.sent += 1
        return self.sent

    def push(self) -> None:
        """Writes as much as the pipe takes. A process that is gone is seen where its replies are read."""
        try:
            while self.unsent:
                written = os.write(self.input, memoryview(self.unsent)[:_WRITTEN_AT_ONCE])
                del self.unsent[:written]
        except BlockingIOError:
            pass
        except BrokenPipeError:
            self.unsent.clear()

    def push_all(self) -> None:
        """Writes all of it, and waits where the pipe is full."""
        while self.unsent:
            self.push()
            if self.unsent:
                select.select([], [self.input], [])

    def close_input(self) -> None:
        """Tells it that no more lines come."""
        assert self._process.stdin
        self._process.stdin.close()
        self.closed = True

    def read(self) -> list[bytes] | None:
        """The replies that came, after a wait where none did, without their line feeds; None where it ended."""
        block = os.read(self.output, BLOCK_BYTES)
        return self._replies.feed(block) if block else None

    def wait(self) -> int:
        """The status with which it ended."""
        return self._process.wait()

    def kill(self) -> None:
        """Ends it at once."""
        self._process.kill()
        self._process.wait()
        for pipe in (self._process.stdin, self._process.stdout):
            if pipe:
                try:
                    pipe.close()
                except OSError:
                    pass

    def exchange(self, lines: Iterable[bytes], each_turn: Callable[[], None] = lambda: None) -> Iterator[bytes]:
        """The replies to the lines, none of which may be blank; `EngineDied` where it ends before it gave them. Lines
        are taken as the engine takes them, so that few are held at a time. `each_turn` is called now and then, also
        while the engine says nothing."""
        source = iter(lines)
        owed, more = 0, True
        while more or owed or self.unsent:
            while more and len(self.unsent) < _WRITTEN_AT_ONCE:
                line = next(source, None)
                more = line is not None
                if line is not None:
                    self.send(line)
                    owed += 1
            self.push()
            if not owed:
                continue
            readable, _, _ = select.select([self.output], [self.input] if self.unsent else [], [], _TURN_SECONDS)
            each_turn()
            if readable:
                replies = self.read()
                if replies is None:
                    raise EngineDied(f"the engine ended with status {self.wait()} and owed {owed} replies")
                owed -= len(replies)
                yield from replies
