"""An engine under measurement: a process that answers each line of JSON with one line."""

from __future__ import annotations

import os
import select
import shlex
import subprocess
import tempfile
import time
from dataclasses import dataclass
from typing import Optional, Sequence

PATIENCE_SECONDS = 600.0
TICKS_PER_SECOND = os.sysconf("SC_CLK_TCK")


class EngineFailed(Exception):
    """The engine ended early, or does not answer."""


@dataclass(frozen=True)
class Exchange:
    """Lines sent and answered: the replies, and the time by the clock and by the engine's processors."""

    replies: list[bytes]
    seconds: float
    cpu_seconds: float


class Engine:
    """One process, with pipes to its standard input and output."""

    def __init__(self, name: str, command: str, patience: float = PATIENCE_SECONDS) -> None:
        self.name = name
        self._patience = patience
        self._errors = tempfile.TemporaryFile()
        try:
            self._process = subprocess.Popen(shlex.split(command), stdin=subprocess.PIPE, stdout=subprocess.PIPE,
                                             stderr=self._errors, bufsize=0)
        except OSError as error:
            raise EngineFailed(f"{name} does not start: {error}") from error
        assert self._process.stdin and self._process.stdout
        self._input = self._process.stdin.fileno()
        self._output = self._process.stdout.fileno()
        os.set_blocking(self._input, False)

    @property
    def pid(self) -> int:
        """The number of the process."""
        return self._process.pid

    def close(self) -> None:
        """Ends the process."""
        self._process.kill()
        self._process.communicate()
        self._errors.close()

    def cpu_seconds(self) -> float:
        """Processor time of all threads of the process so far. A wrapper has to `exec` the engine."""
        with open(f"/proc/{self._process.pid}/stat") as file:
            fields = file.read().rsplit(")", 1)[1].split()
        return (int(fields[11]) + int(fields[12])) / TICKS_PER_SECOND

    def resident_bytes(self) -> int:
        """Memory of the process that stands in RAM."""
        return self._status_bytes("VmRSS:")

    def peak_bytes(self) -> int:
        """The most memory of the process that stood in RAM since `forget_peak`, or since it began."""
        return self._status_bytes("VmHWM:")

    def forget_peak(self) -> None:
        """From here on the peak is that of what follows."""
        with open(f"/proc/{self._process.pid}/clear_refs", "w") as file:
            file.write("5")

    def _status_bytes(self, name: str) -> int:
        with open(f"/proc/{self._process.pid}/status") as file:
            for line in file:
                if line.startswith(name):
                    return int(line.split()[1]) * 1_024
        return 0

    def exchange(self, lines: Sequence[bytes], replies: Optional[int] = None) -> Exchange:
        """Sends the lines at full speed and takes their replies, timed from the first byte to the last reply: one for
        each line, or as many as are said."""
        left = memoryview(b"".join(lines))
        held: list[bytes] = []
        missing = len(lines) if replies is None else replies
        cpu, start = self.cpu_seconds(), time.perf_counter()
        while missing > 0 or left:
            readable, writable, _ = select.select([self._output], [self._input] if left else [], [], self._patience)
            if readable:
                held.append(self._read())
                missing -= held[-1].count(b"\n")
            elif writable:
                left = left[self._write(left):]
            else:
                self._fail("does not answer")
        seconds = time.perf_counter() - start
        return Exchange(b"".join(held).splitlines(), seconds, self.cpu_seconds() - cpu)

    def exchange_in_lock_step(self, lines: Sequence[bytes]) -> Exchange:
        """Sends each line once the one before it is answered; the seconds are those from sends to replies."""
        runs = [self.exchange([line]) for line in lines]
        return Exchange([reply for run in runs for reply in run.replies], sum(run.seconds for run in runs),
                        sum(run.cpu_seconds for run in runs))

    def send(self, left: memoryview) -> None:
        """Sends bytes to an engine that answers nothing before it has them all."""
        while left:
            if not select.select([], [self._input], [], self._patience)[1]:
                self._fail("does not read")
            left = left[self._write(left):]

    def receive(self) -> bytes:
        """The next bytes of an answer, one at least."""
        if not select.select([self._output], [], [], self._patience)[0]:
            self._fail("does not answer")
        return self._read()

    def _read(self) -> bytes:
        block = os.read(self._output, 1 << 20)
        if not block:
            self._fail("ended before its input did")
        return block

    def _write(self, left: memoryview) -> int:
        try:
            return os.write(self._input, left[:1 << 16])
        except BlockingIOError:
            return 0
        except BrokenPipeError:
            self._fail("closed its input")
            raise

    def _fail(self, why: str) -> None:
        self._process.kill()
        self._process.wait()
        self._errors.seek(0)
        said = self._errors.read().decode("utf-8", "replace").strip()
        raise EngineFailed(f"{self.name} {why}" + (f"\n{said[-2000:]}" if said else ""))
