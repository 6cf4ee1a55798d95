"""Tests that are run by this process, or shared among several, each of which is given more once it is free."""

from __future__ import annotations

import os
import subprocess
import sys
import tempfile
import time
import traceback
from collections import deque
from multiprocessing import Pipe
from multiprocessing.connection import Connection, wait
from typing import Callable, NamedTuple, Sequence

from .processes import ENDED

Test = Callable[[], None]


class Ran(NamedTuple):
    """How the test at a place went, and what it ended by SIGKILL."""

    place: int
    has_passed: bool
    ended: list[str]


def ran(place: int, test: Test) -> Ran:
    """Runs a test, and says how it went."""
    start, before = time.monotonic(), len(ENDED)
    try:
        test()
        word = "passed"
    except Exception:
        traceback.print_exc()
        word = "FAILED"
    print(f"{word} {test.__name__} ({time.monotonic() - start:.1f} s)", flush=True)
    return Ran(place, word == "passed", ENDED[before:])


def serve(tests: Sequence[Test], descriptor: int) -> None:
    """Runs the tests whose places come by a connection, until it ends: the work of a process that `Share` starts."""
    os.set_inheritable(descriptor, False)
    connection = Connection(descriptor)
    try:
        while True:
            for place in connection.recv():
                connection.send(ran(place, tests[place]))
    except (EOFError, ConnectionError):
        connection.close()


class Tally:
    """What came of tests, each of which is to be run once."""

    def __init__(self, tests: Sequence[Test]) -> None:
        self.ended: list[str] = []
        self._failed: list[str] = []
        self._passed = 0
        self._left = {place: test.__name__ for place, test in enumerate(tests)}

    def count(self, told: Ran) -> None:
        """Counts a test; `KeyError` where it was counted before."""
        name = self._left.pop(told.place)
        self.ended += told.ended
        if told.has_passed:
            self._passed += 1
        else:
            self._failed.append(name)

    def lose(self, place: int, why: str) -> None:
        """Counts a test that did not say how it went."""
        self.fail(self._left.pop(place), why)

    def fail(self, what: str, why: str) -> None:
        """Counts and prints a failure that is none of a test's own."""
        print(f"FAILED {what}: {why}", flush=True)
        self._failed.append(what)

    def tell(self) -> int:
        """Prints the sums, and gives the status: 0 where each test was run and nothing failed."""
        for word, names in (("failed", self._failed), ("skipped", list(self._left.values()))):
            if names:
                print(f"{word}: {', '.join(names)}")
        print(f"{self._passed} passed, {len(self._failed)} failed, {len(self._left)} skipped", flush=True)
        return 1 if self._failed or self._left else 0


class Share:
    """A process that runs the tests it is given; what it prints is held back until a test is done."""

    def __init__(self, command: Sequence[str]) -> None:
        self.places: deque[int] = deque()
        self.has_ended = False
        self._printed = tempfile.TemporaryFile()
        self._shown = 0
        self.connection, theirs = Pipe()
        with theirs:
            self._process = subprocess.Popen([*command, str(theirs.fileno())], stdin=subprocess.DEVNULL,
                                             stdout=self._printed, stderr=self._printed, pass_fds=[theirs.fileno()])

    def give(self, places: Sequence[int]) -> None:
        """Gives it tests. Where it has ended `hear` says so."""
        self.places.extend(places)
        try:
            self.connection.send(places)
        except OSError:
            pass

    def hear(self) -> Ran | None:
        """How the next of its tests went, after a wait; None where it has ended."""
        try:
            told: Ran | None = self.connection.recv()
            self.places.popleft()
        except (EOFError, OSError):
            told, self.has_ended = None, True
        self._show(is_last=self.has_ended)
        return told

    def _show(self, is_last: bool) -> None:
        """Prints what it has printed: whole lines, and at last what is no whole line too."""
        text = os.pread(self._printed.fileno(), os.fstat(self._printed.fileno()).st_size - self._shown, self._shown)
        if not is_last:
            text = text[:text.rfind(b"\n") + 1]
        self._shown += len(text)
        sys.stdout.flush()
        sys.stdout.buffer.write(text if text[-1:] in (b"", b"\n") else text + b"\n")
        sys.stdout.buffer.flush()

    def end(self) -> int:
        """Tells it that nothing more comes, waits for its end, and gives its status."""
        self.connection.close()
        status = self._process.wait()
        self._show(is_last=True)
        return status


class Shares:
    """Processes that tests are shared among: each is the command and the number of a descriptor, which it serves."""

    def __init__(self, command: Sequence[str], parts: Sequence[Sequence[int]], jobs: int) -> None:
        """Starts so many. A part has the places of tests that one process runs; who is free is given the next part."""
        self._waiting = deque(parts)
        self._shares = [Share(command) for _ in parts[:jobs]]

    def run(self, tally: Tally) -> None:
        """Has the tests run, until all are, or until no process is left."""
        try:
            while busy := self._busy():
                ready = wait([share.connection for share in busy])
                for share in busy:
                    if share.connection in ready:
                        self._hear(share, tally)
        finally:
            for share in self._shares:
                share.connection.close()
            for number, share in enumerate(self._shares, 1):
                status = share.end()
                if status and not share.has_ended:
                    tally.fail(f"process {number}", f"it ended with status {status}")

    def _busy(self) -> list[Share]:
        """The processes that have tests, once those that are free were given what waits."""
        for share in self._shares:
            if self._waiting and not share.places and not share.has_ended:
                share.give(self._waiting.popleft())
        return [share for share in self._shares if share.places]

    def _hear(self, share: Share, tally: Tally) -> None:
        """Counts what a process says. Where it has ended, the test it was at is lost, and what it had left waits."""
        told = share.hear()
        if told:
            tally.count(told)
            return
        lost = share.places.popleft()
        if share.places:
            self._waiting.appendleft(list(share.places))
            share.places.clear()
        tally.lose(lost, f"its process ended with status {share.end()}")
