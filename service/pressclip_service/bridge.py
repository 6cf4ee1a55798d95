"""`service/connect`: messages to a command that answers lines, as `service/keep`, and each reply to who keeps it."""

from __future__ import annotations

import subprocess
import threading
import time
from collections import deque
from dataclasses import dataclass, field
from typing import Callable, Iterator, Protocol, Sequence

from .engine import environment, widen
from .errors import EngineFailed, ServiceError
from .lines import BLOCK_BYTES, LineCutter, is_blank
from .patience import Patience

MOST_LINES_IN_FLIGHT = 4_096
MOST_BYTES_IN_FLIGHT = 8 << 20
TURN_SECONDS = 0.05


class CommandEnded(ServiceError):
    """The command that answers ended before its input did; its own status is handed on where it has one."""

    def __init__(self, text: str, status: int) -> None:
        super().__init__(text)
        self.status = status if status > 0 else EngineFailed.status


@dataclass(eq=False)
class Message:
    """What a broker gave: where it stands, its key, and its lines. A blank line has no reply, so it is owed none."""

    place: int
    key: bytes | None
    lines: list[bytes]
    owed: int = field(init=False)
    size: int = field(init=False)

    def __post_init__(self) -> None:
        self.owed = sum(not is_blank(line) for line in self.lines)
        self.size = sum(map(len, self.lines))


def lines_of(value: bytes | None) -> list[bytes]:
    """The lines of a message, which may be one, many or none."""
    cutter = LineCutter()
    return [*cutter.feed(value or b""), *cutter.end()]


class Outlet(Protocol):
    """Where replies are kept."""

    def put(self, message: Message, reply: bytes) -> None:
        """Takes a reply on its way; once it is kept, `Bridge.kept` is called for its message."""

    def done(self, message: Message) -> None:
        """All replies to a message and to those before it are kept."""

    def serve(self) -> None:
        """Hears what was kept by now, where no other thread does."""


class Bridge:
    """Hands lines on in order, in a window of bounded size, and each reply to the outlet."""

    def __init__(self, program: str, command: Sequence[str], outlet: Callable[[Bridge], Outlet]) -> None:
        self.program, self.name = program, command[0]
        try:
            self._process = subprocess.Popen(command, stdin=subprocess.PIPE, stdout=subprocess.PIPE, bufsize=0,
                                             start_new_session=True, env=environment())
        except OSError as error:
            raise EngineFailed(f"{self.name} can't be started: {error.strerror}") from error
        assert self._process.stdin and self._process.stdout
        widen(self._process.stdin.fileno())
        self._input, self._output = self._process.stdin, self._process.stdout
        self._changed = threading.Condition()
        self._unanswered: deque[Message] = deque()
        self._in_flight: deque[Message] = deque()
        self._lines = self._bytes = self._done = 0
        self._failure: Exception | None = None
        self._is_ending = False
        self.outlet = outlet(self)
        self._reader = threading.Thread(target=self._read, daemon=True)
        self._reader.start()
        threading.Thread(target=self._watch, daemon=True).start()

    def take(self, message: Message) -> None:
        """Hands a message's lines on, once there is room in the window."""
        self._wait(lambda: self._lines < MOST_LINES_IN_FLIGHT and self._bytes < MOST_BYTES_IN_FLIGHT)
        with self._changed:
            self._in_flight.append(message)
            self._unanswered.extend([message] * message.owed)
            self._lines += message.owed
            self._bytes += message.size
        self._write(b"".join(line + b"\n" for line in message.lines))
        self._settle()

    def wait_for(self, message: Message) -> None:
        """Waits until all replies to a message are kept."""
        self._wait(lambda: message not in self._in_flight)

    def kept(self, message: Message) -> None:
        """One more reply to a message is kept."""
        with self._changed:
            message.owed -= 1
            self._lines -= 1
            self._done += 1
        self._settle()

    def fail(self, failure: Exception) -> None:
        """Ends all waits by an error."""
        with self._changed:
            self._failure = self._failure or failure
            self._changed.notify_all()

    def look(self) -> None:
        """Raises what ended it, if anything did."""
        if self._failure:
            raise self._failure

    def owes(self) -> str:
        """Who owes something of what was handed on, in words; none where all is done."""
        with self._changed:
            if self._unanswered:
                return f"{self.name}, which owes {len(self._unanswered)} replies"
            return f"the broker to keep {self._lines} replies" if self._in_flight else ""

    def end(self) -> None:
        """Ends the command's input, and waits until all that is owed is kept and the command has ended."""
        self._is_ending = True
        self._input.close()
        self._wait(lambda: not self._in_flight and not self._reader.is_alive())
        status = self._process.wait()
        if status:
            raise CommandEnded(f"{self.name} ended with status {status}", status)

    def drop(self) -> None:
        """Lets go of the command where the bridge failed: it ends with its input."""
        self._is_ending = True
        if not self._input.closed:
            self._input.close()

    def _wait(self, is_there: Callable[[], bool]) -> None:
        """Waits until something is so; raises what ended the bridge meanwhile."""
        while True:
            self.outlet.serve()
            with self._changed:
                self.look()
                if is_there():
                    return
                self._changed.wait(TURN_SECONDS)

    def _watch(self) -> None:
        """Tells who is waited for, as long as there is a bridge; what is done meanwhile ends a wait."""
        patience, done = Patience(self.program), 0
        while True:
            time.sleep(TURN_SECONDS)
            owes = self.owes()
            if not owes or done != self._done:
                patience.begin()
                done = self._done
            patience.look(f"waits for {owes}")

    def _settle(self) -> None:
        """Tells the outlet of each message at the front whose replies are kept."""
        with self._changed:
            while self._in_flight and self._in_flight[0].owed == 0:
                message = self._in_flight.popleft()
                self._bytes -= message.size
                self.outlet.done(message)
            self._changed.notify_all()

    def _write(self, text: bytes) -> None:
        """Writes to the command, and waits where it takes no more."""
        left = memoryview(text)
        try:
            while left:
                left = left[self._input.write(left) or 0:]
        except (BrokenPipeError, ValueError):
            self._reader.join()
            self.look()

    def _replies(self) -> Iterator[bytes]:
        """The replies of the command to its end."""
        cutter = LineCutter(most=None)
        while block := self._output.read(BLOCK_BYTES):
            yield from cutter.feed(block)

    def _read(self) -> None:
        """Hands each reply to the outlet."""
        try:
            for reply in self._replies():
                with self._changed:
                    if not self._unanswered:
                        raise EngineFailed(f"{self.name} answered what was not asked: {reply[:200]!r}")
                    message = self._unanswered.popleft()
                self.outlet.put(message, reply)
            if self._unanswered or not self._is_ending:
                status = self._process.wait()
                raise CommandEnded(f"{self.name} ended with status {status} and owed {len(self._unanswered)} replies",
                                   status)
        except Exception as failure:
            self.fail(failure)
