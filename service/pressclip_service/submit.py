"""The client of a grid: lines in, replies out, in order.

A line that is refused by itself is answered here and never enters: a probe, an engine that takes and forgets it, judges
it. Each other line enters once, under the client's name and its number in the input, whatever ends and starts again
between: a line that entered before is seen to have, and its reply is awaited.
"""

from __future__ import annotations

import os
import select
import signal
import sys
import threading
import time
import zlib
from collections import deque
from dataclasses import dataclass, replace
from typing import Sequence

from .earlier import EarlierLines, digest_of
from .errors import read_block, tell, write_all
from .hearing import Hearing
from .lines import BLOCK_BYTES, LineCutter, is_blank
from .lives import Life, forget
from .names import Id
from .probe import Probe, ids_by_shard, kind_of_line
from .replies import Kind, kind_of, renumbered
from .scripts import ENTER
from .standing import Standings
from .store import RequestsLost, Store
from .waits import Waits, Watch

INPUT, OUTPUT = 0, 1
LINES_AT_ONCE = 32
MOST_LINES_IN_FLIGHT = 1_024
MOST_BYTES_IN_FLIGHT = 16 << 20
TRIMMED_AFTER = 1_000
# An input that gives no line for so long may come from who waits for replies.
STALLED_SECONDS = 0.2
# A client without a name is forgotten so long after its end.
NAMELESS_SECONDS = 600.0
FORGET_SECONDS = 5.0
STATUS_TERMINATED = 128 + signal.SIGTERM


@dataclass(frozen=True)
class Options:
    """How a client submits: the line from which on replies are printed (None for the first of its input), whether its
    input begins behind the last line that entered, how many printed replies are kept, and how many seconds its name
    lives behind its end."""

    first: int | None
    goes_on: bool
    kept: int
    life: float


@dataclass
class Slot:
    """A line that is owed a reply, which is there already where the line was refused; as which request it entered, once
    that is known; and whether that was in an earlier life, or can't be known."""

    number: int
    size: int
    reply: bytes | None
    is_printed: bool
    is_earlier: bool
    place: Id | None = None


class Submitter:
    """One input, under one name."""

    def __init__(self, store: Store, client: str, probe: Probe, options: Options) -> None:
        self.store = store
        self.client = client
        self.probe = probe
        self.kept = options.kept
        self.settings = store.settings()
        self.hearing = Hearing(store, client, self.settings.shards)
        self.life = Life(store, self.settings, client, options.life)
        self.entered = self.entered_before = self.life.entered.number
        self.earlier = EarlierLines(store, client, self.life.entered)
        self.goes_on = options.goes_on
        self.number = self.entered_before if options.goes_on else 0
        self.first = options.first if options.first is not None else self.number + 1
        self.cutter = LineCutter()
        self.slots: deque[Slot] = deque()
        self.bytes_in_flight = 0
        self.changed = threading.Condition()
        # Nothing is printed before the lines that entered in earlier lives are compared, as far as the input has them.
        self.compared = threading.Event()
        self.input_ended = False
        self.failure: Exception | None = None
        self.printed = 0
        self.waits = Waits()

    def run(self) -> None:
        """Submits the input to its end, and prints each reply."""
        printer = threading.Thread(target=self._print, daemon=True)
        printer.start()
        Watch(self.store.program, self.life, self.waits, self._fail)
        while not self.input_ended:
            self._need_no_failure()
            if self.number >= self.entered_before:
                self.compared.set()
            readable, _, _ = select.select([INPUT], [], [], 1.0 if self.compared.is_set() else STALLED_SECONDS)
            block = read_block(INPUT, BLOCK_BYTES) if readable else None
            if block is None:
                self.compared.set()
            else:
                self._take_block(block)
        self.compared.set()
        while printer.is_alive():
            printer.join(1.0)
            self._need_no_failure()
        self._need_no_failure()

    def _take_block(self, block: bytes) -> None:
        """Takes what the input gave, or its end."""
        lines = self.cutter.feed(block) if block else self.cutter.end()
        for at in range(0, len(lines), LINES_AT_ONCE):
            self._take(lines[at:at + LINES_AT_ONCE])
        if not block:
            self._end()

    def _fail(self, error: Exception) -> None:
        """Ends the work, from whichever thread sees that it can't go on."""
        with self.changed:
            self.failure = self.failure or error
            self.changed.notify_all()

    def _need_no_failure(self) -> None:
        if self.failure:
            raise self.failure

    def _end(self) -> None:
        with self.changed:
            self.input_ended = True
            self.changed.notify_all()

    def _take(self, lines: list[bytes]) -> None:
        """Judges lines, and lets those enter that are not refused."""
        numbered: list[tuple[int, bytes, bool | None]] = []
        for line in lines:
            self.number += 1
            is_earlier = self.number <= self.entered_before
            has_entered = self.earlier.has(self.number, line) if is_earlier else None
            if (not is_earlier or self.number >= self.first) and not is_blank(line):
                numbered.append((self.number, line, has_entered))
        slots, calls = [], []
        for (number, line, has_entered), reply in zip(numbered, self._judged([line for _, line, _ in numbered])):
            is_refused = kind_of(reply) is Kind.REFUSED
            if has_entered is False and not is_refused:
                raise self.earlier.is_another(number)
            answered = renumbered(reply, number) if is_refused else None
            slots.append(Slot(number, len(line), answered, number >= self.first, number <= self.entered_before))
            if number > self.entered_before and not is_refused:
                calls.append(self._call(number, line, kind_of_line(reply)))
        self._wait_for_room(slots)
        self._enter(calls, [slot for slot in slots if slot.reply is None and not slot.is_earlier])

    def _judged(self, lines: list[bytes]) -> list[bytes]:
        """The probe's replies to lines."""
        with self.waits.on("the engine that judges lines before they enter, which owes a reply"):
            return self.probe.judge(lines)

    def _call(self, number: int, line: bytes, kind: bytes) -> tuple[list[str], list[object]]:
        before, self.entered = self.entered, number
        return ([self.store.names.prefix], [self.client, number, before, zlib.crc32(line), kind, line, self.life.mark,
                                            digest_of(line), *ids_by_shard(kind, line, self.settings.shards)])

    def _wait_for_room(self, slots: list[Slot]) -> None:
        """Owes the lines their replies, once not too many are owed."""
        with self.changed:
            while (len(self.slots) > MOST_LINES_IN_FLIGHT or self.bytes_in_flight > MOST_BYTES_IN_FLIGHT) \
                    and not self.failure:
                self.compared.set()
                self.changed.wait(1.0)
            self._need_no_failure()
            self.slots.extend(slots)
            self.bytes_in_flight += sum(slot.size for slot in slots)
            self.changed.notify_all()

    def _enter(self, calls: list[tuple[list[str], list[object]]], slots: list[Slot]) -> None:
        """Lets lines enter, and notes as which requests they did."""
        if not calls:
            return
        places = self.store.scripted(ENTER, calls)
        with self.changed:
            for slot, place in zip(slots, places):
                if place == b"gap":
                    raise RequestsLost(f"Redis forgot lines of {self.client} that entered: its file is an older one, or"
                                       " is not synced always")
                if place.startswith(b"life "):
                    raise self.life.lost_to(place[len(b"life "):].decode())
                slot.is_earlier = place == b"seen"
                slot.place = None if slot.is_earlier else Id.of(place)
                self.store.last_read = max(self.store.last_read, slot.place or Id(0, 0))
            self.changed.notify_all()

    def _print(self) -> None:
        """Prints replies in the order of the lines, in a thread of its own."""
        try:
            self.compared.wait()
            self._print_earlier()
            while self._is_owed():
                self._print_arrived()
                self._wait()
        except Exception as error:
            self._fail(error)

    def _is_owed(self) -> bool:
        """Whether a reply is owed, after a wait for lines; False at the end."""
        with self.changed:
            while not self.slots and not self.input_ended:
                self.changed.wait(1.0)
            return bool(self.slots)

    def _wait(self) -> None:
        """Waits for the oldest reply that is owed, for a short while: until its line entered, or until answers come."""
        if not self.slots:
            return
        oldest = self.slots[0]
        self.waits.begin("reply", oldest.number, lambda: self._waited_for(oldest))
        if oldest.is_earlier:
            self.hearing.wait_for_kept()
        elif oldest.place is not None:
            self.hearing.wait_for(oldest.place)
        elif oldest.reply is None:
            with self.changed:
                self.changed.wait_for(lambda: oldest.place is not None or oldest.is_earlier, 0.1)

    def _waited_for(self, slot: Slot) -> str:
        """Whom the reply to a line waits for."""
        if slot.place is None and not slot.is_earlier:
            return f"Redis to take line {slot.number}"
        return f"the reply to line {slot.number}: {Standings(self.store, self.settings).waited_for(slot.place)}"

    def _write(self, text: bytes) -> None:
        with self.waits.on("whoever reads the replies"):
            write_all(OUTPUT, text)

    def _print_earlier(self) -> None:
        """Where the input goes on behind an earlier one: prints the replies of that one from the first on, as far as
        lines of it entered."""
        if not self.goes_on or self.entered_before == 0:
            return
        kept = self.hearing.kept
        while True:
            self.hearing.wait_for_kept()
            while kept:
                earlier = kept.popleft()
                if earlier.line_number >= self.first:
                    self._write(earlier.reply() + b"\n")
                if earlier.line_number >= self.entered_before:
                    return

    def _reply_to(self, slot: Slot) -> bytes | None:
        """The reply to a line, where it came."""
        if slot.reply is not None:
            return slot.reply
        if slot.is_earlier:
            return self.hearing.reply_to_earlier(slot.number)
        return self.hearing.reply_to(slot.number, slot.place) if slot.place is not None else None

    def _print_arrived(self) -> None:
        """Prints what can be printed: refusals, and replies that came."""
        out: list[bytes] = []
        done = size = 0
        for slot in list(self.slots):
            reply = self._reply_to(slot)
            if reply is None:
                break
            if slot.is_printed:
                out += (reply, b"\n")
            done += 1
            size += slot.size
        if not done:
            return
        self.waits.end("reply")
        self._write(b"".join(out))
        with self.changed:
            for _ in range(done):
                self.slots.popleft()
            self.bytes_in_flight -= size
            self.changed.notify_all()
        self._drop_old(done)

    def _drop_old(self, done: int) -> None:
        """Drops replies that were printed long ago."""
        self.printed += done
        if self.printed >= TRIMMED_AFTER:
            self.printed = 0
            for key in (self.store.names.replies(self.client), self.store.names.lines(self.client)):
                self.store.trim(key, self.kept)


def _end_by_signal(*_: object) -> None:
    sys.exit(STATUS_TERMINATED)


def submit(store: Store, name: str | None, command: Sequence[str], options: Options) -> None:
    """Submits standard input; without a name under one of its own, which is forgotten at the end."""
    if name:
        Submitter(store, name, Probe(command), options).run()
        tell(store.program, f"submitted as {name}")
        return
    signal.signal(signal.SIGTERM, _end_by_signal)
    client = f"nameless-{os.getpid()}-{time.time_ns()}"
    try:
        Submitter(store, client, Probe(command), replace(options, life=NAMELESS_SECONDS)).run()
    finally:
        # Where Redis is away its name goes with its life.
        forgetting = threading.Thread(target=forget, args=(store, client), daemon=True)
        forgetting.start()
        forgetting.join(FORGET_SECONDS)
