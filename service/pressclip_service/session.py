"""The work of a worker with one engine, until that ends.

One thread reads requests and feeds the engine, the other takes its replies and tells the answers that are due: those to
requests of its own replica, and of replicas that are away.
"""

from __future__ import annotations

import select
import threading
import time
from collections import deque
from dataclasses import dataclass, field
from typing import Iterable, Iterator, Mapping, Sequence

from .engine import Engine
from .errors import EngineDied, EngineFailed, tell
from .live import value_of
from .names import (CHANGES, CLEAR, CLIENT, COUNT, DELETE, KIND, LINE, LINE_NUMBER, MATCH, NUMBER, PURGE, REGISTER,
                    SHOW, Id, Settings, shard_of, worker_name)
from .parts import Heard, answer_of
from .replies import Kind, count_in, kind_of
from .scripts import NEED
from .signs import Signs
from .snapshots import Replaced, Requests, Snapshot, is_request, lines_of, part_of, snapshot_of
from .store import Entry, Store
from .teller import Answer, Teller
from .turns import State, Turns

MOST_OWED = 1_024
REQUESTS_AT_ONCE = 64
IDLE_SECONDS = 1.0
# A worker whose engine owes a reply for so long is stuck.
STUCK_SECONDS = 5.0
# So soon a worker that holds answers looks whether Redis has them still.
LOOK_SECONDS = 0.2
# Before an engine has taken as many changes as it can (4,294,967,295) another is built from the live queries.
MOST_LINES_OF_AN_ENGINE = 4_000_000_000
_NOTHING = b'{"op":"count"}'


@dataclass
class Owed:
    """A request that was read. The engine owes so many `replies` to its parts, and where `is_own` the worker an
    answer."""

    place: Id
    fields: Mapping[bytes, bytes]
    is_own: bool
    replies: int = 0
    registered: int = 0
    is_owner: bool = False
    queries: list[dict[str, str]] = field(default_factory=list)
    ids: list[str] = field(default_factory=list)

    @property
    def kind(self) -> bytes:
        """The kind of the request."""
        return self.fields[KIND]

    def answered(self, text: bytes) -> Answer:
        """The answer to it."""
        fields = self.fields
        return Answer(self.place, fields[CLIENT], fields[LINE_NUMBER], fields[NUMBER], fields[KIND], text)


class TakesOver(Exception):
    """A replica is away whose requests are to be answered, and the engine has changes that are no earlier."""


class Place:
    """Whose work a worker does, over all its sessions."""

    def __init__(self, shard: int, replica: int, replicas: int) -> None:
        self.shard = shard
        self.replica = replica
        self.replicas = replicas
        self.name = worker_name(shard, replica)
        self.turns = Turns(replicas, replica)
        # Up to where an engine ever came.
        self.furthest = Id(0, 0)

    def of(self, replica: int) -> str:
        """The name of another replica's worker."""
        return worker_name(self.shard, replica)


class Session:
    """The work with one engine, until that ends."""

    def __init__(self, store: Store, settings: Settings, place: Place, engine: Engine) -> None:
        self.store = store
        self.settings = settings
        self.place = place
        self.engine = engine
        self.signs = Signs(store, settings, place.name, [place.of(other) for other in place.turns.others])
        self.heard = Heard()
        self.owed: deque[Owed] = deque()
        self.room = threading.Semaphore(MOST_OWED)
        self.stop = threading.Event()
        self.failure: Exception | None = None
        self.kept = store.kept()
        # The replicas that are answered for here, and what tells their answers.
        self.mine = place.turns.mine
        self.tellers = {replica: Teller(store, place.shard, replica, self.kept) for replica in self.mine}
        # Up to there an earlier life has answered, so that requests behind it may be dropped.
        self.answered = max(self.kept, store.positions(store.names.answered).get(place.name, Id(0, 0)))
        self.is_behind = True
        self.is_at_end = False
        self.state = State.LOADING
        # The last request that was done, by its number, and the last change that the engine was sent.
        self.number = 0
        self.changed = Id(0, 0)
        # Where the stream ended when it was read to its end first.
        self.end: Id | None = None
        self.replied = time.monotonic()

    def run(self) -> None:
        """Answers requests; ends by an error alone."""
        snapshot = self._load()
        feeder = threading.Thread(target=self._feed, args=(Requests(self.store, self.place.shard, snapshot),),
                                  daemon=True)
        feeder.start()
        self.replied = time.monotonic()
        try:
            while True:
                self._take_replies()
                self._give_sign()
        finally:
            self.stop.set()
            self.engine.kill()
            feeder.join()

    def _load(self) -> Snapshot:
        """Gives the engine what the shard's snapshot has. From here on the requests behind it stay until they are
        read."""
        snapshot = snapshot_of(self.store, self.place.shard)
        self.number = snapshot.number
        self.store.scripted(NEED, [([self.store.names.needs], [self.place.name, snapshot.at.text()])])
        if snapshot_of(self.store, self.place.shard) != snapshot:
            raise Replaced()
        start = time.monotonic()
        self._give_sign()
        for reply in self.engine.exchange(self._listening(lines_of(self.store, snapshot))):
            if kind_of(reply) is not Kind.REGISTERED:
                raise EngineFailed(f"the engine refuses a line of the snapshot: {reply[:200]!r}")
            self._give_sign()
        tell(self.store.program, f"has the snapshot of {snapshot.at.text()} after {time.monotonic() - start:.1f} s")
        return snapshot

    def _listening(self, lines: Iterable[bytes]) -> Iterator[bytes]:
        for line in lines:
            self.heard.register(value_of(line)["queries"])
            yield line

    def _give_sign(self) -> None:
        """Gives a sign of life once a second, and follows those of the shard's other replicas."""
        if self.signs.is_due:
            self._see_state()
            self.place.turns.see(self.signs.give(self.number, self.state))

    def _see_state(self) -> None:
        """Sees whether the engine came to where the stream ended, and whether it owes a reply for long."""
        end = self.end
        if end is not None and (not self.owed or self.owed[0].place > end):
            self.is_at_end = True
        if not self.owed or time.monotonic() - self.replied <= STUCK_SECONDS:
            self.state = State.READY if self.is_at_end else State.LOADING
        elif self.state is not State.STUCK:
            self.state = State.STUCK
            tell(self.store.program, f"the engine owes a reply for {STUCK_SECONDS:.0f} s, behind request {self.number}")

    def _feed(self, requests: Requests) -> None:
        """Reads requests and sends the engine its parts, in a thread of its own."""
        try:
            while not self.stop.is_set():
                self._follow_turns(requests)
                for entry in requests.next(REQUESTS_AT_ONCE):
                    if not self._feed_one(entry):
                        return
                if requests.is_at_end and self.end is None:
                    self.end = requests.after
                self.engine.push_all()
        except Exception as error:
            self.failure = error

    def _follow_turns(self, requests: Requests) -> None:
        """Answers for the replicas whose turns are taken over now, and no more for those that are back."""
        mine = self.place.turns.mine
        for replica in mine - self.mine:
            tell(self.store.program, f"answers for {self.place.of(replica)}, which is away")
            self._take_over(replica, requests.after)
        for replica in self.mine - mine:
            tell(self.store.program, f"{self.place.of(replica)} is back")
        self.mine = mine

    def _take_over(self, replica: int, up_to: Id) -> None:
        """Answers the requests of a replica that nobody answered, of those that were read. `TakesOver` where the engine
        has changes from the first of them on."""
        name = self.place.of(replica)
        self.store.do(lambda client: client.hdel(self.store.names.needs, name))
        answered = max(self.store.kept(), self.store.positions(self.store.names.answered).get(name, Id(0, 0)))
        entries = [entry for entry in self.store.requests_between(answered, up_to)
                   if is_request(entry) and int(entry[1][NUMBER]) % self.settings.replicas == replica]
        if entries and self.changed >= entries[0][0]:
            raise TakesOver(f"requests of {name}, which is away, are no later than changes that the engine has")
        self.tellers = {**self.tellers, replica: Teller(self.store, self.place.shard, replica, answered)}
        self.mine = self.mine | {replica}
        for entry in entries:
            self._feed_one(entry)

    def _feed_one(self, entry: Entry) -> bool:
        """Sends the engine its part of a request; False where the session is over."""
        while not self.room.acquire(timeout=0.001):
            self.engine.push_all()
            if not self.room.acquire(timeout=IDLE_SECONDS):
                if self.stop.is_set():
                    return False
                continue
            break
        owed, parts = self._parts(entry)
        if self.engine.sent >= MOST_LINES_OF_AN_ENGINE:
            raise EngineDied("the engine has taken as many lines as it may")
        owed.replies = len(parts)
        self.owed.append(owed)
        for part in parts:
            self.engine.send(part)
            if len(self.engine.unsent) > 1 << 16:
                self.engine.push_all()
        return True

    def _parts(self, entry: Entry) -> tuple[Owed, list[bytes]]:
        """What is owed for a request, and the lines for the engine."""
        place, fields = entry
        kind, line = fields[KIND], fields[LINE]
        is_own = int(fields[NUMBER]) % self.settings.replicas in self.mine and place > self.kept
        owed = Owed(place, fields, is_own)
        parts: list[bytes] = []
        if kind in CHANGES:
            parts, owed.queries, owed.ids = part_of(kind, line, self.place.shard, self.settings.shards)
            self.changed = max(self.changed, place) if parts else self.changed
        elif kind == SHOW and is_own:
            owed.is_owner = shard_of(value_of(line)["id"], self.settings.shards) == self.place.shard
            parts = [line] if owed.is_owner else []
        elif kind == PURGE or (is_own and kind in (MATCH, COUNT)):
            parts = [line]
        return owed, parts or ([_NOTHING] if is_own else [])

    def _take_replies(self) -> None:
        """Takes what the engine answered, and tells the answers that are due."""
        is_holding = any(teller.is_holding for teller in self.tellers.values())
        readable, _, _ = select.select([self.engine.output], [], [], LOOK_SECONDS if is_holding else IDLE_SECONDS)
        if self.failure:
            raise self.failure
        answers: list[Answer] = []
        handled = self._skip()
        if readable:
            replies = self.engine.read()
            if replies is None:
                raise EngineDied(f"the engine ended with status {self.engine.wait()}")
            for reply in replies:
                owed = self.owed[0]
                if self._awaits(owed, reply):
                    continue
                answer = self._follow(owed, reply)
                self._pass(owed)
                if owed.is_own:
                    answers.append(owed.answered(answer))
                handled = self._skip() or owed.place
        if readable or not self.owed:
            self.replied = time.monotonic()
        self._tell(answers, is_idle=not readable)
        self._catch_up(handled)

    def _tell(self, answers: Sequence[Answer], is_idle: bool) -> None:
        """Tells answers, each for its replica, and where there is nothing to do what Redis forgot."""
        for replica, teller in self.tellers.items():
            due = [answer for answer in answers if int(answer.number) % self.settings.replicas == replica]
            if due or (is_idle and (replica in self.mine or teller.is_holding)):
                teller.tell(due)

    def _pass(self, owed: Owed) -> None:
        """Is done with the first request that is owed."""
        self.owed.popleft()
        self.room.release()
        self.number = max(self.number, int(owed.fields[NUMBER]))
        self.place.furthest = max(self.place.furthest, owed.place)

    def _skip(self) -> Id | None:
        """Passes by requests that nothing is owed for, and gives the last of them."""
        place = None
        while self.owed and not self.owed[0].replies:
            place = self.owed[0].place
            self._pass(self.owed[0])
        return place

    def _awaits(self, owed: Owed, reply: bytes) -> bool:
        """Whether the engine owes more replies to a request than this one."""
        if kind_of(reply) is Kind.REFUSED:
            raise EngineFailed(f"the engine refuses what was judged before: {reply[:200]!r}")
        if kind_of(reply) is Kind.REGISTERED:
            owed.registered += count_in(reply)
        owed.replies -= 1
        return owed.replies > 0

    def _follow(self, owed: Owed, reply: bytes) -> bytes:
        """The answer to a request, by the engine's last reply to its parts."""
        if owed.is_own and owed.kind in CHANGES and kind_of(reply) is Kind.COUNTED:
            return b"0"
        if owed.kind == REGISTER:
            self.heard.register(owed.queries)
            return b"%d" % owed.registered
        answer = answer_of(owed.kind, reply, owed.is_owner, self.heard) if owed.is_own else b""
        if owed.kind == DELETE:
            self.heard.delete(owed.ids)
        elif owed.kind == CLEAR:
            self.heard.names.clear()
        return answer

    def _catch_up(self, handled: Id | None) -> None:
        """Says that no old requests are needed, once the engine is where an earlier life was."""
        if self.is_behind and handled is not None and handled >= self.answered:
            self.is_behind = False
            self.store.do(lambda client: client.hdel(self.store.names.needs, self.place.name))
