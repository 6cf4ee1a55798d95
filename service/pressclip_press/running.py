"""`service/press run`: an engine that takes queries of the dialect and plain articles, and answers as engines do."""

from __future__ import annotations

import json
import select
from collections import deque
from collections.abc import Callable, Collection, Iterable, Mapping, Sequence
from dataclasses import dataclass, field
from typing import Any

from pressclip_service.engine import Engine
from pressclip_service.errors import EngineDied, EngineFailed, tell, write_all
from pressclip_service.input import Input
from pressclip_service.live import register_lines, text_of
from pressclip_service.patience import Patience
from pressclip_service.place import command_name
from pressclip_service.replies import Kind, kind_of, number_of, renumbered
from pressclip_service.signals import Termination
from pressclip_service.streams import INPUT, OUTPUT

from .filtering import Pages
from .lines import Delete, Match, Passed, Register, Rewriter, NotAsked
from .preparing import Preparer
from .registry import Registry
from .sources import as_written, source_in
from .tree import Level

NAME = command_name("press")
MOST_LINES_IN_FLIGHT = 4_096
MOST_BYTES_IN_FLIGHT = 8 << 20
_WRITTEN_AT_ONCE = 1 << 16
_COUNT = b'{"op":"count"}'


@dataclass
class Asked:
    """A line of the input that is owed a reply, what it was made to, and what the engine answered to its parts."""

    number: int
    made: Register | Match | Delete | Passed | NotAsked
    size: int
    parts: int = 1
    replies: list[bytes] = field(default_factory=list)


class Runner:
    """Lines in, replies out."""

    def __init__(self, preparer: Preparer, command: Sequence[str], termination: Termination, is_quiet: bool) -> None:
        self.engine = Engine(command)
        self.input = Input()
        self.termination = termination
        self.is_quiet = is_quiet
        self.registry = Registry(preparer)
        self.patience = Patience(NAME)
        self._rewriter = Rewriter(preparer)
        self._owed: deque[Asked] = deque()
        # What the engine owes, in its order: a line of the input, or the id of a query that is asked for.
        self._expected: deque[Asked | str] = deque()
        self._answered = 0
        self._bytes = 0
        self._waiting: deque[tuple[int, bytes]] = deque()
        self._asked_for: set[str] = set()
        self._unread: set[str] = set()

    def begin(self, queries: Callable[[], Sequence[dict[str, str]]] = list) -> None:
        """Asks the engine how many queries it has from before, and learns them where `queries` gives them all."""
        [reply] = self._exchanged([_COUNT])
        if kind_of(reply) is not Kind.COUNTED:
            raise EngineFailed(f"the engine answered what is no reply: {reply[:80]!r}")
        count = json.loads(reply)["count"]
        listings = queries() if count else []
        if len(listings) == count and all(source_in(listing["query"]) for listing in listings):
            self._learn(listings)
            return
        self.registry.has_others()
        tell(NAME, f"the engine has {count} queries of before; articles are sent with all that these may ask for")

    def _exchanged(self, lines: Iterable[bytes]) -> list[bytes]:
        """The replies to lines of our own."""
        replies = list(self.engine.exchange(lines))
        self._answered += len(replies)
        return replies

    def _learn(self, listings: Sequence[dict[str, str]]) -> None:
        """Learns queries that the engine has, and registers those anew that are translated in another way now."""
        queries = [self._rewriter.listed(listing) for listing in listings]
        for listed in queries:
            if listed.refused:
                raise EngineFailed(f"query {listed.id!r} was registered by another profile: {listed.refused.says}")
        self.registry.expect(queries)
        self.registry.register(queries)
        others = [text_of({**listing, "query": listed.query}) for listing, listed in zip(listings, queries)
                  if listing["query"] != listed.query]
        for reply in self._exchanged(register_lines(others)):
            if kind_of(reply) is not Kind.REGISTERED:
                raise EngineFailed(f"queries were registered by another profile: {reply[:200]!r}")
        if others:
            tell(NAME, f"{len(others)} queries are translated in another way than before, and registered anew")

    def run(self) -> None:
        """Serves the input to its end, or until an end is asked for."""
        while not self._is_done():
            self._turn()
        self.engine.push_all()
        self.engine.close_input()
        while self.engine.read() is not None:
            pass
        self.engine.wait()
        if self.input.failure:
            raise self.input.failure

    def _is_done(self) -> bool:
        return self.input.has_ended and not self._owed and not self._waiting

    def _turn(self) -> None:
        """Waits for something to do, and does it."""
        if self.termination.is_asked:
            self.input.end()
            if self._is_done():
                return
        ready = self._ready()
        if self.engine.output in ready:
            self._take_replies()
            self.patience.begin()
        if INPUT in ready and self._has_room() and not self.termination.is_asked:
            self._waiting += self.input.take()
        self._ask_waiting()
        self._answer()
        while self._waiting and not self._owed:
            self._ask_waiting()
            self._answer()
        self.engine.push()

    def _ready(self) -> set[int]:
        """The descriptors at which there is something to do, after a wait."""
        poll = select.poll()
        poll.register(self.termination.woken, select.POLLIN)
        poll.register(self.engine.output, select.POLLIN)
        if self.engine.unsent:
            poll.register(self.engine.input, select.POLLOUT)
        if self._has_room():
            poll.register(INPUT, select.POLLIN)
        is_idle = not self._owed and not self._waiting
        found = poll.poll(None if is_idle else 1_000 * self.patience.seconds_left())
        ready = {descriptor for descriptor, _ in found}
        if not ready:
            self.patience.look(f"waits for the engine's reply to line {self._owed[0].number}")
        if self.termination.woken in ready:
            self.termination.take()
        return ready

    def _has_room(self) -> bool:
        return (not self.input.has_ended and not self._waiting and len(self._owed) < MOST_LINES_IN_FLIGHT
                and self._bytes < MOST_BYTES_IN_FLIGHT)

    def _ask_waiting(self) -> None:
        """Sends lines that wait. One that changes what is registered waits for all replies before it, where the engine
        has queries whose filters may be asked for still."""
        while self._waiting:
            number, line = self._waiting[0]
            if self._owed and not self.registry.is_whole and b'"match"' not in line:
                return
            self._waiting.popleft()
            self._ask(number, line)
            if len(self.engine.unsent) > _WRITTEN_AT_ONCE:
                self.engine.push()

    def _ask(self, number: int, line: bytes) -> None:
        if not self._owed:
            self.patience.begin()
        made = self._rewriter.rewritten(line, self.registry.fields)
        self._tell_unread()
        asked = Asked(number, made, len(line))
        self._owed.append(asked)
        self._bytes += asked.size
        if isinstance(made, Match):
            lines = made.lines
        else:
            lines = [] if isinstance(made, NotAsked) else [made.line]
        if isinstance(made, Register):
            self.registry.expect(made.queries)
        asked.parts = len(lines)
        for one in lines:
            self.engine.send(one)
            self._expected.append(asked)

    def _tell_unread(self) -> None:
        """Tells of each field of days or numbers whose text was none, the first time."""
        for name, article in self._rewriter.unread.items():
            if name not in self._unread:
                self._unread.add(name)
                tell(NAME, f"article {article!r}: {name} is no value of its kind, and left out, here and wherever it is so")

    def _take_replies(self) -> None:
        """Takes what the engine answered, each reply to what it is of."""
        replies = self.engine.read()
        if replies is None:
            raise EngineDied(f"the engine ended with status {self.engine.wait()}, and owed {len(self._expected)} replies")
        for reply in replies:
            self._answered += 1
            if not self._expected or number_of(reply) != self._answered:
                raise EngineFailed(f"the engine answered out of turn: {reply[:200]!r}")
            asked = self._expected.popleft()
            if isinstance(asked, str):
                self._asked_for.discard(asked)
                text = json.loads(reply)["query"]
                self.registry.learn(asked, None if text is None else source_in(text))
            else:
                asked.replies.append(reply)

    def _answer(self) -> None:
        """Writes the replies that are due."""
        out: list[bytes] = []
        while self._owed and len(self._owed[0].replies) == self._owed[0].parts and not self._asked_for:
            asked = self._owed[0]
            unknown = self._unknown_in(asked)
            if unknown:
                self._ask_for(unknown)
                break
            self._owed.popleft()
            self._bytes -= asked.size
            out.append(self._reply(asked))
        if out:
            write_all(OUTPUT, b"\n".join(out) + b"\n")

    def _unknown_in(self, asked: Asked) -> list[str]:
        """The queries of alerts whose filters are not known."""
        if self.registry.is_whole or not isinstance(asked.made, Match):
            return []
        ids = (id for reply in asked.replies for alert in _alerts_of(reply) for id in alert["queries"])
        return [id for id in dict.fromkeys(ids) if not self.registry.is_known(id)]

    def _ask_for(self, ids: Sequence[str]) -> None:
        """Asks the engine for queries that were registered before this process was."""
        for id in ids:
            self.engine.send(text_of({"op": "show", "id": id}))
            self._expected.append(id)
            self._asked_for.add(id)

    def _reply(self, asked: Asked) -> bytes:
        """The reply to a line, by the engine's to its parts."""
        made = asked.made
        if isinstance(made, NotAsked):
            tell(NAME, f"line {asked.number} is refused: {made.why}")
            return text_of({"line": asked.number, "refused": made.word})
        reply = asked.replies[0]
        kind = kind_of(reply)
        if isinstance(made, Register):
            self._registered(asked.number, made, reply, kind)
        elif kind is Kind.DELETED and isinstance(made, Delete):
            self.registry.delete(made.ids)
        elif kind is Kind.CLEARED:
            self.registry.clear()
        elif isinstance(made, Match):
            return self._matched(asked.number, made, asked.replies)
        elif isinstance(made, Passed) and made.operation == "show" and kind is Kind.OTHER:
            return self._shown(asked.number, reply)
        return reply if number_of(reply) == asked.number else renumbered(reply, asked.number)

    def _registered(self, number: int, made: Register, reply: bytes, kind: Kind) -> None:
        """Follows a register, or tells why it was refused."""
        if kind is Kind.REGISTERED:
            self.registry.register(made.queries)
            if not self.is_quiet:
                self._tell_remarks(number, made)
            return
        refusal = json.loads(reply)
        if refusal.get("refused") != "query":
            return
        listed = made.queries[refusal["which"]]
        if listed.refused:
            place = listed.refused.place
            tell(NAME, f"line {number}: query {listed.id!r} is refused at character {place.start}:"
                       f" {listed.refused.says}")
        else:
            tell(NAME, f"line {number}: query {listed.id!r} is refused: it is too long or has too many parts")

    @staticmethod
    def _tell_remarks(number: int, made: Register) -> None:
        for listed in made.queries:
            for remark in listed.translated.remarks if listed.translated else ():
                if remark.level is not Level.HINT:
                    tell(NAME, f"line {number}: query {listed.id!r}, {remark.level.value} at character"
                               f" {remark.place.start}: {remark.says}")

    @staticmethod
    def _shown(number: int, reply: bytes) -> bytes:
        """A reply to a show, with the query as it was written."""
        text = json.loads(reply)["query"]
        return text_of({"line": number, "query": None if text is None else as_written(text)})

    def _matched(self, number: int, made: Match, replies: Sequence[bytes]) -> bytes:
        """A reply to a match, of the queries that hold by the dialect."""
        if len(replies) == 1 and not (self.registry.has_filters and b'"alerts"' in replies[0]):
            return renumbered(replies[0], number)
        values = [json.loads(reply) for reply in replies]
        refused = next((value for value in values if "refused" in value), None)
        if refused:
            return text_of({**refused, "line": number})
        alerts = [alert for value in values for alert in value["alerts"]]
        notes = [note for value in values for note in value["notes"]]
        kept = [self._kept(alert["queries"], Pages(article)) for alert, article in zip(alerts, made.articles)]
        if notes:
            notes = self._notes_of_kept(alerts, kept, notes)
        if len(replies) == 1 and all(all(one) for one in kept):
            return renumbered(replies[0], number)
        return text_of({"alerts": [_with_kept(alert, one) for alert, one in zip(alerts, kept)], "line": number,
                        "notes": notes})

    def _kept(self, ids: Sequence[str], pages: Pages) -> list[bool]:
        """Whether each query holds by its filter."""
        return [(found := self.registry.filter(id)) is None or found.holds_of(pages) for id in ids]

    def _notes_of_kept(self, alerts: Sequence[Mapping[str, Any]], kept: Sequence[Sequence[bool]],
                       notes: Sequence[str]) -> list[str]:
        """What the listeners said of the alerts that are kept."""
        told = [(alert["article"], id, is_kept) for alert, one in zip(alerts, kept)
                for id, is_kept in zip(alert["queries"], one)]
        heard = [is_kept for _, id, is_kept in told if id in self.registry.heard]
        if len(heard) != len(notes):
            # Of queries that were registered without the dialect it is not known whether they have a listener.
            heard = _heard_by_their_words(told, notes)
        if len(heard) != len(notes):
            raise EngineFailed(f"the engine gave {len(notes)} notes, and {len(heard)} alerts have a listener")
        return [note for note, is_kept in zip(notes, heard) if is_kept]


def _heard_by_their_words(told: Sequence[tuple[str, str, bool]], notes: Sequence[str]) -> list[bool]:
    """Of each note whether its alert is kept, by the words in which the program's listeners name query and article."""
    left = iter(notes)
    note = next(left, None)
    found: list[bool] = []
    for article, id, is_kept in told:
        if note in (f"mail: {id} in {article}", f"feed {id}/{article}"):
            found.append(is_kept)
            note = next(left, None)
    return found


def _alerts_of(reply: bytes) -> Collection[Mapping[str, Any]]:
    alerts: list[Mapping[str, Any]] = json.loads(reply).get("alerts", [])
    return alerts


def _with_kept(alert: Mapping[str, Any], kept: Sequence[bool]) -> dict[str, Any]:
    """An alert with the queries that are kept, and with their hits."""
    lists: list[str] = ["hits", "queries"] if "hits" in alert else ["queries"]
    made = {name: [one for one, is_kept in zip(alert[name], kept) if is_kept] for name in lists}
    return {"article": alert["article"], **made}
