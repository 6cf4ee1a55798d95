"""Tests of the streams of `service/door`: lines both ways, and alerts as they come."""

from __future__ import annotations

import json
import os
import signal
import socket
import subprocess
import threading
import time
from functools import partial
from pathlib import Path
from random import Random
from typing import Callable

from .door_runs import LINES, Answer, Door, Events, Stream, by_aiohttp, shared, with_settings, without_hits
from .inputs import Source, joined, with_long_lines
from .judge import Due, folder, need, replies_of_engine, same
from .keep_runs import changes_in
from .processes import ENDED, PATIENCE_SECONDS, children_of

ENDS_OF_EACH = 4


def posted(door: Door, text: bytes) -> bytes:
    """What curl gets for lines, streamed both ways."""
    done = subprocess.run(["curl", "-sSN", "-T", "-", "-X", "POST", "-H", f"Content-Type: {LINES}",
                           f"{door.address}/lines"], input=text, stdout=subprocess.PIPE, timeout=PATIENCE_SECONDS,
                          check=False)
    need(done.returncode == 0, f"curl ended with status {done.returncode}")
    return done.stdout


def lines_are_answered_as_by_the_engine() -> None:
    """A whole input at once, with lines that are too long and a last line without its line feed; several at a time."""
    text = joined(with_long_lines(Source(21).lines(1_200), Random(21))) + b'{"op":"count"}'
    with Door(engine=without_hits()) as door:
        same(posted(door, text), replies_of_engine(text), "replies")
        others = [joined([b'{"op":"show","id":"none %d"}' % number] * 400) for number in range(4)]
        found: dict[int, bytes] = {}

        def post(number: int) -> None:
            found[number] = posted(door, others[number])

        threads = [threading.Thread(target=post, args=(number,)) for number in range(4)]
        for thread in threads:
            thread.start()
        for thread in threads:
            thread.join()
        for number in range(4):
            same(found[number], replies_of_engine(others[number]), f"stream {number}")


class Client:
    """Sends an input over one stream after another, each broken off by an end of something, and judges each reply."""

    def __init__(self, due: Due, journal: Path, dice: Random) -> None:
        self.due = due
        self.journal = journal
        self.dice = dice
        self.at = 0

    def run(self, door: Door, stop: int | None, kill: Callable[[], None] | None) -> None:
        """Sends lines from where things stand up to a place, where something is ended; or to the end of the input."""
        stream = Stream(door)
        need(stream.changes == sum(self.due.changes[:self.at]), f"{stream.changes} changes are told at line {self.at}")
        start = sent = self.at
        stop = len(self.due.lines) if stop is None else stop
        replies: list[bytes] = []
        for line in self.due.lines[start:stop]:
            stream.send(line)
            sent += 1
        if kill is not None:
            replies += stream.blocks() if self.dice.random() < 0.7 else []
            kill()
        stream.end()
        while block := stream.blocks():
            replies += block
        stream.close()
        answered = self._judge(replies, start, sent)
        self.at = answered if kill is None else self.due.kept_up_to(changes_in(self.journal), answered, sent)

    def _judge(self, replies: list[bytes], start: int, sent: int) -> int:
        """The place behind the last line that is answered, where each reply that came is the one that is due."""
        answered = self._past_blanks(start, sent)
        for reply in replies:
            due = self.due.numbered_from(start, answered)
            need(reply == due, f"line {answered + 1}: got {reply[:300]!r}, due {due!r:.300}")
            answered = self._past_blanks(answered + 1, sent)
        return answered

    def _past_blanks(self, place: int, sent: int) -> int:
        while place < sent and self.due.replies[place] is None:
            place += 1
        return place


def lines_go_on_after_any_end() -> None:
    """While `keep`, its program and the door are ended by SIGKILL, each reply that comes is the one that is due, and
    each answered change is kept."""
    source = Source(22)
    due = Due.of(source.lines(1_500))
    places = sorted(source.dice.sample(range(100, 1_400), 3 * ENDS_OF_EACH))
    with folder() as name:
        journal = Path(name) / "j"
        client = Client(due, journal, source.dice)
        door = Door("--journal", str(journal), engine=without_hits())
        door.__enter__()
        try:
            for number, place in enumerate(places):
                place = max(place, client.at + 1)
                if number % 3 == 0:
                    client.run(door, place, door.process.kill)
                    ENDED.append("door")
                    door.process.wait()
                    door.close()
                    door = Door("--journal", str(journal), engine=without_hits())
                    door.__enter__()
                else:
                    keep = door.child("service/keep")
                    [program] = children_of(keep)
                    client.run(door, place, partial(os.kill, (keep, program)[number % 3 - 1], signal.SIGKILL))
                    ENDED.append(("keep", "program of keep")[number % 3 - 1] + " of a door")
                    wait_until_ready(door)
            client.run(door, None, None)
            need(client.at == len(due.lines), f"only {client.at} lines are answered")
            need(changes_in(journal) == sum(due.changes), "not each change is kept once")
        finally:
            door.close()


def wait_until_ready(door: Door) -> None:
    """Waits until the door answers again."""
    start = time.monotonic()
    while door.ask("GET", "/readyz").status != 200:
        need(time.monotonic() - start < PATIENCE_SECONDS, "it is not ready again")
        time.sleep(0.02)


def what_was_accepted_is_answered_at_the_end() -> None:
    """SIGTERM: lines that came whole have their replies, a change is kept, streams are closed, and the status is 0."""
    with folder() as name:
        with Door("--journal", str(Path(name) / "j"), engine=without_hits()) as door:
            stream = Stream(door)
            with Events(door) as events:
                for number in range(50):
                    stream.send(b'{"op":"register","queries":[{"id":"q%d","query":"tea"}]}' % number)
                stream.send(b'{"op":"match","articles":[{"id":"a1","fields":{"text":"tea"}}]}')
                need(events.next()["data"]["article"] == "a1", "no alert")
                door.process.send_signal(signal.SIGTERM)
                replies: list[bytes] = []
                while block := stream.blocks():
                    replies += block
                need(len(replies) == 51, f"{len(replies)} replies")
                need(events.next() == {}, "the stream of alerts goes on")
            door.ends()
            need(changes_in(Path(name) / "j") == 50, "not each change is kept")


def alerts_go_on_behind_the_last() -> None:
    """By server-sent events: what was missed first, in order and once each; what is no longer there is told."""
    with folder() as name, Door(with_settings(name, "alerts_kept = 30")) as door:
        door.put("desk%2Ftea", "tea")
        door.put("rain", "rain")
        with Events(door) as events, Events(door, "/alerts?prefix=desk/") as desk:
            for number in range(10):
                door.match(f"a{number}", "tea and rain")
            heard = [events.next() for _ in range(10)]
            need([one["data"] for one in heard] == [{"article": f"a{number}", "queries": ["desk/tea", "rain"]}
                                                    for number in range(10)], f"{heard}")
            need([desk.next()["data"]["queries"] for _ in range(10)] == [["desk/tea"]] * 10, "other queries")
        for number in range(10, 20):
            door.match(f"a{number}", "rain")
        with Events(door, last=heard[4]["id"]) as events:
            missed = [events.next()["data"]["article"] for _ in range(15)]
            need(missed == [f"a{number}" for number in range(5, 20)], f"{missed}")
            door.match("a20", "rain")
            need(events.next()["data"]["article"] == "a20", "the next is another one")
        for number in range(21, 41):
            door.match(f"a{number}", "rain")
        for last in (heard[4]["id"], "deadbeef-7", "nothing"):
            with Events(door, last=last) as events:
                lost = events.next()
                need(lost["event"] == "lost" and lost["data"]["from"] == last, f"{lost}")
                first = events.next()
                need(first["data"]["article"] == "a11" and first["id"] == lost["data"]["first"], f"{first}")


def alerts_come_by_websocket_and_with_excerpts() -> None:
    """The same alerts, with what stands around the words at which queries hold."""
    door = shared()
    door.put("q1", "prices")
    text = "x " * 200 + "tea prices rise" + " y" * 200
    act = {"post": "/articles", "body": {"id": "a1", "fields": {"text": text}}, "count": 1}
    (heard, code), = by_aiohttp(door, [("LISTEN", "/alerts?excerpts=true", act)])
    excerpt = heard[0]["excerpts"][0]
    need((heard[0]["article"], heard[0]["queries"], code) == ("a1", ["q1"], 1003), f"{heard} {code}")
    need(excerpt["query"] == "q1" and excerpt["field"] == "text" and excerpt["pieces"][1] == "prices", f"{excerpt}")
    before, after = excerpt["pieces"][0], excerpt["pieces"][2]
    need(before.endswith("x tea ") and before.startswith("…") and len(before) < 70, f"{before}")
    need(after.startswith(" rise y") and after.endswith("…") and len(after) < 70, f"{after}")


def a_slow_listener_is_let_go() -> None:
    """It is told behind which alert to go on; others hear all meanwhile."""
    limits = "unread_bytes = 20000\nunread_seconds = 20"
    with folder() as name, Door(with_settings(name, limits)) as door:
        queries = [{"id": f"{'q' * 200}{number}", "query": "tea"} for number in range(900)]
        door.ask("POST", "/queries", {"queries": queries})
        slow = socket.socket()
        slow.setsockopt(socket.SOL_SOCKET, socket.SO_RCVBUF, 4_096)
        slow.connect(("127.0.0.1", door.port))
        slow.sendall(b"GET /alerts HTTP/1.1\r\nHost: 127.0.0.1\r\n\r\n")
        with Events(door, "/alerts?prefix=" + "q" * 200 + "77") as events:
            count = 0
            while not door.events("listener dropped"):
                door.match(f"a{count}", "tea")
                need(events.next()["data"]["article"] == f"a{count}", "another alert")
                count += 1
                need(count < 2_000, "it is not let go")
        slow.settimeout(PATIENCE_SECONDS)
        heard = b""
        while block := slow.recv(1 << 20):
            heard += block
        slow.close()
        names = [line for line in heard.split(b"\n") if line.startswith(b"id: ")]
        dropped = heard[heard.index(b"event: dropped"):].decode().splitlines()[1]
        need(json.loads(dropped.partition(": ")[2]) == {"after": names[-1][4:].decode()}, f"{dropped} {names[-1]!r}")
        with Events(door, "/alerts", last=names[-1][4:].decode()) as events:
            need(events.next()["data"]["article"] == f"a{len(names)}", "it does not go on behind the last")


def where_the_engine_is_behind_more_is_put_off() -> None:
    """With 429 and after how long to try again; where the engine ends, what it owes is refused by name."""
    engine = ["sh", "-c", 'read first; echo "{\\"line\\":1,\\"refused\\":\\"shape\\"}"; exec cat > /dev/null']
    with folder() as name, Door(with_settings(name, "lines_in_flight = 4", engine)) as door:
        answers: list[Answer] = []
        threads = [threading.Thread(target=lambda: answers.append(door.ask("GET", "/queries/q1"))) for _ in range(4)]
        for thread in threads:
            thread.start()
        start = time.monotonic()
        while (figures := door.ask("GET", "/metrics").text) and b"pressclip_lines_in_flight 4.0" not in figures:
            need(time.monotonic() - start < PATIENCE_SECONDS, f"the lines are not in flight: {figures.decode()}")
            time.sleep(0.02)
        answer = door.ask("GET", "/queries/q1")
        answer.refused(429, "behind")
        need(answer.headers["Retry-After"] == "1", f"{answer.headers}")
        os.kill(door.child("cat"), signal.SIGKILL)
        for thread in threads:
            thread.join()
        for answer in answers:
            answer.refused(503, "ended")


TESTS: tuple[Callable[[], None], ...] = (
    lines_are_answered_as_by_the_engine, lines_go_on_after_any_end, what_was_accepted_is_answered_at_the_end,
    alerts_go_on_behind_the_last, alerts_come_by_websocket_and_with_excerpts, a_slow_listener_is_let_go,
    where_the_engine_is_behind_more_is_put_off)
