"""Tests of the deliveries of `service/door`: by webhooks and by mail, to servers that fail, stall and come back."""

from __future__ import annotations

import hmac
import json
import socketserver
import threading
import time
from collections import defaultdict
from email import message_from_string
from email.message import Message
from hashlib import sha256
from http.server import BaseHTTPRequestHandler, ThreadingHTTPServer
from pathlib import Path
from random import Random
from typing import Any, Callable

from pressclip_service.engine import command_of

from .door_runs import Door, Json, with_settings
from .judge import folder, need
from .processes import ENDED, PATIENCE_SECONDS

SECRET = b"a secret of many bytes"
PAUSES = "first_pause_seconds = 0.05\nmost_pause_seconds = 0.4"
DOOR_KILLS = 2


class Hook(ThreadingHTTPServer):
    """A webhook that takes what `behaviour` lets it: 200 takes, another status refuses, 0 stalls and then breaks off."""

    daemon_threads = True

    def __init__(self, behaviour: Callable[[Json], int]) -> None:
        super().__init__(("127.0.0.1", 0), HookRequest)
        self.behaviour = behaviour
        self.lock = threading.Lock()
        self.taken: list[Json] = []
        self.tried = 0
        self.wrong: list[str] = []
        threading.Thread(target=self.serve_forever, daemon=True).start()

    @property
    def address(self) -> str:
        """Where it is."""
        return f"http://127.0.0.1:{self.server_address[1]}/alerts"

    def __exit__(self, *_: Any) -> None:
        self.shutdown()
        self.server_close()


class HookRequest(BaseHTTPRequestHandler):
    """One delivery to it."""

    server: Hook
    protocol_version = "HTTP/1.1"

    def do_POST(self) -> None:
        """Judges its signature, and takes it or not."""
        body = self.rfile.read(int(self.headers["Content-Length"]))
        said = json.loads(body)
        at, _, signed = self.headers["Pressclip-Signature"].partition(",v1=")
        due = hmac.new(SECRET, at[2:].encode() + b"." + body, sha256).hexdigest()
        hook = self.server
        with hook.lock:
            hook.tried += 1
            if signed != due or abs(time.time() - int(at[2:])) > 60 or self.headers["Pressclip-Delivery"] != said["id"]:
                hook.wrong.append(f"{dict(self.headers)} {body!r}")
            status = hook.behaviour(said)
            if status == 200:
                hook.taken.append(said)
        if status == 0:
            time.sleep(0.1)
            self.close_connection = True
            return
        self.send_response(status)
        self.send_header("Content-Length", "0")
        self.end_headers()

    def log_message(self, *_: Any) -> None:
        """Says nothing."""


class Post(socketserver.ThreadingTCPServer):
    """A server of SMTP that refuses each second message, and breaks off each fifth connection."""

    allow_reuse_address = True
    daemon_threads = True

    def __init__(self) -> None:
        super().__init__(("127.0.0.1", 0), PostSession)
        self.lock = threading.Lock()
        self.taken: list[Message] = []
        self.tried = self.connections = 0
        threading.Thread(target=self.serve_forever, daemon=True).start()

    def __exit__(self, *_: Any) -> None:
        self.shutdown()
        self.server_close()


class PostSession(socketserver.StreamRequestHandler):
    """One session with it."""

    server: Post

    def handle(self) -> None:
        """Speaks SMTP (RFC 5321) as far as a client needs it."""
        with self.server.lock:
            self.server.connections += 1
            if self.server.connections % 5 == 0:
                return
        self._say("220 test")
        while line := self.rfile.readline().decode().strip():
            verb = line.split()[0].upper()
            if verb == "DATA":
                self._say("354 go on")
                self._take()
            elif verb == "QUIT":
                self._say("221 bye")
                return
            else:
                self._say("250 fine")

    def _take(self) -> None:
        lines: list[str] = []
        while (line := self.rfile.readline().decode()) not in (".\r\n", ""):
            lines.append(line.rstrip("\r\n").removeprefix("."))
        with self.server.lock:
            self.server.tried += 1
            if self.server.tried % 2 == 0:
                self._say("451 not now")
                return
            self.server.taken.append(message_from_string("\n".join(lines)))
        self._say("250 taken")

    def _say(self, text: str) -> None:
        self.wfile.write(text.encode() + b"\r\n")


def waits(holds: Callable[[], bool], what: str) -> None:
    """Waits until it holds; `Failed` where it takes too long."""
    start = time.monotonic()
    while not holds():
        need(time.monotonic() - start < PATIENCE_SECONDS / 2, what)
        time.sleep(0.02)


def hits_engine() -> list[str]:
    """The command of an engine that shows hits."""
    return [*command_of([], workers=0), "hits"]


def webhook_settings(name: str, address: str) -> str:
    """Settings with a webhook for the queries of the desk."""
    secret = Path(name) / "secret"
    secret.write_bytes(SECRET + b"\n")
    more = (f'journal = "j"\nspool = "spool"\n[[deliveries]]\nname = "desk"\nprefix = "desk/"\nwebhook = "{address}"\n'
            'secret = "secret"\n')
    return with_settings(name, PAUSES, hits_engine(), more)


def each_alert_is_delivered_in_order() -> None:
    """To a webhook that refuses, fails, stalls and comes back, while the door is ended by SIGKILL: of each alert whose
    reply came at least one, those of a query in their order, a double with the same id, and none of other queries."""
    dice = Random(31)
    with folder() as name, Hook(lambda said: dice.choice([200, 200, 200, 500, 0, 422])) as hook:
        path = webhook_settings(name, hook.address)
        answered: list[tuple[str, str]] = []
        for life in range(DOOR_KILLS + 1):
            with Door(path) as door:
                for query in ("desk/tea", "desk/rain", "other"):
                    door.put(query.replace("/", "%2F"), query.rpartition("/")[2].replace("other", "tea"))
                for number in range(12):
                    article = f"a{life}-{number}"
                    alerts = door.match(article, dice.choice(["tea", "rain", "tea and rain"]))["alerts"]
                    answered += [(query, article) for query in alerts[0]["queries"] if query.startswith("desk/")]
                if life < DOOR_KILLS:
                    door.process.kill()
                    ENDED.append("door with deliveries")
                    door.process.wait()
                else:
                    waits(lambda: waiting(door) == 0, "not all is delivered")
        judge(hook, answered)


def waiting(door: Door) -> int:
    """How many alerts wait for their delivery."""
    return sum(one["waiting"] for one in door.ask("GET", "/deliveries").value["deliveries"])


def judge(hook: Hook, answered: list[tuple[str, str]]) -> None:
    """`Failed` where an alert is missing, out of order, of another query, or a double has another id."""
    need(not hook.wrong, f"{hook.wrong[:1]}")
    ids: dict[tuple[str, str], set[str]] = defaultdict(set)
    order: dict[str, list[str]] = defaultdict(list)
    for said in hook.taken:
        ids[said["query"], said["article"]].add(said["id"])
        if said["article"] not in order[said["query"]]:
            order[said["query"]].append(said["article"])
        need(said["excerpts"][0]["pieces"][1] in ("tea", "rain"), f"{said}")
    need(set(ids) == set(answered), f"missing {set(answered) - set(ids)}, more {set(ids) - set(answered)}")
    need(all(len(found) == 1 for found in ids.values()), "a double has another id")
    need(len({one for found in ids.values() for one in found}) == len(ids), "two alerts have one id")
    for query, articles in order.items():
        due = [article for name, article in answered if name == query]
        need(articles == due, f"{query}: {articles}, and {due} is due")
    need(hook.tried > len(hook.taken), "the webhook took all at once")


def one_query_that_is_refused_holds_no_other_up() -> None:
    """Its alerts wait, with pauses that grow; those of others go on; and once it is taken its own come in order."""
    is_refusing = True
    times: list[float] = []

    def behave(said: Json) -> int:
        if said["query"] == "desk/tea" and is_refusing:
            times.append(time.monotonic())
            return 410
        return 200

    with folder() as name, Hook(behave) as hook:
        with Door(webhook_settings(name, hook.address)) as door:
            door.put("desk%2Ftea", "tea")
            door.put("desk%2Frain", "rain")
            for number in range(5):
                door.match(f"a{number}", "tea and rain")
            waits(lambda: len(hook.taken) == 5 and len(times) > 3, f"{hook.taken}")
            need({said["query"] for said in hook.taken} == {"desk/rain"}, f"{hook.taken}")
            need(times[3] - times[2] > 1.3 * (times[1] - times[0]), f"the pauses don't grow: {times}")
            told = door.ask("GET", "/deliveries").value["deliveries"][0]
            need(told["waiting"] == 5 and told["failure"] == "status 410", f"{told}")
            figures = door.ask("GET", "/metrics").text.decode()
            need('pressclip_deliveries_waiting{route="desk"} 5.0' in figures, figures)
            is_refusing = False
            waits(lambda: len(hook.taken) == 10, f"{hook.taken}")
            need([said["article"] for said in hook.taken if said["query"] == "desk/tea"] == [f"a{n}" for n in range(5)],
                 f"{hook.taken}")


def mail_comes_at_once_and_as_a_digest() -> None:
    """By a server that refuses each second message and breaks off: each alert is in a message, its marks in brackets;
    those of a second in one message; a second sending has the same Message-ID."""
    with folder() as name, Post() as post:
        smtp = f"127.0.0.1:{post.server_address[1]}"
        more = 'spool = "spool"\n' + "".join(
            f'[[deliveries]]\nname = "{kind}"\nprefix = "{kind}/"\nmail = "{kind}@desk.example"\n'
            f'sender = "pressclip@desk.example"\nsmtp = "{smtp}"\n{last}' for kind, last in (
                ("once", ""), ("digest", "digest_seconds = 1\n")))
        with Door(with_settings(name, PAUSES, hits_engine(), more)) as door:
            door.put("once%2Ftea", "tea")
            door.put("digest%2Frain", "rain")
            for number in range(4):
                door.match(f"a{number}", "Green tea" if number % 2 else "Rain again")
            waits(lambda: waiting(door) == 0, "not all is sent")
        texts = {kind: [message for message in post.taken if message["To"] == f"{kind}@desk.example"]
                 for kind in ("once", "digest")}
        need([message["Subject"] for message in texts["once"]] == ["once/tea in a1", "once/tea in a3"],
             f"{[str(message) for message in texts['once']]}")
        need("text: Green [tea]" in texts["once"][0].get_payload(), texts["once"][0].get_payload())
        whole = "".join(message.get_payload() for message in texts["digest"])
        need(whole.count("text: [Rain] again") == 2 and whole.index("in a0") < whole.index("in a2"), whole)
        names = [message["Message-ID"] for message in post.taken]
        need(len(set(names)) == len(names) and post.tried > len(names), f"{names}")


TESTS: tuple[Callable[[], None], ...] = (
    each_alert_is_delivered_in_order, one_query_that_is_refused_holds_no_other_up, mail_comes_at_once_and_as_a_digest)
