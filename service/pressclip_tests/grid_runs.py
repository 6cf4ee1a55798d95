"""A grid under test: a Redis of its own, its processes, and a client that goes on where one was ended."""

from __future__ import annotations

import os
import signal
import socket
import subprocess
import time
from pathlib import Path
from random import Random
from typing import NamedTuple, Sequence

from pressclip_service.engine import command_of

from .judge import GRID, REDIS, Due, Failed, need
from .leaky import Faults, LeakyWay
from .processes import ENDED, Spoken, engine_of

DEBIAN_PYTHON = "/usr/bin/python3"
WINDOW = 60
KINDS = ("worker", "engine", "gatherer", "tidy", "client", "redis")
# How often two processes are ended with nothing between.
TWO_AT_ONCE = 0.2
REDIS_SECONDS = 30.0
ROLE_SECONDS = 300.0
# What holds the ports that were given out.
_HELD: list[socket.socket] = []


def free_port() -> int:
    """A port of 127.0.0.1 for this process's tests, where a server may listen that sets SO_REUSEADDR, as all here do.
    It is held to the end of the process: the system gives it to nobody else, also while no server is there."""
    held = socket.socket()
    held.setsockopt(socket.SOL_SOCKET, socket.SO_REUSEADDR, 1)
    held.bind(("127.0.0.1", 0))
    _HELD.append(held)
    port: int = held.getsockname()[1]
    return port


class Redis:
    """A Redis on 127.0.0.1, in a folder of its own, which loses nothing that it answered."""

    def __init__(self, folder: Path) -> None:
        self.folder = folder
        self.port = free_port()
        self.process: subprocess.Popen[bytes] | None = None
        self.start()
        self.asked("PING")

    def start(self, *options: str) -> None:
        """Starts it."""
        command = [str(REDIS), "--dir", str(self.folder), "--", "--port", str(self.port), "--bind", "127.0.0.1",
                   *options]
        with open(self.folder / "redis.told", "ab") as told:
            self.process = subprocess.Popen(command, stdin=subprocess.DEVNULL, stdout=told, stderr=told)

    def kill(self) -> None:
        """Ends it at once."""
        assert self.process
        self.process.kill()
        self.process.wait()

    def asked(self, *words: str) -> str:
        """What it answers, by its own client, once it is there."""
        return self.asked_raw(*words).decode().strip()

    def asked_raw(self, *words: str) -> bytes:
        """The same as bytes, with the line feed behind it."""
        deadline = time.monotonic() + REDIS_SECONDS
        while True:
            done = subprocess.run(["redis-cli", "--raw", "-p", str(self.port), *words], stdout=subprocess.PIPE,
                                  stderr=subprocess.PIPE, check=False)
            if done.returncode == 0 and not done.stdout.startswith(b"LOADING"):
                return done.stdout
            need(time.monotonic() < deadline, f"{words}: {done.stdout!r}{done.stderr!r}")
            time.sleep(0.05)


class Request(NamedTuple):
    """A request as it stands in the stream: the client, the number of the line, and the line."""

    client: str
    line_number: int
    line: bytes


class Role:
    """One process of the grid."""

    def __init__(self, grid: Grid, *words: str) -> None:
        self.words = words
        self.command = [*grid.command(*words), "--", *grid.engine]
        self.told = open(grid.folder / ("-".join(words).replace("/", "") + ".told"), "ab")
        self.process: subprocess.Popen[bytes] | None = None
        self.start()

    def start(self) -> None:
        """Starts it."""
        self.process = subprocess.Popen(self.command, stdin=subprocess.DEVNULL, stdout=subprocess.DEVNULL,
                                        stderr=self.told)

    def status(self) -> int | None:
        """The status with which it ended; None while it goes on."""
        return self.process.poll() if self.process else None

    def kill(self) -> None:
        """Ends it at once."""
        assert self.process
        self.process.kill()
        self.process.wait()


class Grid:
    """Redis, the workers, the gatherer and what tidies."""

    # What stands behind the engine's command.
    words: Sequence[str] = ()

    def __init__(self, folder: Path, shards: int, replicas: int, *, limit: int = 1_000_000, after: int = 150,
                 faults: Faults | None = None) -> None:
        self.folder = folder
        self.engine = [*command_of([], workers=0), *self.words]
        self.redis = Redis(folder)
        self._clients: list[Spoken] = []
        self.way = LeakyWay(self.redis.port, faults) if faults else None
        self.run("init", "--shards", str(shards), "--replicas", str(replicas), "--limit", str(limit))
        self.workers = [Role(self, "worker", "--shard", str(shard), "--replica", str(replica))
                        for shard in range(shards) for replica in range(replicas)]
        self.others = [Role(self, "gather"), Role(self, "tidy", "--after", str(after))]

    @property
    def _port(self) -> int:
        return self.way.port if self.way else self.redis.port

    def command(self, *words: str) -> list[str]:
        """The command of a role."""
        return [DEBIAN_PYTHON, str(GRID), "--redis", f"redis://127.0.0.1:{self._port}/0", *words]

    def run(self, *words: str, text: bytes = b"") -> bytes:
        """What a role that ends by itself prints."""
        return self.ended(*words, text=text, check=True).stdout

    def ended(self, *words: str, text: bytes = b"", check: bool = False) -> subprocess.CompletedProcess[bytes]:
        """A role that ends by itself, with its status and what it printed and told."""
        return subprocess.run(self.command(*words, "--", *self.engine), input=text, stdout=subprocess.PIPE,
                              stderr=None if check else subprocess.PIPE, check=check, timeout=ROLE_SECONDS)

    def client(self, *words: str) -> Spoken:
        """A client that is spoken to line by line, and is ended with the grid."""
        client = Spoken([*self.command("submit", *words), "--", *self.engine])
        self._clients.append(client)
        return client

    def requests(self) -> list[Request]:
        """All requests in the stream in order."""
        lines = self.redis.asked_raw("XRANGE", "pressclip:grid:requests", "-", "+").split(b"\n")
        found = []
        for at in range(0, len(lines) - 10, 11):
            fields = dict(zip(lines[at + 1:at + 11:2], lines[at + 2:at + 11:2]))
            found.append(Request(fields[b"c"].decode(), int(fields[b"n"]), fields[b"l"]))
        return found

    def told(self) -> str:
        """What its processes and Redis told, and which processes have ended."""
        texts = [path.name + ":\n" + path.read_text() for path in sorted(self.folder.glob("*.told"))]
        roles = (*self.workers, *self.others)
        ended = [role.words for role in roles if role.process and role.process.poll() is not None]
        return "\n".join(texts) + f"\nended: {ended}"

    def needs_all(self) -> None:
        """`Failed` where one of its processes ended by itself."""
        for role in (*self.workers, *self.others):
            if role.process and role.process.poll() is not None:
                raise Failed(f"{role.words} ended\n{self.told()}")

    def close(self) -> None:
        """Ends all of it."""
        for client in self._clients:
            client.process.kill()
            client.process.wait()
        for role in (*self.workers, *self.others):
            role.kill()
            role.told.close()
        self.redis.kill()
        if self.way:
            self.way.close()

    def __enter__(self) -> Grid:
        return self

    def __exit__(self, *_: object) -> None:
        self.close()


def end(role: Role | Redis) -> None:
    """Ends a process, or Redis, by SIGKILL."""
    role.kill()
    ENDED.append(role.words[0] if isinstance(role, Role) else "redis")


class Chaos:
    """One input through a grid, with a process ended at each of some places in it, and started again."""

    def __init__(self, grid: Grid, due: Due, dice: Random, name: str) -> None:
        self.grid = grid
        self.due = due
        self.dice = dice
        self.name = name
        self.answered = self.sent = 0
        self.got: list[bytes] = []
        self.ended: list[str] = []
        self.kinds: list[str] = []
        self.client = self._client()

    def _client(self) -> Spoken:
        """A client that prints what is not printed yet, of the whole input."""
        self.sent = 0
        return self.grid.client("--name", self.name, "--from", str(self.answered + 1))

    def run(self, places: Sequence[int]) -> bytes:
        """The replies to the whole input."""
        left = sorted(places)
        while not self.is_done:
            self.feed(WINDOW)
            if left and self.answered >= left[0]:
                left.pop(0)
                self.end_one()
                if left and self.dice.random() < TWO_AT_ONCE:
                    left.pop(0)
                    self.end_one()
                continue
            self.take(self.client.wait_for_replies())
        self.client.close()
        return self.text()

    @property
    def is_done(self) -> bool:
        """Whether the whole input is answered."""
        return self.answered == len(self.due.lines)

    def text(self) -> bytes:
        """The replies so far."""
        return b"".join(reply + b"\n" for reply in self.got)

    def feed(self, ahead: int) -> None:
        """Sends lines, so many at most that are not answered."""
        while self.sent < min(len(self.due.lines), self.answered + ahead):
            self.client.send(self.due.lines[self.sent])
            self.sent += 1

    def goes_on_to(self, count: int, ahead: int = 20) -> None:
        """Has so many lines answered."""
        while self.answered < count:
            self.feed(ahead)
            self.take(self.client.wait_for_replies())

    def take(self, replies: list[bytes]) -> None:
        """Counts replies; `Failed` where there are none."""
        if not replies:
            raise Failed(f"no reply to line {self.answered + 1}; the client told {self.client.told()}\n"
                         f"{self.grid.told()}")
        self.count(replies)

    def count(self, replies: list[bytes]) -> None:
        """Counts replies, and lines that have none."""
        for reply in replies:
            self.got.append(reply)
            self._pass_blank()
            self.answered += 1
        self._pass_blank()

    def _pass_blank(self) -> None:
        while self.answered < len(self.due.lines) and self.due.replies[self.answered] is None:
            self.answered += 1

    def end_one(self) -> None:
        """Ends a process of some kind by SIGKILL, and starts it again."""
        kind = self._next_kind()
        self.client.turn(self.dice.choice([0, 0.005, 0.02]))
        if kind == "client":
            self.client.kill()
            self.count(self.client.replies())
            self.client = self._client()
        elif kind == "redis":
            self.grid.redis.kill()
            self.grid.redis.start()
        elif kind == "engine":
            if not self._end_engine(self.dice.choice(self.grid.workers)):
                return
        else:
            role = (self.dice.choice(self.grid.workers) if kind == "worker" else
                    self.grid.others[0 if kind == "gatherer" else 1])
            role.kill()
            role.start()
        self.ended.append(kind)
        ENDED.append(kind)

    def _next_kind(self) -> str:
        """What is ended next: each kind as often as the others, in a random order."""
        if not self.kinds:
            self.kinds = self.dice.sample(KINDS, len(KINDS))
        return self.kinds.pop()

    def _end_engine(self, role: Role) -> bool:
        """Ends the engine of a worker, where it has one already."""
        assert role.process
        start = time.monotonic()
        while time.monotonic() - start < 5:
            engine = engine_of(role.process.pid)
            if engine is not None:
                os.kill(engine, signal.SIGKILL)
                return True
            time.sleep(0.02)
        return False
