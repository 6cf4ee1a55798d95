"""A door under test: its process, and clients that ask it over HTTP."""

from __future__ import annotations

import atexit
import http.client
import json
import os
import re
import signal
import socket
import subprocess
import tempfile
import time
from pathlib import Path
from types import TracebackType
from typing import Any, Mapping, NamedTuple, Sequence

from pressclip_service.engine import command_of

from .grid_runs import DEBIAN_PYTHON
from .judge import SERVICE, need
from .processes import PATIENCE_SECONDS, children_of

Json = dict[str, Any]
DOOR = SERVICE / "door"
CLIENT = Path(__file__).with_name("door_client.py")
JSON = "application/json"
LINES = "application/x-ndjson"


class Answer(NamedTuple):
    """What was answered."""

    status: int
    headers: Mapping[str, str]
    text: bytes

    @property
    def value(self) -> Any:
        """The body as JSON."""
        return json.loads(self.text)

    def refused(self, status: int, word: str) -> Json:
        """The problem's document, which is that of this status and word; `Failed` else."""
        need(self.status == status and self.headers.get("Content-Type", "").startswith("application/problem+json"),
             f"status {self.status}, and {status} ({word}) is due: {self.text[:300]!r}")
        said: Json = self.value
        need(said["refused"] == word and said["status"] == status and bool(said["title"]), f"{said}, not {word}")
        return said


class Door:
    """A process of the door, at a port that the system chose."""

    def __init__(self, *options: str, engine: Sequence[str] = (), environment: Mapping[str, str] | None = None,
                 port: int = 0) -> None:
        self._told = tempfile.TemporaryFile()
        self.options = options
        engine = engine or [*command_of([], workers=2), "hits"]
        words = [DEBIAN_PYTHON, str(DOOR), "--port", str(port), *options]
        if not any(option.endswith(".toml") for option in options):
            words += ["--", *engine]
        self.process = subprocess.Popen(words, stdin=subprocess.DEVNULL, stdout=subprocess.DEVNULL, stderr=self._told,
                                        env={**os.environ, **(environment or {})})
        self.port = 0

    def __enter__(self) -> Door:
        self.port = int(self.hears("ready")["port"])
        return self

    def __exit__(self, kind: type[BaseException] | None, error: BaseException | None,
                 trace: TracebackType | None) -> None:
        self.close()

    def close(self) -> None:
        """Ends it, if it has not ended."""
        if self.process.poll() is None:
            self.process.send_signal(signal.SIGTERM)
            try:
                self.process.wait(PATIENCE_SECONDS)
            finally:
                self.process.kill()
        self._told.close()

    def told(self) -> str:
        """What was told on standard error so far."""
        size = os.fstat(self._told.fileno()).st_size
        return os.pread(self._told.fileno(), size, 0).decode()

    def events(self, name: str) -> list[Json]:
        """The events of a name in its log so far."""
        lines = [json.loads(line) for line in self.told().splitlines() if line.startswith("{") and line.endswith("}")]
        return [line for line in lines if line["event"] == name]

    def hears(self, name: str, count: int = 1) -> Json:
        """Waits until an event came so often, and gives the last; `Failed` where it does not come."""
        start = time.monotonic()
        while len(found := self.events(name)) < count:
            need(time.monotonic() - start < PATIENCE_SECONDS and self.process.poll() is None,
                 f"no event {name!r}, but: {self.told()}")
            time.sleep(0.01)
        return found[-1]

    def ends(self, number: int = signal.SIGTERM, due: int = 0) -> None:
        """Ends it by a signal, and waits for the status that is due."""
        self.process.send_signal(number)
        status = self.process.wait(PATIENCE_SECONDS)
        need(status == due, f"status {status}, and {due} is due: {self.told()[-2_000:]}")

    def child(self, word: str) -> int:
        """The number of the child whose command has a word."""
        for child in children_of(self.process.pid):
            words = Path(f"/proc/{child}/cmdline").read_bytes().split(b"\0")
            if any(word in one.decode() for one in words):
                return child
        need(False, f"no child has the word {word}")
        return 0

    @property
    def address(self) -> str:
        """Where it is."""
        return f"http://127.0.0.1:{self.port}"

    def ask(self, method: str, path: str, body: object = None, headers: Mapping[str, str] | None = None) -> Answer:
        """The answer to a request, whose body is JSON, or bytes of a type that the headers name."""
        connection = http.client.HTTPConnection("127.0.0.1", self.port, timeout=PATIENCE_SECONDS)
        text = body if isinstance(body, (bytes, type(None))) else json.dumps(body).encode()
        kind = {"Content-Type": JSON} if text is not None else {}
        try:
            connection.request(method, path, text, {**kind, **(headers or {})})
            answer = connection.getresponse()
            return Answer(answer.status, dict(answer.getheaders()), answer.read())
        finally:
            connection.close()

    def put(self, name: str, query: str) -> None:
        """Registers a query; `Failed` where that is refused."""
        answer = self.ask("PUT", f"/queries/{name}", {"query": query})
        need(answer.status in (200, 201), f"{answer}")

    def match(self, name: str, text: str, more: str = "") -> Json:
        """The answer to an article; `Failed` where it is refused."""
        answer = self.ask("POST", f"/articles{more}", {"id": name, "fields": {"text": text}})
        need(answer.status == 200, f"{answer}")
        said: Json = answer.value
        return said

    def talk(self, text: bytes, seconds: float = 5.0) -> bytes:
        """The first answer to bytes as they are sent; what came of it within so many seconds."""
        with socket.create_connection(("127.0.0.1", self.port), timeout=seconds) as connection:
            try:
                connection.sendall(text)
            except ConnectionError:
                pass
            return first_of(connection, seconds)


_SHARED: list[Door] = []


def shared() -> Door:
    """A door over an engine of its own that many tests use one after another, without queries; it ends with them."""
    if not _SHARED:
        _SHARED.append(Door())
        atexit.register(_SHARED[0].close)
        _SHARED[0].__enter__()
    need(_SHARED[0].ask("DELETE", "/queries").status == 200, "the queries can't be cleared")
    return _SHARED[0]


def first_of(connection: socket.socket, seconds: float) -> bytes:
    """The first answer that a connection brings, as far as it comes within so many seconds."""
    found, end = b"", time.monotonic() + seconds
    while (left := end - time.monotonic()) > 0:
        head, mark, body = found.partition(b"\r\n\r\n")
        length = re.search(rb"\r\nContent-Length: (\d+)", head)
        if mark and length and len(body) >= int(length[1]):
            break
        connection.settimeout(left)
        try:
            block = connection.recv(1 << 16)
        except (TimeoutError, ConnectionError):
            break
        if not block:
            break
        found += block
    return found


def all_of(connection: socket.socket, seconds: float) -> bytes:
    """What a connection brings until it is closed, or for so long."""
    found, end = b"", time.monotonic() + seconds
    try:
        while (left := end - time.monotonic()) > 0:
            connection.settimeout(left)
            block = connection.recv(1 << 16)
            if not block:
                break
            found += block
    except (TimeoutError, ConnectionError):
        pass
    return found


class Events:
    """A stream of server-sent events, over a connection of its own."""

    def __init__(self, door: Door, path: str = "/alerts", last: str | None = None,
                 headers: Mapping[str, str] | None = None) -> None:
        self._connection = http.client.HTTPConnection("127.0.0.1", door.port, timeout=PATIENCE_SECONDS)
        given = {} if last is None else {"Last-Event-ID": last}
        self._connection.request("GET", path, headers={**given, **(headers or {})})
        self._answer = self._connection.getresponse()
        need(self._answer.status == 200, f"status {self._answer.status}")
        self._lines: list[str] = []

    def __enter__(self) -> Events:
        return self

    def __exit__(self, *_: object) -> None:
        self._answer.close()
        self._connection.close()

    def next(self) -> Json:
        """The next event, with its members `event`, `id` and `data`; empty where the stream has ended."""
        found: Json = {}
        while line := self._answer.readline():
            name, _, text = line.decode().rstrip("\n").partition(": ")
            if not name and found:
                return found
            if name and not line.startswith(b":"):
                found[name] = json.loads(text) if name == "data" else text
        return {}


class Stream:
    """A client of `POST /lines` that sends line by line, and knows which replies came."""

    def __init__(self, door: Door) -> None:
        self.connection = socket.create_connection(("127.0.0.1", door.port), timeout=PATIENCE_SECONDS)
        self.connection.sendall(f"POST /lines HTTP/1.1\r\nHost: 127.0.0.1\r\nContent-Type: {LINES}\r\n"
                                "Transfer-Encoding: chunked\r\n\r\n".encode())
        self.got = self.connection.makefile("rb")
        status = self.got.readline()
        need(b" 200 " in status, f"{status!r}")
        self.changes = 0
        while (line := self.got.readline()) not in (b"\r\n", b""):
            name, _, value = line.decode().partition(": ")
            self.changes = int(value) if name == "Pressclip-Changes" else self.changes

    def send(self, line: bytes) -> None:
        """Sends a line; what can't be sent any more is lost."""
        try:
            self.connection.sendall(b"%x\r\n%b\n\r\n" % (len(line) + 1, line))
        except ConnectionError:
            pass

    def end(self) -> None:
        """Ends the body, where the connection is not broken off."""
        try:
            self.connection.sendall(b"0\r\n\r\n")
        except ConnectionError:
            pass

    def blocks(self) -> list[bytes]:
        """The next block of replies; none once the stream is over, or broken off."""
        try:
            size = self.got.readline()
            if not size.strip() or int(size, 16) == 0:
                return []
            block = self.got.read(int(size, 16) + 2)
        except ConnectionError:
            return []
        return block[:-2].splitlines() if len(block) == int(size, 16) + 2 else block.splitlines(keepends=False)[:-1]

    def close(self) -> None:
        """Lets go of the connection."""
        self.got.close()
        self.connection.close()


def with_settings(folder_name: str, limits: str, engine: Sequence[str] | None = None, more: str = "") -> str:
    """The path of a file of settings with these limits."""
    path = Path(folder_name) / "door.toml"
    path.write_text(f"engine = {json.dumps(engine or without_hits())}\n{more}\n[limits]\n{limits}\n")
    return str(path)


def without_hits() -> list[str]:
    """The command of an engine that shows no hits."""
    return command_of([], workers=0)


def by_aiohttp(door: Door, acts: Sequence[Sequence[object]]) -> list[Any]:
    """What aiohttp's own client sees of acts, each a method, a path and a body."""
    done = subprocess.run([DEBIAN_PYTHON, str(CLIENT), door.address], input=json.dumps(acts).encode(),
                          stdout=subprocess.PIPE, timeout=PATIENCE_SECONDS, check=False)
    need(done.returncode == 0, f"the client ended with status {done.returncode}")
    found: list[Any] = json.loads(done.stdout)
    return found
