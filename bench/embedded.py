"""The library under measurement: `bench/embedded.c`, which is handed the calls that lines ask for and times these.

What the program's JSON costs is measured too: an article with no id is refused once its line was read, before any of
its words is looked at.
"""

from __future__ import annotations

import json
import shutil
import struct
import subprocess
from contextlib import closing
from functools import cache
from pathlib import Path
from typing import Any, Optional, Sequence

from engine import Engine, EngineFailed, Exchange
from scenarios import Scenario
from workload import line_of

TOP = Path(__file__).resolve().parent.parent
SOURCE = TOP / "bench" / "embedded.c"
ARCHIVE = TOP / "bindings" / "c" / "libpressclip.a"
DRIVER = TOP / "bench" / "out" / "embedded"
COMMAND = f"'{DRIVER}'"
MISSING = """bench/run: the library is not there, or there is no gcc, so `embedded` is left out. This builds it:

    ./build && bindings/c/build"""


@cache
def is_here() -> bool:
    """Whether the driver is there, which is compiled where it can be."""
    if not ARCHIVE.exists() or shutil.which("gcc") is None:
        return False
    DRIVER.parent.mkdir(exist_ok=True)
    subprocess.run(["gcc", "-std=c11", "-Wall", "-Wextra", "-O2", f"-I{TOP / 'include'}", SOURCE, ARCHIVE, "-o",
                    DRIVER], check=True)
    return True


def text_of(text: str) -> bytes:
    """A text of a call."""
    raw = text.encode()
    return struct.pack("=Q", len(raw)) + raw


def article_of(article: dict[str, Any]) -> bytes:
    """The call that matches an article."""
    fields = article["fields"]
    return b"".join([b"m", text_of(article["id"]), struct.pack("=Q", len(fields)),
                     *(text_of(name) + text_of(text) for name, text in fields.items())])


def calls_of(line: bytes) -> bytes:
    """The calls that a line asks for."""
    asked = json.loads(line)
    if asked["op"] == "register":
        queries = asked["queries"]
        return b"".join([b"r", struct.pack("=Q", len(queries)),
                         *(text_of(query["id"]) + text_of(query["query"]) for query in queries)])
    if asked["op"] == "match":
        return b"".join(article_of(article) for article in asked["articles"])
    if asked["op"] == "count":
        return b"c"
    raise EngineFailed(f"no call is known for {asked['op']}")


class Embedded(Engine):
    """The driver, which answers the lines that match or count."""

    def exchange(self, lines: Sequence[bytes], replies: Optional[int] = None) -> Exchange:
        """Hands the calls over; the times are those of the calls alone."""
        block = b"".join(calls_of(line) for line in lines)
        self.send(memoryview(struct.pack("=Q", len(block)) + block))
        held = self.receive()
        while b"\n" not in held:
            held += self.receive()
        head, _, first = held.partition(b"\n")
        clock, cpu, length = (int(number) for number in head.split())
        parts = [first]
        missing = length - len(first)
        while missing > 0:
            parts.append(self.receive())
            missing -= len(parts[-1])
        return Exchange(b"".join(parts).splitlines(), clock / 1e9, cpu / 1e9)


def started(name: str, command: str) -> Engine:
    """The engine of a command, which may be the driver's."""
    return Embedded(name, command) if command == COMMAND else Engine(name, command)


def without_id(line: bytes) -> bytes:
    """A line of articles, with no ids."""
    articles = json.loads(line)["articles"]
    return line_of({"op": "match", "articles": [{**article, "id": ""} for article in articles]})


def json_micros(command: str, scenario: Scenario) -> list[float]:
    """Microseconds an article of the lines of one, as long as the program takes to read their JSON and refuse them: of
    each timed pass."""
    passes = [[without_id(line) for line in lines] for lines in [scenario.warm, *scenario.timed]]
    with closing(Engine("the program", command)) as engine:
        runs = [engine.exchange(lines) for lines in passes]
    if not all(b'"limit"' in reply for run in runs for reply in run.replies):
        raise EngineFailed("the program takes articles with no id")
    return [1e6 * run.seconds / len(run.replies) for run in runs[1:]]
