"""Figures of the door: what a request costs it, lines a second, and how soon many listeners hear."""

from __future__ import annotations

import http.client
import json
import subprocess
import sys
import time
from pathlib import Path
from typing import Sequence

from pressclip_service.engine import command_of

from .door_runs import JSON, LINES, Door
from .grid_runs import DEBIAN_PYTHON
from .processes import PATIENCE_SECONDS

LISTENERS = 1_000
LISTENING_PROCESSES = 2
ALERTS_A_SECOND = 100
LISTENER = Path(__file__).with_name("door_listeners.py")
TICKS_PER_SECOND = 100


def processor_seconds(pid: int) -> float:
    """Processor time of a process so far."""
    fields = Path(f"/proc/{pid}/stat").read_text().rsplit(")", 1)[1].split()
    return (int(fields[11]) + int(fields[12])) / TICKS_PER_SECOND


def with_queries(door: Door, register_lines: Sequence[bytes]) -> None:
    """Registers what lines register."""
    answer = door.ask("POST", "/lines", b"".join(register_lines), {"Content-Type": LINES})
    if answer.status != 200 or b"refused" in answer.text:
        sys.exit(f"service/bench: the queries are refused: {answer.text[:300]!r}")


def cost_of_a_request(register_lines: Sequence[bytes], match_lines: Sequence[bytes]) -> float:
    """Milliseconds of processor time that the door itself takes for `POST /articles` of one article."""
    with Door(engine=[*command_of([], workers=2), "hits"]) as door:
        with_queries(door, register_lines)
        bodies = [json.dumps(json.loads(line)["articles"][0]).encode() for line in match_lines]
        connection = http.client.HTTPConnection("127.0.0.1", door.port, timeout=PATIENCE_SECONDS)
        before = processor_seconds(door.process.pid)
        for body in bodies:
            connection.request("POST", "/articles", body, {"Content-Type": JSON})
            answer = connection.getresponse()
            answer.read()
            if answer.status != 200:
                sys.exit(f"service/bench: status {answer.status}")
        spent = processor_seconds(door.process.pid) - before
        connection.close()
        return 1e3 * spent / len(bodies)


def lines_a_second(register_lines: Sequence[bytes], match_lines: Sequence[bytes], passes: int) -> list[float]:
    """Articles a second through `POST /lines`, one to a line, in each pass."""
    with Door(engine=command_of([], workers=4)) as door:
        with_queries(door, register_lines)
        text = b"".join(match_lines)
        found = []
        for _ in range(passes):
            start = time.monotonic()
            answer = door.ask("POST", "/lines", text, {"Content-Type": LINES})
            found.append(len(match_lines) / (time.monotonic() - start))
            if answer.text.count(b"\n") != len(match_lines):
                sys.exit("service/bench: replies are missing")
        return found


def delays_of_alerts(seconds: float) -> list[float]:
    """Milliseconds from the sending of an article to when a listener has its alert, of all listeners and alerts."""
    with Door(engine=command_of([], workers=2)) as door:
        door.put("q1", "tea")
        listeners = [subprocess.Popen([DEBIAN_PYTHON, str(LISTENER), str(door.port), str(LISTENERS // LISTENING_PROCESSES),
                                       str(int(seconds * ALERTS_A_SECOND))], stdout=subprocess.PIPE)
                     for _ in range(LISTENING_PROCESSES)]
        for listener in listeners:
            assert listener.stdout
            listener.stdout.readline()
        send_alerts(door, int(seconds * ALERTS_A_SECOND))
        found: list[float] = []
        for listener in listeners:
            said, _ = listener.communicate(timeout=PATIENCE_SECONDS)
            found += json.loads(said)
        return found


def send_alerts(door: Door, count: int) -> None:
    """Sends so many articles that a query holds of, at an even rate; the id of each is when it was sent."""
    connection = http.client.HTTPConnection("127.0.0.1", door.port, timeout=PATIENCE_SECONDS)
    start = time.monotonic()
    for number in range(count):
        time.sleep(max(0.0, start + number / ALERTS_A_SECOND - time.monotonic()))
        body = json.dumps({"id": str(time.monotonic_ns()), "fields": {"text": "tea"}})
        connection.request("POST", "/articles", body, {"Content-Type": JSON})
        connection.getresponse().read()
    connection.close()
