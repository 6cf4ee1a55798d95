"""`press` under test: its commands, and queries that are asked of articles."""

from __future__ import annotations

import json
import subprocess
from collections.abc import Mapping, Sequence
from pathlib import Path
from typing import Any

from pressclip_service.engine import command_of

from .judge import SERVICE, need

PRESS = SERVICE / "press"
PATIENCE_SECONDS = 120.0


def run_command(*words: str, engine: Sequence[str] = ()) -> list[str]:
    """The command of `press run`, over an engine without threads where no other one is named."""
    return [str(PRESS), "run", *words, "--", *(engine or command_of([], workers=0))]


def run_press(lines: Sequence[Mapping[str, Any] | bytes], *words: str, engine: Sequence[str] = (),
              status: int = 0) -> tuple[list[bytes], str]:
    """Its replies to lines, and what it told."""
    text = b"".join((line if isinstance(line, bytes) else dumped(line)) + b"\n" for line in lines)
    done = subprocess.run(run_command(*words, engine=engine), input=text, capture_output=True,
                          timeout=PATIENCE_SECONDS, check=False)
    need(done.returncode == status, f"press ended with status {done.returncode}: {done.stderr.decode()[-600:]}")
    return done.stdout.splitlines(), done.stderr.decode()


def dumped(value: object) -> bytes:
    """A value as JSON."""
    return json.dumps(value, ensure_ascii=False, separators=(",", ":")).encode()


def register(*queries: str, first: int = 0) -> dict[str, Any]:
    """A line that registers queries by their numbers."""
    return {"op": "register", "queries": [{"id": str(number), "query": query}
                                          for number, query in enumerate(queries, first)]}


def match(*fields: Mapping[str, str]) -> dict[str, Any]:
    """A line of articles."""
    return {"op": "match", "articles": [{"id": f"a{number}", "fields": one} for number, one in enumerate(fields)]}


def explained(queries: Sequence[str], *words: str) -> list[dict[str, Any]]:
    """What `press translate` tells of queries."""
    done = subprocess.run([str(PRESS), "translate", "--json", *words], input="\n".join(queries).encode() + b"\n",
                          capture_output=True, timeout=PATIENCE_SECONDS, check=False)
    need(done.returncode in (0, 3), f"press translate ended with status {done.returncode}: {done.stderr.decode()[-600:]}")
    told = [json.loads(line) for line in done.stdout.splitlines()]
    need(len(told) == len(queries), f"{len(queries)} queries, and {len(told)} are told of")
    return told


def rows_of(name: str) -> list[dict[str, Any]]:
    """The rows of a file beside this one."""
    text = (Path(__file__).resolve().parent / name).read_text()
    return [json.loads(line) for line in text.splitlines()]


def asked(rows: Sequence[tuple[str, Sequence[Mapping[str, str]]]]) -> list[list[bool] | None]:
    """Whether each query holds of each of its articles, by one `press run`; None where it is refused."""
    lines: list[Mapping[str, Any]] = []
    for number, (query, articles) in enumerate(rows):
        lines += [{"op": "clear"}, register(query), match(*articles)]
    replies, _ = run_press(lines, "--quiet")
    found: list[list[bool] | None] = []
    for number in range(len(rows)):
        _, registered, matched = (json.loads(reply) for reply in replies[3 * number:3 * number + 3])
        held = [alert["queries"] == ["0"] for alert in matched["alerts"]]
        found.append(None if "refused" in registered else held)
    return found
