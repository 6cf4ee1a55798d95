"""All processes of a grid on one machine, each started again where it ends."""

from __future__ import annotations

import ctypes
import os
import signal
import subprocess
import sys
import time
from dataclasses import dataclass
from pathlib import Path
from typing import Sequence

from .errors import tell
from .names import Settings
from .store import REDIS_VARIABLE, Store

PAUSE_SECONDS = 0.2
_PR_SET_PDEATHSIG = 1


@dataclass
class Part:
    """One process of the grid: what it does, its command, and the process that does it now."""

    name: str
    command: list[str]
    process: subprocess.Popen[bytes] | None = None


def _end_with_parent() -> None:
    """Has a child ended where its parent ends."""
    ctypes.CDLL(None).prctl(_PR_SET_PDEATHSIG, signal.SIGTERM)


def parts_of(script: Path, options: Sequence[str], settings: Settings, tidy_after: int,
             engine: Sequence[str]) -> list[Part]:
    """What a grid is made of beside Redis and its clients. Where Redis is stands in the environment of all, since its
    URL may have a password."""
    front = [sys.executable, str(script), *options]
    parts = [Part("gather", [*front, "gather"]), Part("tidy", [*front, "tidy", "--after", str(tidy_after)])]
    for shard in range(settings.shards):
        for replica in range(settings.replicas):
            command = [*front, "worker", "--shard", str(shard), "--replica", str(replica), "--", *engine]
            parts.append(Part(f"worker {shard}:{replica}", command))
    return parts


class Stopped(Exception):
    """The whole is to end."""


def _stop(*_: object) -> None:
    raise Stopped()


def keep_up(store: Store, url: str, parts: Sequence[Part]) -> None:
    """Starts all parts, and again whichever ends, until a signal ends the whole. They find Redis by the URL."""
    environment = {**os.environ, REDIS_VARIABLE: url}
    signal.signal(signal.SIGTERM, _stop)
    signal.signal(signal.SIGINT, _stop)
    try:
        while True:
            for part in parts:
                if part.process and part.process.poll() is not None:
                    tell(store.program, f"{part.name} ended with status {part.process.returncode} and is started again")
                    part.process = None
                if part.process is None:
                    part.process = subprocess.Popen(part.command, stdin=subprocess.DEVNULL, env=environment,
                                                    preexec_fn=_end_with_parent)
            time.sleep(PAUSE_SECONDS)
    except Stopped:
        pass
    finally:
        for part in parts:
            if part.process:
                part.process.terminate()
        for part in parts:
            if part.process:
                part.process.wait()
