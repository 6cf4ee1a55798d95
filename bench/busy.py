"""Processes that keep processors busy, at the lowest priority."""

from __future__ import annotations

import subprocess
import sys
from contextlib import contextmanager
from typing import Iterator

LOOP = "import os; os.nice(19)\nwhile True: pass"


@contextmanager
def busy_loops(count: int) -> Iterator[None]:
    """So many run meanwhile."""
    loops: list[subprocess.Popen[bytes]] = []
    try:
        loops += (subprocess.Popen([sys.executable, "-c", LOOP], stdin=subprocess.DEVNULL) for _ in range(count))
        yield
    finally:
        for loop in loops:
            loop.kill()
            loop.wait()
