"""Tests of what a worker hands its engine of a register, and of what an engine is started with."""

from __future__ import annotations

import json
import os
from pathlib import Path

from pressclip_service.engine import Engine

from .grid_runs import Grid
from .inputs import Source, joined
from .judge import folder, need, replies_of_engine, same


def large_registers_through_a_grid() -> None:
    """Registers of 1,024 queries, so of some 256 for each of 4 shards, with ids that repeat and matches between."""
    source = Source(41, ids=1_500)
    lines = []
    for _ in range(12):
        listed = [source.listing() for _ in range(1_024)]
        lines += [json.dumps({"op": "register", "queries": listed}).encode(), b'{"op":"count"}', source.match()]
        fresh = [{"id": f"fresh{len(lines)}-{number}", "query": source.text(3)} for number in range(1_024)]
        lines += [json.dumps({"op": "register", "queries": fresh}).encode(), source.delete(), source.match()]
    with folder() as name, Grid(Path(name), 4, 1) as grid:
        same(grid.run("submit", text=joined(lines)), replies_of_engine(joined(lines)), "large registers")
        grid.needs_all()


def told_of_memory() -> list[bytes] | None:
    """What a process that is started as an engine finds in its environment of how memory is handed out."""
    engine = Engine(["/bin/sh", "-c", 'printf "%s\\n" "$GLIBC_TUNABLES"'])
    try:
        return engine.read()
    finally:
        engine.kill()


def an_engine_is_told_how_memory_is_handed_out() -> None:
    """By the words of docs/PERFORMANCE.md where the environment has none, and else by those that it has."""
    before = os.environ.pop("GLIBC_TUNABLES", None)
    try:
        need(told_of_memory() == [b"glibc.malloc.tcache_count=500:glibc.malloc.hugetlb=1"], f"told {told_of_memory()}")
        os.environ["GLIBC_TUNABLES"] = "glibc.malloc.hugetlb=0"
        need(told_of_memory() == [b"glibc.malloc.hugetlb=0"], f"told {told_of_memory()} where that is said already")
    finally:
        os.environ.pop("GLIBC_TUNABLES", None)
        if before is not None:
            os.environ["GLIBC_TUNABLES"] = before


TESTS = (an_engine_is_told_how_memory_is_handed_out, large_registers_through_a_grid)
