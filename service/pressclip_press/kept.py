"""A journal below `press run`, which `service/keep` keeps."""

from __future__ import annotations

import subprocess
from collections.abc import Sequence
from pathlib import Path

from pressclip_service.errors import EngineFailed
from pressclip_service.live import value_of

_KEEP = str(Path(__file__).resolve().parents[1] / "keep")


def over(folder: Path, engine: Sequence[str]) -> list[str]:
    """The command of an engine that keeps its queries in a folder."""
    return [_KEEP, "--journal", str(folder), "--", *engine]


def queries_in(folder: Path) -> list[dict[str, str]]:
    """The queries that are kept in a folder, as the engine has them."""
    done = subprocess.run([_KEEP, "--journal", str(folder), "--dump"], stdout=subprocess.PIPE, check=False)
    if done.returncode:
        raise EngineFailed(f"{_KEEP} ended with status {done.returncode} and could not dump the queries")
    return [listing for line in done.stdout.splitlines() for listing in value_of(line)["queries"]]
