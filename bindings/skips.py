"""What a test wants that not every machine has."""

from __future__ import annotations

from pathlib import Path


class Skipped(Exception):
    """A test is not run; the words say why, and how to have it run."""


def need_file(path: Path, remedy: str) -> None:
    """`Skipped` where a file is missing."""
    if not path.exists():
        raise Skipped(f"{path.name} is missing. {remedy}")


def need_package(path: str, package: str) -> None:
    """`Skipped` where a file of a package of Debian is missing."""
    need_file(Path(path), f"On Debian: apt-get install -y {package}")
