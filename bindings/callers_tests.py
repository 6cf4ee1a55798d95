"""Tests of the callers in other languages below examples/, each by the words that it has to print."""

from __future__ import annotations

import os
import subprocess
from pathlib import Path
from typing import Callable

TOP = Path(__file__).resolve().parent.parent
EXAMPLES = TOP / "examples"


def the_caller_in_go_prints_its_words() -> None:
    """examples/go_caller, built by its Makefile."""
    folder = EXAMPLES / "go_caller"
    run = subprocess.run(["make", "-s", "-B", "run"], cwd=folder, stdout=subprocess.PIPE, check=True, text=True)
    assert run.stdout == (folder / "stdout").read_text(), run.stdout


def the_caller_in_node_prints_its_words() -> None:
    """examples/node_caller, with the program on the path."""
    folder = EXAMPLES / "node_caller"
    program = Path(os.environ.get("PRESSCLIP", TOP / "crates" / "pressclip" / "out" / "pressclip")).resolve()
    environment = {**os.environ, "PATH": f"{program.parent}:{os.environ['PATH']}"}
    run = subprocess.run(["node", folder / "main.js"], env=environment, stdout=subprocess.PIPE, check=True, text=True)
    assert run.stdout == (folder / "stdout").read_text(), run.stdout


TESTS: tuple[Callable[[], None], ...] = (the_caller_in_go_prints_its_words, the_caller_in_node_prints_its_words)
# The tests that want a tool, which not every machine has, and Debian's package of it.
WANTS: dict[Callable[[], None], tuple[str, str]] = {
    the_caller_in_go_prints_its_words: ("go", "golang-go"), the_caller_in_node_prints_its_words: ("node", "nodejs")}
