"""Tests of how tests are shared among processes, by a suite of acts."""

from __future__ import annotations

import re
import subprocess
from pathlib import Path
from typing import Callable, NamedTuple

from .grid_runs import DEBIAN_PYTHON
from .judge import folder, need
from .processes import PATIENCE_SECONDS

CHILD = Path(__file__).with_name("shares_child.py")
# The file in which acts are noted, and how many words an act prints.
NOTES = "notes"
WORDS = 200


class Done(NamedTuple):
    """What a suite came to: its status, its lines, and the processes that ran the acts at each place."""

    status: int
    lines: list[str]
    processes: dict[int, list[str]]


def done(jobs: int, *parts: str) -> Done:
    """A suite of parts that so many processes shared."""
    with folder() as name:
        command = [DEBIAN_PYTHON, str(CHILD), str(jobs), name, *parts]
        ended = subprocess.run(command, stdout=subprocess.PIPE, stderr=subprocess.STDOUT, text=True, check=False,
                               timeout=PATIENCE_SECONDS)
        processes: dict[int, list[str]] = {}
        for line in (Path(name) / NOTES).read_text().splitlines():
            place, process = line.split()
            processes.setdefault(int(place), []).append(process)
    lines = [re.sub(r" \(\d+\.\d s\)$", "", line) for line in ended.stdout.splitlines()]
    return Done(ended.returncode, lines, processes)


def each_test_is_run_once_by_who_is_free() -> None:
    """While one process is at a test the other runs the rest."""
    found = done(2, "wait", *["pass"] * 10, "kill,kill,pass", "pass")
    need(found.status == 0, f"{found}")
    need(found.lines[-2:] == ["ended: ['kill', 'kill']", "15 passed, 0 failed, 0 skipped"], f"{found}")
    need([len(found.processes.get(place, [])) for place in range(15)] == [1] * 15, f"{found}")
    (waits,), *rest = (found.processes[place] for place in range(15))
    need(len({process for (process,) in rest}) == 1 and [waits] not in rest, f"{found}")
    need(sorted(line for line in found.lines if line.startswith("passed "))
         == sorted(f"passed {word}-{place}" for place, word in enumerate(
             ["wait", *["pass"] * 10, "kill", "kill", "pass", "pass"])), f"{found}")


def what_a_test_prints_stands_together() -> None:
    """Its line is whole, with its verdict behind it, and so is its traceback."""
    found = done(3, *["talk"] * 8, "fail", "pass")
    need(found.status == 1 and found.lines[-2:] == ["failed: fail-8", "9 passed, 1 failed, 0 skipped"], f"{found}")
    for place in range(8):
        at = found.lines.index(f"passed talk-{place}")
        need(found.lines[at - 1] == " ".join([f"talk-{place}"] * WORDS), f"{found.lines[at - 1]}")
    at = found.lines.index("FAILED fail-8")
    need(found.lines[at - 1].endswith("judge.Failed: as it is to"), f"{found}")
    need("Traceback (most recent call last):" in found.lines[at - 12:at], f"{found}")


def a_process_that_ends_fails_its_test() -> None:
    """The rest of its part goes to another process."""
    found = done(2, "pass,die,pass", "pass", "pass")
    need(found.status == 1, f"{found}")
    need(found.lines[-2:] == ["failed: die-1", "4 passed, 1 failed, 0 skipped"], f"{found}")
    at = found.lines.index("FAILED die-1: its process ended with status 7")
    need(found.lines[at - 1] == "the last words", f"{found}")
    need([len(found.processes.get(place, [])) for place in range(5)] == [1] * 5, f"{found}")


def tests_that_no_process_is_left_for_are_told() -> None:
    """They are skipped, and the status is 1."""
    found = done(2, "die", "die,pass", "pass")
    need(found.status == 1, f"{found}")
    need(found.lines[-2:] == ["skipped: pass-2, pass-3", "0 passed, 2 failed, 2 skipped"], f"{found}")


def a_process_that_ends_badly_is_told() -> None:
    """Though each test has passed."""
    found = done(2, "pass,end-badly", "pass", "pass")
    need(found.status == 1 and "FAILED process 1: it ended with status 8" in found.lines, f"{found}")
    need(found.lines[-2:] == ["failed: process 1", "4 passed, 1 failed, 0 skipped"], f"{found}")


TESTS: tuple[Callable[[], None], ...] = (
    each_test_is_run_once_by_who_is_free, what_a_test_prints_stands_together, a_process_that_ends_fails_its_test,
    tests_that_no_process_is_left_for_are_told, a_process_that_ends_badly_is_told)
