#!/usr/bin/python3
"""A suite of acts that processes share: takes their count, a folder, and parts, each with its acts behind one another.

An act notes its place and its process in the folder. A process of the suite has 0 as the count, and the number of its
connection behind the parts.
"""

from __future__ import annotations

import atexit
import os
import sys
import time
from pathlib import Path
from typing import Sequence

sys.dont_write_bytecode = True
sys.path.insert(0, str(Path(__file__).resolve().parents[1]))

from pressclip_tests.judge import need
from pressclip_tests.processes import ENDED, PATIENCE_SECONDS
from pressclip_tests.shares import Shares, Tally, Test, serve
from pressclip_tests.shares_tests import NOTES, WORDS


def wait_for(notes: Path, count: int) -> None:
    """Waits until so many acts have begun."""
    start = time.monotonic()
    while notes.read_text().count("\n") < count:
        need(time.monotonic() - start < PATIENCE_SECONDS, "others do not begin")
        time.sleep(0.01)


def talk(name: str) -> None:
    """Prints a line word by word, on both standard streams in turn."""
    for number in range(WORDS):
        print(name, end=" " if number < WORDS - 1 else "\n", flush=True, file=(sys.stdout, sys.stderr)[number % 2])


def act(place: int, word: str, notes: Path, count: int) -> Test:
    """The test that does what a word says, among so many acts."""

    def test() -> None:
        with open(notes, "a") as file:
            file.write(f"{place} {os.getpid()}\n")
        if word == "wait":
            wait_for(notes, count)
        elif word == "talk":
            talk(test.__name__)
        elif word == "kill":
            ENDED.append(word)
        elif word == "die":
            print("the last words", end="", flush=True)
            os._exit(7)
        elif word == "end-badly":
            atexit.register(os._exit, 8)
        need(word != "fail", "as it is to")

    test.__name__ = f"{word}-{place}"
    return test


def main(jobs: int, folder: str, words: Sequence[str]) -> int:
    """Runs the suite, or serves one that runs."""
    listed = words if jobs else words[:-1]
    acts = [word for part in listed for word in part.split(",")]
    tests = [act(place, word, Path(folder) / NOTES, len(acts)) for place, word in enumerate(acts)]
    if not jobs:
        serve(tests, int(words[-1]))
        return 0
    places = iter(range(len(acts)))
    parts = [[next(places) for _ in part.split(",")] for part in listed]
    tally = Tally(tests)
    Shares([sys.executable, __file__, "0", folder, *listed], parts, jobs).run(tally)
    print(f"ended: {tally.ended}")
    return tally.tell()


if __name__ == "__main__":
    sys.exit(main(int(sys.argv[1]), sys.argv[2], sys.argv[3:]))
