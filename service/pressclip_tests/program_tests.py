"""Tests of the words of the program, which no proof names: what it prints is known by running it."""

from __future__ import annotations

import json
import resource
import subprocess
from pathlib import Path
from typing import Callable

from pressclip_service.engine import program

from .judge import need, same

DATA = Path(__file__).resolve().parents[2] / "crates" / "examples" / "data"
VERSION = (Path(__file__).resolve().parents[2] / "VERSION").read_bytes()
USAGE = b"usage: pressclip run [workers] [hits] | pressclip trace\n"


def run(words: list[str], text: bytes) -> subprocess.CompletedProcess[bytes]:
    """The program with these words, on this input."""
    return subprocess.run([str(program()), *words], input=text, capture_output=True, check=False)


def plays(words: list[str], name: str, ending: str) -> None:
    """The program with these words answers an example as the file beside it says."""
    done = run(words, (DATA / f"{name}.jsonl").read_bytes())
    need(done.returncode == 0, f"{words} ended with status {done.returncode}")
    same(done.stdout, (DATA / f"{name}.{ending}").read_bytes(), f"{words} on {name}")


def hits_are_shown_where_the_words_ask() -> None:
    """With the word, and a number or none before it; and not without."""
    for words in (["run", "hits"], ["run", "0", "hits"], ["run", "2", "hits"]):
        plays(words, "hits", "hits")
        plays(words, "random_queries", "hits")
    for words in (["run"], ["run", "0"], ["run", "2"]):
        plays(words, "random_queries", "out")


def other_words_are_refused() -> None:
    """With what there is on standard error, status 2, and nothing read."""
    refused: list[list[str]] = [[], ["run", "hits", "4"], ["run", "65", "hits"], ["trace", "hits"], ["hits"],
                                ["--version", "run"]]
    for words in refused:
        done = run(words, b'{"op":"count"}\n')
        need(done.returncode == 2, f"{words} ended with status {done.returncode}")
        same(done.stderr, USAGE, f"{words} on standard error")
        same(done.stdout, b"", f"{words} on standard output")


def the_version_is_told() -> None:
    """By the file VERSION, on standard output alone, with nothing read; a full disk is its fault."""
    done = run(["--version"], b'{"op":"count"}\n')
    same(done.stdout, b"pressclip " + VERSION, "the version")
    need((done.returncode, done.stderr) == (0, b""), f"it ended with status {done.returncode}: {done.stderr!r}")
    with open("/dev/full", "wb") as full:
        done = subprocess.run([str(program()), "--version"], stdout=full, stderr=subprocess.PIPE, check=False)
    need((done.returncode, done.stderr) == (1, b"pressclip: write fault\n"), f"a full disk gives {done}")


def faults_of_a_match(queries: int, articles: int) -> int:
    """How many pages a run takes from the system that matches so many articles, of which so many queries hold."""
    listings = [{"id": f"q{number}", "query": "*:*"} for number in range(queries)]
    lines: list[dict[str, object]] = [{"op": "register", "queries": listings[start:start + 1_000]}
                                      for start in range(0, queries, 1_000)]
    lines.append({"op": "match", "articles": [{"id": f"a{number}", "fields": {}} for number in range(articles)]})
    before = resource.getrusage(resource.RUSAGE_CHILDREN).ru_minflt
    done = run(["run", "0"], b"".join(json.dumps(line).encode() + b"\n" for line in lines))
    need(done.returncode == 0, f"it ended with status {done.returncode}")
    return resource.getrusage(resource.RUSAGE_CHILDREN).ru_minflt - before


def memory_of_an_article_serves_the_next() -> None:
    """What an article takes, some 600 pages here, is not given back to the system and taken anew by each."""
    more = faults_of_a_match(20_000, 72) - faults_of_a_match(20_000, 8)
    need(more < 64 * 60, f"64 articles more take {more} pages more")


TESTS: tuple[Callable[[], None], ...] = (hits_are_shown_where_the_words_ask, other_words_are_refused,
                                         the_version_is_told, memory_of_an_article_serves_the_next)
