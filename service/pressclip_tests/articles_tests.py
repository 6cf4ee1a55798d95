"""Tests of `articles`: what it makes of each kind of line, by hand."""

from __future__ import annotations

import json
import subprocess
from typing import Callable

from .judge import SERVICE, need, replies_of_engine, same
from .streams_tests import run_closed

ARTICLES = SERVICE / "articles"
MAPPING = ("id=.url", "title=.headline", "text=.body.plain")
# A line of a log, and the line that is due in its place, or why it is refused.
LINES: tuple[tuple[str, str], ...] = (
    ('{"url":"u1","headline":"Tea","body":{"plain":"Prices rise"}}',
     '{"op":"match","articles":[{"id":"u1","fields":{"title":"Tea","text":"Prices rise"}}]}'),
    ("", ""),
    ('{"url":7,"headline":null,"body":{"plain":["a","b",null,3.50,true]}}',
     '{"op":"match","articles":[{"id":"7","fields":{"text":"a\\nb\\n3.50\\ntrue"}}]}'),
    ('{"url":"u\\u00e9","other":1}', '{"op":"match","articles":[{"id":"ué","fields":{}}]}'),
    ('{"url":null}', ".url is null, and an id is a text"),
    ('{"headline":"Tea"}', ".url is null, and an id is a text"),
    ('{"url":["u"]}', ".url is a list, and an id is a text"),
    ('{"url":"u","headline":{"main":"Tea"}}', ".headline is an object, or has one"),
    ('{"url":"u","headline":[["Tea"]]}', ".headline is a list, or has one"),
    ('{"url":"u","body":"Tea"}', ".body.plain leads into a text"),
    ('{"op":"clear"}', ".url is null, and an id is a text"),
    ("[1]", "it is no object"),
    ('{"url":', "it is no JSON"),
    ('{"url":NaN}', "it is no JSON"),
    ('{"url":"\\ud800"}', "it has half of a surrogate pair"),
)


def run(given: str, *words: str) -> subprocess.CompletedProcess[bytes]:
    """A run over a whole log."""
    return subprocess.run([str(ARTICLES), *words], input=given.encode(), capture_output=True, check=False)


def each_line_has_a_line_in_its_place() -> None:
    """The lines that are due by hand, the refusals told by their numbers, and the engine's replies to both."""
    done = run("".join(line + "\n" for line, _ in LINES), *MAPPING)
    need(done.returncode == 0, f"status {done.returncode}")
    made, told = done.stdout.decode().split("\n")[:-1], done.stderr.decode()
    need(len(made) == len(LINES), f"{len(made)} lines")
    replies = {reply["line"]: reply for reply in map(json.loads, replies_of_engine(done.stdout).splitlines())}
    for number, (line, (_, due)) in enumerate(zip(made, LINES), 1):
        if due.startswith("{") or not due:
            need(line == due, f"line {number} is {line}, and {due} is due")
            need("alerts" in replies[number] if due else number not in replies, f"line {number}: {replies}")
        else:
            need(f"service/articles: line {number} is refused: {due}\n" in told, f"line {number}: {due}: {told}")
            need(replies[number].get("refused") == "shape", f"line {number}: {replies[number]}")
    need("service/articles: 3 articles, 11 lines refused\n" in told, told)


def nulls_and_lists_are_told_and_counted() -> None:
    """The first of each kind in each part by its line, and all at the end."""
    given = '{"url":"1","headline":"x"}\n{"url":"2","headline":["x","y"]}\n' * 2
    told = run(given, *MAPPING).stderr.decode().splitlines()
    same("\n".join(told).encode(), "\n".join((
        "service/articles: line 1: text: .body.plain is null or missing, and left out, here and wherever it is so",
        "service/articles: line 2: title: .headline is a list, whose items are joined by line feeds, here and wherever"
        " it is so",
        "service/articles: 4 articles, 0 lines refused",
        "service/articles: 4 times text: .body.plain is null or missing, and left out",
        "service/articles: 2 times title: .headline is a list, whose items are joined by line feeds")).encode(), "told")


def nulls_and_lists_are_refused_where_that_is_asked_for() -> None:
    """`--null refuse` and `--list refuse`."""
    given = '{"url":"1","headline":"x"}\n{"url":"2","headline":["x"],"body":{"plain":"y"}}\n'
    for words, number, why in ((("--null", "refuse"), 1, ".body.plain is null"),
                               (("--list", "refuse"), 2, ".headline is a list")):
        told = run(given, *words, *MAPPING).stderr.decode()
        need(f"line {number} is refused: {why}" in told and "1 articles, 1 lines refused" in told, told)


def a_line_comes_before_more_is_awaited() -> None:
    """A log that is followed gives its lines as they come."""
    process = subprocess.Popen([str(ARTICLES), "id=.url"], stdin=subprocess.PIPE, stdout=subprocess.PIPE,
                               stderr=subprocess.DEVNULL, bufsize=0)
    assert process.stdin and process.stdout
    process.stdin.write(b'{"url":"u1"}\n')
    need(process.stdout.read(100) == b'{"op":"match","articles":[{"id":"u1","fields":{}}]}\n', "another line")
    process.stdin.close()
    need(process.wait() == 0, "another status")


def other_mappings_are_refused() -> None:
    """With status 2 and why, and nothing read."""
    for words, why in ((("id=.url", "a b=.c"), "a b=.c is no part of a mapping"),
                       (("text=.body",), "id=.path is missing"),
                       (("id=.url", "id=.uri"), "id stands twice"), (("id=url",), "id=url is no part of a mapping"),
                       (("id=.url", *(f"f{n}=.f{n}" for n in range(17))), "at most 16 fields")):
        done = run('{"url":"u1"}\n', *words)
        need(done.returncode == 2 and why in done.stderr.decode() and not done.stdout, f"{words}: {done}")


def closed_streams_are_told() -> None:
    """An input that can't be read is no end of it, and an output that nobody reads is no success."""
    for closed, due in ((0, 4), (1, 6)):
        status, _, told = run_closed([str(ARTICLES), "id=.url"], closed)
        need(status == due and b"Traceback" not in told, f"stream {closed}: status {status} and {told!r}")


TESTS: tuple[Callable[[], None], ...] = (
    each_line_has_a_line_in_its_place, nulls_and_lists_are_told_and_counted,
    nulls_and_lists_are_refused_where_that_is_asked_for, a_line_comes_before_more_is_awaited,
    other_mappings_are_refused, closed_streams_are_told)
