"""Tests of `docs/test` by pages of the test's own, of a unit for systemd, and of an example that marks words."""

from __future__ import annotations

import json
import os
import re
import subprocess
from pathlib import Path
from typing import Callable, Sequence

from pressclip_service.engine import program

from .judge import SERVICE, folder, need

TOP = SERVICE.parent
PAGES_TEST = TOP / "docs" / "test"
HIGHLIGHT = TOP / "examples" / "highlight"
COUNT = '<!-- test: input of pressclip run -->\n```\n{"op":"count"}\n```\n'
# A page, the status of `docs/test` that is due of it, and what it tells. The reply to a count of nothing is known by
# docs/PROTOCOL.md.
PAGES: tuple[tuple[str, int, str], ...] = (
    (COUNT + '<!-- test: output -->\n```\n{"count":0,"line":1}\n```\n', 0, "1 passed, 0 failed"),
    (COUNT + '<!-- test: output -->\n```\n{"count":1,"line":1}\n```\n', 1, '-{"count":1,"line":1}'),
    ("text\n\n```\ntrue\n```\n", 1, ":3: a block without a mark"),
    ("<!-- test: runs -->\n```\ntrue\n```\n", 1, ":2: no such mark: runs"),
    ("<!-- test: run -->\ntext\n", 1, ":2: a mark stands before a block, and here is none"),
    ("<!-- test: output -->\n```\n1\n```\n", 1, ":2: an output behind nothing that is run"),
    ("<!-- test: run -->\n```\nfalse\ntrue\n```\n", 1, "status 1, and 0 is due"),
    ("<!-- test: run, status 1 -->\n```\nfalse\ntrue\n```\n", 0, "1 passed, 0 failed"),
    ("<!-- test: run -->\n```\nexit 0\n```\n", 1, "it ended its shell"),
    ("<!-- test: run, minutes -->\n```\nfalse\n```\n", 0, "0 passed, 0 failed"),
    ("<!-- test: not run: a drawing -->\n```\n-->\n```\n", 0, "0 passed, 0 failed"),
    ("<!-- test: run, needs no-such-command -->\n```\nfalse\n```\n", 0, ":2: no-such-command is missing"),
    ("<!-- test: run -->\n```\nexport A=1 && mkdir b && cd b\n```\n<!-- test: run -->\n```\necho $A ${PWD##*/}\n```\n"
     "<!-- test: output -->\n```\n1 b\n```\n", 0, "2 passed, 0 failed"),
    ("<!-- test: file a -->\n```\n1.5 s\nmore\n```\n<!-- test: run -->\n```\ncat a\n```\n"
     "<!-- test: output, seconds vary, then more -->\n```\n0.1 s\n```\n", 0, "2 passed, 0 failed"),
    ("<!-- test: copy of HANDLES -->\n```\nno\n```\n", 1, "+"),
    ("<!-- test: part of .gitignore -->\n```\nout/\nexamples/c/main\n```\n", 0, "1 passed, 0 failed"),
    ("<!-- test: part of .gitignore -->\n```\nexamples/c/main\nout/\n```\n", 1, "not in this order: out/"),
    ("<!-- test: rows of cat -->\n| a | b |\n|---|---|\n| `1` | `1` |\n| `2` | `3` |\n", 1, "-3"),
)


def examples_are_run_and_compared() -> None:
    """Pages that are right, wrong, and not to be read."""
    with folder() as name:
        for page, due, words in PAGES:
            path = Path(name) / "page.md"
            path.write_text(page)
            done = subprocess.run([str(PAGES_TEST), str(path)], stdout=subprocess.PIPE, check=False,
                                  env={**os.environ, "PRESSCLIP": program()})
            told = done.stdout.decode()
            need(done.returncode == due and words in told, f"status {done.returncode} and {told!r} of {page!r}")


def unit_of_workers() -> str:
    """The command of the unit for workers."""
    unit = (SERVICE / "units" / "pressclip-worker@.service").read_text()
    command: str
    (command,) = re.findall(r"^ExecStart=(/bin/bash -c .*grid worker.*)$", unit, re.MULTILINE)
    return command


def expanded(command: str, instance: str) -> str:
    """What systemd makes of a command, by systemd.unit(5) and systemd.service(5): first of `%%` and `%i`, and then of
    `$$` and of variables, of which there are none of that name."""
    specified = re.sub("%[%i]", lambda found: "%" if found[0] == "%%" else instance, command)
    return re.sub(r"\$\$|\$\{[^}]*\}", lambda found: "$" if found[0] == "$$" else "", specified)


def a_unit_starts_the_worker_of_its_name() -> None:
    """`pressclip-worker@2-1` is shard 2 and replica 1."""
    command = expanded(unit_of_workers(), "2-1")
    words = re.fullmatch(r"/bin/bash -c '(.*)'", command)
    need(words is not None, command)
    assert words
    script = words[1].replace("/usr/bin/pressclip-grid", "echo").replace("exec ", "")
    told = subprocess.run(["/bin/bash", "-c", script], stdout=subprocess.PIPE, check=True).stdout.decode()
    need(told == "worker --shard 2 --replica 1 -- pressclip run 0\n", f"it starts {told!r}")


def highlighted(requests: Sequence[dict[str, object]], engine: str) -> subprocess.CompletedProcess[bytes]:
    """What the example shows of these requests, with this engine."""
    lines = b"".join(json.dumps(request).encode() + b"\n" for request in requests)
    return subprocess.run([str(HIGHLIGHT)], input=lines, capture_output=True, check=False,
                          env={**os.environ, "PRESSCLIP": engine, "PYTHONIOENCODING": "utf-8"})


def highlight_cuts_words_as_the_engine_does() -> None:
    """Also those that have no blank between them, and in each field that has a hit."""
    fields = {"text": "\U0001f375 日本語, naïve tea", "title": "Can't stop", "author": "-"}
    queries = [{"id": "all", "query": "[* TO *]"}, {"id": "title", "query": "title:stop"}]
    done = highlighted([{"op": "register", "queries": queries}, {"op": "count"},
                        {"op": "match", "articles": [{"id": "a", "fields": fields}, {"id": "b", "fields": fields}]}],
                       program())
    due = ("{0} all text: \U0001f375 [日][本][語], [naïve] [tea]\n"
           "{0} title title: Can't [stop]\n")
    need(done.stdout.decode() == due.format("a") + due.format("b"), f"{done}")


def highlight_says_which_program_is_missing() -> None:
    """In one line, with status 1."""
    done = highlighted([{"op": "count"}], "/none")
    due = b"examples/highlight: there is no program at /none: run ./build\n"
    need(done.returncode == 1 and done.stderr == due, f"{done}")


TESTS: tuple[Callable[[], None], ...] = (examples_are_run_and_compared, a_unit_starts_the_worker_of_its_name,
                                         highlight_cuts_words_as_the_engine_does,
                                         highlight_says_which_program_is_missing)
