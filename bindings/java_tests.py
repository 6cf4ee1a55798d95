"""Tests of the Java library: those in Java, random calls against the program, and Lucene's Monitor beside it."""

from __future__ import annotations

import base64
import json
import os
import re
import subprocess
import sys
import tempfile
from functools import cache
from pathlib import Path
from typing import Any, Callable, Iterator

from python_tests import INPUTS, requests_of
from skips import need_file, need_package

TOP = Path(__file__).resolve().parent.parent
JAVA = TOP / "bindings" / "java"
CLASSES_OF_LUCENE = JAVA / "out" / "lucene" / "classes"
LUCENE_IS_BUILT_BY = "Lucene's Monitor is built by: bindings/java/lucene"
JARS = "/usr/share/java"
PARTS = 5
DOCUMENTS = 10_000
LUCENES_QUERIES = 3_000


@cache
def built() -> None:
    """Builds the jar, from the library that stands now; `Skipped` where Debian's packages for it are missing."""
    need_package("/usr/bin/javac", "openjdk-17-jdk-headless")
    need_package(f"{JARS}/jna.jar", "libjna-java")
    need_package(f"{JARS}/junit4.jar", "junit4")
    subprocess.run([JAVA / "build"], check=True, stdout=subprocess.DEVNULL)


def told(*words: str, given: str = "") -> str:
    """What `bindings/java/test` prints, which goes well."""
    run = subprocess.run([JAVA / "test", *words], input=given, stdout=subprocess.PIPE, stderr=subprocess.STDOUT,
                         text=True)
    assert run.returncode == 0, run.stdout[-3_000:]
    return run.stdout


def the_tests_in_java_pass() -> None:
    """Calls with right, wrong and hostile arguments, listeners, and threads that share a monitor."""
    built()
    assert "OK (" in told(), "no test"


def in_64(text: str) -> str:
    """A text as a word of a call."""
    return base64.b64encode(text.encode()).decode() or "="


def call_of(request: dict[str, Any]) -> str:
    """The call that a request of the protocol asks for."""
    letters = {"register": "r", "delete": "d", "clear": "x", "purge": "p", "count": "c", "show": "s", "match": "m"}
    texts: list[str] = []
    if request["op"] == "register":
        texts = [text for query in request["queries"] for text in (query["id"], query["query"])]
    elif request["op"] == "delete":
        texts = request["ids"]
    elif request["op"] == "show":
        texts = [request["id"]]
    elif request["op"] == "match":
        ((fields),) = [article["fields"] for article in request["articles"]]
        texts = [text for pair in fields.items() for text in pair]
    return " ".join([letters[request["op"]], *map(in_64, texts)])


def answer_of(request: dict[str, Any], reply: dict[str, Any]) -> str:
    """What a call is to give where the program replies so."""
    if "refused" in reply:
        return f"refused {reply['refused']} {reply.get('which', 0)}"
    if request["op"] in ("register", "delete", "clear", "purge"):
        return "ok"
    if request["op"] == "count":
        return f"count {reply['count']}"
    if request["op"] == "show":
        return "none" if reply["query"] is None else f"query {in_64(reply['query'])}"
    (alerts,) = reply["alerts"]
    each = [f"{in_64(id)}=" + ",".join(f"{hit['field']}@{hit['position']}" for hit in hits)
            for id, hits in zip(alerts["queries"], alerts["hits"])]
    return " ".join(["found", *each])


def single(request: dict[str, Any]) -> Iterator[dict[str, Any]]:
    """The requests that calls in Java are made of: a match is of one article, and no query has a listener."""
    if request["op"] == "match":
        for article in request["articles"]:
            yield {"op": "match", "articles": [{"id": "d", "fields": article["fields"]}]}
    elif request["op"] == "register":
        yield {"op": "register", "queries": [{"id": one["id"], "query": one["query"]} for one in request["queries"]]}
    else:
        yield request


def java_gives_what_the_program_replies() -> None:
    """A thousand random inputs in one JVM, call by call: counts, queries, ids, hits and refusals with their places."""
    built()
    requests, calls = [], []
    for seed in range(INPUTS):
        for request in [one for whole in requests_of(seed) for one in single(whole)] + [{"op": "clear"}]:
            requests.append(request)
            calls.append(call_of(request))
    program = os.environ.get("PRESSCLIP", str(TOP / "crates" / "pressclip" / "out" / "pressclip"))
    run = subprocess.run([program, "run", "hits"], input="".join(json.dumps(each) + "\n" for each in requests).encode(),
                         stdout=subprocess.PIPE, check=True)
    replies = [json.loads(reply) for reply in run.stdout.splitlines()]
    answers = told("replay", given="".join(call + "\n" for call in calls)).splitlines()
    assert len(requests) == len(replies) == len(answers) > 4 * INPUTS, (len(requests), len(replies), len(answers))
    for request, reply, answer in zip(requests, replies, answers):
        assert answer == answer_of(request, reply), (request, reply, answer)


def java_gives_the_ids_of_lucenes_monitor() -> None:
    """Both in one JVM, on the queries of the benchmark and 10,000 documents of some 80 words."""
    need_file(CLASSES_OF_LUCENE, LUCENE_IS_BUILT_BY)
    built()
    sys.path.append(str(TOP / "bench"))
    from workload import Workload

    workload = Workload.make(57, LUCENES_QUERIES, DOCUMENTS // PARTS)
    lines = [f"r {in_64(id)} {in_64(query)}" for id, query in workload.named]
    for article in workload.articles:
        words = article.text.split(" ")
        size = len(words) // PARTS + 1
        lines += [f"m {in_64('text')} {in_64(' '.join(words[at:at + size]))} {in_64('title')} {in_64(article.title)}"
                  for at in range(0, PARTS * size, size)]
    last = told("beside", given="".join(line + "\n" for line in lines)).splitlines()[-1].split(", ")
    assert last[:2] == [f"{LUCENES_QUERIES} queries", f"{DOCUMENTS} documents"] and last[3] == "0 different", last
    assert int(last[2].split()[0]) > DOCUMENTS // 2, last


def the_caller_on_the_page_runs_on_lucenes_monitor() -> None:
    """With the imports of before it prints what stands on the page for those of after."""
    need_file(CLASSES_OF_LUCENE, LUCENE_IS_BUILT_BY)
    page = (TOP / "docs" / "FROM_LUCENE_MONITOR.md").read_text()
    before, after = re.findall(r"^```java\n(.*?)^```$", page, re.DOTALL | re.MULTILINE)
    (due,) = re.findall(r"^<!-- test: output -->\n```\n(.*?)^```$", page, re.DOTALL | re.MULTILINE)
    assert after.count("import pressclip.monitor.*;\n") == 1
    paths = [str(CLASSES_OF_LUCENE), *sorted(map(str, Path(JARS).glob("lucene-*-8*.jar")))]
    with tempfile.TemporaryDirectory() as folder:
        Path(folder, "Desk.java").write_text(after.replace("import pressclip.monitor.*;\n", before))
        run = subprocess.run(["java", "-cp", ":".join(paths), "Desk.java"], cwd=folder, stdout=subprocess.PIPE,
                             check=True, text=True)
    assert run.stdout == due, run.stdout


TESTS: tuple[Callable[[], None], ...] = (
    the_tests_in_java_pass, java_gives_what_the_program_replies, java_gives_the_ids_of_lucenes_monitor,
    the_caller_on_the_page_runs_on_lucenes_monitor)
