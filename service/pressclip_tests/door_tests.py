"""Tests of `service/door`: queries, articles, explaining and figures over HTTP."""

from __future__ import annotations

import json
import subprocess
from pathlib import Path
from typing import Any, Callable
from urllib.parse import quote

from .door_runs import DOOR, Door, Json, by_aiohttp, shared, without_hits
from .explain_tests import FAULTS
from .grid_runs import DEBIAN_PYTHON, Grid
from .judge import SERVICE, folder, need
from .processes import PATIENCE_SECONDS

TEA: Json = {"id": "a1", "fields": {"text": "Green tea, black tea"}}
ODD_IDS = ["a/b", "é", "x in y", "50%", "q?x=1#y", "\U0001f375", "q" * 256]


def queries_are_put_shown_and_deleted() -> None:
    """By aiohttp's client, one after another, and a restart of the door keeps them."""
    with folder() as name:
        journal = str(Path(name) / "j")
        with Door("--journal", journal) as door:
            came = by_aiohttp(door, [
                ("PUT", "/queries/q1", {"query": "+tea pric*"}), ("PUT", "/queries/q1", {"query": "tea"}),
                ("PUT", "/queries/q2", {"query": "rain", "listener": "mail"}), ("GET", "/queries/q1", None),
                ("GET", "/queries/q2", None), ("GET", "/queries/none", None), ("DELETE", "/queries/q1", None),
                ("DELETE", "/queries/q1", None),
                ("POST", "/queries", {"queries": [{"id": "q3", "query": "a"}, {"id": "q4", "query": "b"}]})])
            need([status for status, _ in came] == [201, 200, 201, 200, 200, 404, 200, 404, 200], f"{came}")
            need(came[3][1] == {"id": "q1", "query": "tea"}, f"{came[3]}")
            need(came[4][1] == {"id": "q2", "query": "rain", "listener": "mail"}, f"{came[4]}")
            need(came[6][1] == {"deleted": 1} and came[8][1] == {"registered": 2}, f"{came}")
            door.ends()
        with Door("--journal", journal) as door:
            listed = door.ask("GET", "/queries").value
            need(listed == {"count": 3, "queries": [{"id": "q2", "query": "rain", "listener": "mail"},
                                                    {"id": "q3", "query": "a"}, {"id": "q4", "query": "b"}]}, f"{listed}")
            need(door.ask("DELETE", "/queries").value == {"cleared": 3}, "not all are cleared")
            need(door.ask("GET", "/queries").value == {"count": 0, "queries": []}, "some are left")


def ids_of_any_signs_are_named() -> None:
    """An id in an address is percent-encoded, and is the one that alerts name."""
    door = shared()
    for name in ODD_IDS:
        path = f"/queries/{quote(name, safe='')}"
        need(door.ask("PUT", path, {"query": "tea"}).value == {"id": name, "query": "tea"}, name)
        need(door.ask("GET", path).value == {"id": name, "query": "tea"}, name)
    alerts = door.match("a1", "tea")["alerts"]
    need(alerts == [{"article": "a1", "queries": sorted(ODD_IDS, key=str.encode)}], f"{alerts}")
    door.ask("PUT", f"/queries/{'q' * 257}", {"query": "tea"}).refused(422, "limit")


def queries_are_listed_in_pages() -> None:
    """In the byte order of their ids, by what they begin with, and by a text in them."""
    names = [f"{kind}{number}" for kind in ("b/", "a/", "é/") for number in range(40)]
    door = shared()
    queries = [{"id": name, "query": f"Tea w{name[2:]}"} for name in names]
    door.ask("POST", "/queries", {"queries": queries})
    ordered, seen, after = sorted(names, key=str.encode), [], ""
    while True:
        page = door.ask("GET", f"/queries?limit=50&after={after}").value
        seen += [one["id"] for one in page["queries"]]
        need(page["count"] == 120 and len(page["queries"]) <= 50, f"{page['count']}")
        if "next" not in page:
            break
        after = page["next"].replace("é", "%C3%A9")
    need(seen == ordered, f"{seen}")
    page = door.ask("GET", "/queries?prefix=a/&limit=3").value
    need([one["id"] for one in page["queries"]] == ["a/0", "a/1", "a/10"] and page["next"] == "a/10", f"{page}")
    page = door.ask("GET", "/queries?search=TEA%20W39").value
    need([one["id"] for one in page["queries"]] == ["a/39", "b/39", "é/39"] and "next" not in page, f"{page}")
    door.ask("DELETE", "/queries/a%2F1")
    door.put("a%2F05", "milk")
    page = door.ask("GET", "/queries?prefix=a/&limit=3").value
    need([one["id"] for one in page["queries"]] == ["a/0", "a/05", "a/10"], f"{page}")
    for wrong in ("limit=0", "limit=x", "limit=1001"):
        door.ask("GET", f"/queries?{wrong}").refused(400, "shape")


def a_refused_query_has_its_fault_and_place() -> None:
    """As the page on explaining has them, and of many queries the one that is refused."""
    door = shared()
    for text, fault, at in FAULTS:
        said = door.ask("PUT", "/queries/q1", {"query": text}).refused(422, "query")
        need((said["fault"], said["at"], said["which"]) == (fault, at, 0) and bool(said["detail"]), f"{said}")
    need(door.ask("GET", "/queries").value["count"] == 0, "a refused query is registered")
    queries = [{"id": "q1", "query": "tea"}, {"id": "q2", "query": "tea AND"}]
    said = door.ask("POST", "/queries", {"queries": queries}).refused(422, "query")
    need((said["which"], said["member"]) == (1, "queries[1].query"), f"{said}")
    door.ask("PUT", "/queries/q1", {"query": "tea", "listener": "fax"}).refused(422, "listener")
    door.ask("POST", "/articles", {"articles": [TEA] * 257}).refused(422, "limit")
    door.ask("POST", "/articles", {"id": "a1", "fields": {"text": "x" * 1_048_576}}).refused(413, "long")
    said = door.ask("POST", "/articles", {"id": "a1", "fields": {"text": 7}}).refused(400, "shape")
    need(said["member"] == "articles[0].fields.text", f"{said}")


def articles_have_hits_and_marks() -> None:
    """Where they are asked for, as the page of the protocol has them."""
    door = shared()
    door.put("q1", "tea")
    plain = door.ask("POST", "/articles", {"articles": [TEA, {"id": "a2", "fields": {"text": "milk"}}]}).value
    need(plain == {"alerts": [{"article": "a1", "queries": ["q1"]}, {"article": "a2", "queries": []}], "notes": []},
         f"{plain}")
    said = door.match("a1", TEA["fields"]["text"], "?hits=true&marked=true")["alerts"][0]
    need(said["hits"] == [[{"field": "text", "position": 1}, {"field": "text", "position": 3}]], f"{said}")
    marked = {"query": "q1", "field": "text", "pieces": ["Green ", "tea", ", black ", "tea", ""]}
    need(said["marked"] == [marked], f"{said}")
    door.put("q2", "stra*")
    said = door.match("a3", "Die Stra\u00dfe, \u65e5\u672c", "?marked=true")["alerts"][0]
    need(said["marked"][0]["pieces"] == ["Die ", "Stra\u00dfe", ", \u65e5\u672c"] and "hits" not in said, f"{said}")
    last = door.ask("GET", "/articles?limit=2").value["articles"]
    need([one["id"] for one in last] == ["a3", "a1"] and last[1] == TEA, f"{last}")


def queries_are_explained_and_tried() -> None:
    """Before they are registered, and none is registered by it."""
    door = shared()
    said = door.ask("POST", "/explain", {"query": "tea AND"}).value
    need((said["fault"], said["at"]) == ("Structure", 7), f"{said}")
    said = door.ask("POST", "/explain", {"query": "+tea -(coffee milk*)"}).value
    need(said["reads"] == "+text:tea -(text:coffee text:milk*)", f"{said}")
    said = door.ask("POST", "/words", {"text": "Can't stop, Stra\u00dfe"}).value
    need([one["word"] for one in said["words"]] == ["can't", "stop", "strasse"], f"{said}")
    said = door.ask("POST", "/try", {"query": "+black +tea", "article": TEA}).value
    pieces = ["Green ", "tea", ", ", "black", " ", "tea", ""]
    need(said == {"holds": True, "marked": [{"query": "query", "field": "text", "pieces": pieces}]}, f"{said}")
    need(door.ask("POST", "/try", {"query": "milk", "article": TEA}).value == {"holds": False, "marked": []}, "milk")
    said = door.ask("POST", "/try", {"query": "tea AND", "article": TEA}).refused(422, "query")
    need((said["fault"], said["at"], said["member"]) == ("Structure", 7, "query"), f"{said}")
    door.ask("POST", "/try", {"query": "tea", "article": {"id": "", "fields": {}}}).refused(422, "limit")
    need(door.ask("GET", "/queries").value["count"] == 0, "a tried query is registered")


def figures_are_those_of_what_was_done() -> None:
    """Lines by their kind, refusals by their word, alerts, queries, and the journal's bytes."""
    with folder() as name:
        journal = Path(name) / "j"
        with Door("--journal", str(journal)) as door:
            door.put("q1", "tea")
            door.put("q2", "tea")
            door.ask("PUT", "/queries/q3", {"query": "tea~"}).refused(422, "query")
            door.ask("GET", "/queries/q1")
            for _ in range(3):
                door.match("a1", "tea")
            door.match("a2", "milk")
            figures = figures_of(door)
            due = {'pressclip_lines_total{op="register"}': 2, 'pressclip_lines_total{op="match"}': 4,
                   'pressclip_lines_total{op="show"}': 1, 'pressclip_refused_total{word="query"}': 1,
                   "pressclip_alerts_total": 6, "pressclip_queries": 2, "pressclip_reply_seconds_count": 8,
                   "pressclip_lines_in_flight": 0, "pressclip_engine_restarts_total": 0,
                   "pressclip_journal_bytes": (journal / "changes").stat().st_size}
            need({name: figures.get(name) for name in due} == due, f"{figures}")


def figures_of(door: Door) -> dict[str, float]:
    """The figures by their names."""
    lines = door.ask("GET", "/metrics").text.decode().splitlines()
    return {name: float(value) for name, _, value in (line.rpartition(" ") for line in lines if line[:1] != "#")}


def the_document_names_each_route() -> None:
    """The served document and the application have the same methods at the same addresses, and real answers are of the
    forms that it gives."""
    door = shared()
    document = door.ask("GET", "/openapi.json").value
    told = {(method.upper(), path) for path, methods in document["paths"].items() for method in methods}
    need(told == routes_of_the_application(), f"{sorted(told ^ routes_of_the_application())}")
    door.put("q1", "tea")
    acts: list[tuple[str, str, str, object]] = [
        ("put", "/queries/{id}", "/queries/q2", {"query": "rain", "listener": "mail"}),
        ("put", "/queries/{id}", "/queries/q2", {"query": "tea AND"}), ("get", "/queries/{id}", "/queries/q2", None),
        ("get", "/queries/{id}", "/queries/none", None), ("get", "/queries", "/queries?limit=1", None),
        ("post", "/queries", "/queries", {"queries": [{"id": "q3", "query": "a"}]}),
        ("post", "/articles", "/articles?hits=true&marked=true", TEA), ("get", "/articles", "/articles", None),
        ("post", "/words", "/words", {"text": "tea"}), ("post", "/explain", "/explain", {"query": "tea"}),
        ("post", "/try", "/try", {"query": "tea", "article": TEA}), ("get", "/deliveries", "/deliveries", None),
        ("get", "/healthz", "/healthz", None), ("get", "/readyz", "/readyz", None),
        ("delete", "/queries/{id}", "/queries/q3", None), ("delete", "/queries", "/queries", None)]
    checks = []
    for method, path, address, body in acts:
        answer = door.ask(method.upper(), address, body)
        responses = document["paths"][path][method]["responses"]
        due = responses.get(str(answer.status))
        need(due is not None, f"{method} {path}: the document has no status {answer.status}")
        (kind, content), = due["content"].items()
        need(answer.headers["Content-Type"].startswith(kind), f"{method} {path}: {answer.headers}")
        checks.append({"what": f"{method} {path} {answer.status}", "value": answer.value,
                       "schema": {**content["schema"], "components": document["components"]}})
    judge_by_schema(checks)
    head, whole = (door.ask(method, "/openapi.json") for method in ("HEAD", "GET"))
    need(head.status == 200 and not head.text and head.headers["Content-Length"] == str(len(whole.text)),
         f"the header alone: {head}")


VALIDATOR = """
import json, sys, jsonschema
for check in json.load(sys.stdin):
    try:
        jsonschema.Draft202012Validator(check["schema"]).validate(check["value"])
    except jsonschema.ValidationError as error:
        sys.exit(f"{check['what']}: {error.message}")
"""
ROUTES = """
import json
from pressclip_door import app
from pressclip_door.settings import Settings
import asyncio
async def main():
    door = app.door_of(Settings(), ["true"], None)
    print(json.dumps([[route.method, route.resource.canonical] for route in app.app_of(door, []).router.routes()]))
asyncio.run(main())
"""
ELSEWHERE = ("/elasticsearch", "/page")


def by_debian(program: str, given: str = "") -> str:
    """What a program of Debian's Python prints."""
    done = subprocess.run([DEBIAN_PYTHON, "-B", "-c", program], cwd=SERVICE, input=given, stdout=subprocess.PIPE,
                          stderr=subprocess.PIPE, timeout=PATIENCE_SECONDS, text=True, check=False)
    need(done.returncode == 0, done.stderr)
    return done.stdout


def routes_of_the_application() -> set[tuple[str, str]]:
    """The methods and addresses of its routes, but for the page and the percolator's address."""
    found: list[tuple[str, str]] = json.loads(by_debian(ROUTES))
    return {(method, path) for method, path in found
            if method != "HEAD" and path != "/" and not path.startswith(ELSEWHERE)}


def judge_by_schema(checks: list[Any]) -> None:
    """`Failed` where a value is not of the form of its schema, by Debian's python3-jsonschema."""
    by_debian(VALIDATOR, json.dumps(checks))


def it_serves_over_any_command() -> None:
    """A plain command; one that is not there, or ends before it answers, ends the door with a status that says so."""
    with Door(engine=without_hits()) as door:
        door.put("q1", "tea")
        need(door.match("a1", "tea")["alerts"] == [{"article": "a1", "queries": ["q1"]}], "no alert")
        door.ask("POST", "/articles?hits=true", TEA).refused(409, "hits")
    with folder() as name:
        (Path(name) / "journal").write_bytes(b"no journal")
        cases: tuple[tuple[list[str], str, int, str], ...] = (
            ([], "/nowhere/pressclip", 1, "can't be started"), ([], "false", 1, "ended with status 1"),
            (["--journal", name], without_hits()[0], 3, "ended with status 3"))
        for options, engine, status, words in cases:
            done = subprocess.run([DEBIAN_PYTHON, str(DOOR), "--port", "0", *options, "--", engine, "run", "0"],
                                  stdin=subprocess.DEVNULL, capture_output=True, text=True, timeout=PATIENCE_SECONDS,
                                  check=False)
            need(done.returncode == status and words in done.stderr, f"status {done.returncode}: {done.stderr}")


def it_serves_over_a_grid() -> None:
    """Queries are registered, listed and matched, and those that were there are known."""
    with folder() as name, Grid(Path(name), 2, 1, after=1_000) as grid:
        environment = {"PRESSCLIP_REDIS": f"redis://127.0.0.1:{grid.redis.port}/0"}
        for number in range(2):
            with Door("--grid", engine=without_hits(), environment=environment) as door:
                need(door.ask("GET", "/queries").value["count"] == 3 * number, "other queries are known")
                door.ask("POST", "/queries", {"queries": [{"id": f"q{n}", "query": "tea"} for n in range(3)]})
                alerts = door.match("a1", "tea")["alerts"]
                need(alerts == [{"article": "a1", "queries": ["q0", "q1", "q2"]}], f"{alerts}")
                door.ends()


TESTS: tuple[Callable[[], None], ...] = (
    queries_are_put_shown_and_deleted, ids_of_any_signs_are_named, queries_are_listed_in_pages,
    a_refused_query_has_its_fault_and_place, articles_have_hits_and_marks, queries_are_explained_and_tried,
    figures_are_those_of_what_was_done, the_document_names_each_route, it_serves_over_any_command, it_serves_over_a_grid)
