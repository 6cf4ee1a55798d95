"""Tests of the door's press dialect: registered, explained and tried, and where it is refused."""

from __future__ import annotations

import json
import subprocess
from pathlib import Path
from typing import Any

from pressclip_service.engine import command_of

from .door_runs import DOOR, Door, Events, shared
from .grid_runs import DEBIAN_PYTHON
from .judge import folder, need
from .press_dialect_tests import REFUSED, TOLD
from .processes import PATIENCE_SECONDS

Json = dict[str, Any]
NEAR = "Tesla NEAR/5 recall* NOT title:opinion"
HELD: Json = {"id": "held", "fields": {"title": "Cars", "text": "A new recall by Tesla"}}
FAR: Json = {"id": "far", "fields": {"title": "Cars", "text": "Recalls of all that was made in May. Then came Tesla"}}
OPINION: Json = {"id": "opinion", "fields": {"title": "Opinion", "text": "A new recall by Tesla"}}
DEEP = 51
ROWS = Path(__file__).with_name("queries_of_press_desks.jsonl")
LEAST_TRIED = 90


def alerted(door: Door) -> Json:
    """The queries that hold of each article."""
    answer = door.ask("POST", "/articles", {"articles": [HELD, FAR, OPINION]})
    need(answer.status == 200, f"{answer}")
    return {alert["article"]: alert["queries"] for alert in answer.value["alerts"]}


def queries_of_press_desks_stand_at_the_door() -> None:
    """As they were written, also after a restart, and they hold by the dialect; what can't be said is refused with its
    reason and the byte, and nothing of its line is registered."""
    with folder() as name:
        for life in range(2):
            with Door("--dialect", "press", "--journal", name, engine=command_of([], workers=2)) as door:
                if life == 0:
                    door.put("near", NEAR)
                    door.put("deep", "NOT " * DEEP + "tea")
                    need(alerted(door) == {"held": ["deep", "near"], "far": ["deep"], "opinion": ["deep"]},
                         f"{alerted(door)}")
                    need(door.ask("DELETE", "/queries/deep").status == 200, "it can't be deleted")
                    for depth, fault in ((199, "too_large"), (15_000, "too_deep")):
                        said = door.ask("PUT", "/queries/deep", {"query": "NOT " * depth + "tea"}).refused(422, "query")
                        need(said["fault"] == fault, f"{said}")
                    listed = {"queries": [{"id": "a", "query": "tea"}, {"id": "b", "query": "é AND"}]}
                    said = door.ask("POST", "/queries", listed).refused(422, "query")
                    need({**said, "request": ""} == {
                        "type": "about:blank", "title": "the query can't be read", "status": 422, "refused": "query",
                        "detail": "Something is missing behind AND.", "which": 1, "member": "queries[1].query",
                        "fault": "end", "at": 3, "request": ""}, f"{said}")
                need(door.ask("GET", "/queries").value == {"count": 1, "queries": [{"id": "near", "query": NEAR}]},
                     "another query is listed")
                need(door.ask("GET", "/queries/near").value["query"] == NEAR, "another query is shown")
                need(alerted(door) == {"held": ["near"], "far": [], "opinion": []}, f"{alerted(door)}")


def queries_are_explained_and_tried_in_both_dialects() -> None:
    """By a door of the engine's own syntax where that is asked for, and by one of press desks as usual."""
    door = shared()
    need(door.ask("GET", "/healthz").value["dialects"] == ["classic", "press"], "other dialects are told")
    read = door.ask("POST", "/explain?dialect=press", {"query": "é Tesla NEAR recall* date>2026-01"}).value
    need(read["filtered"] and read["fields"] == ["date", "text"], f"{read}")
    need(read["says"].endswith(". Of these, those are kept of which the query holds as it is written."), read["says"])
    told = [(one["at"], one["rule"]) for one in read["remarks"] if one["level"] == "notice"]
    need((9, "near_without_number") in told, f"told is {told}")
    need(door.ask("POST", "/explain?dialect=press", {"query": "é AND"}).value
         == {"at": 3, "fault": "end", "says": "Something is missing behind AND."}, "the fault is another")
    need(door.ask("POST", "/explain?dialect=press", {"query": "NOT " * 15_000 + "tea"}).value["fault"] == "too_deep",
         "a deep query is read")
    body = {"query": "tea, coffee", "article": {"id": "a", "fields": {"text": "coffee"}}}
    need(door.ask("POST", "/try?dialect=press", body).value == {"holds": True, "marked": []}, "a comma is no OR")
    body = {"query": "tea NOT", "article": {"id": "a", "fields": {"text": "tea"}}}
    said = door.ask("POST", "/try?dialect=press", body).refused(422, "query")
    need(said["fault"] == "end" and said["at"] == 4 and said["member"] == "query", f"{said}")
    body = {"query": "tea", "article": {"id": "a", "fields": {"a b": "tea"}}}
    said = door.ask("POST", "/try?dialect=press", body).refused(422, "limit")
    need(said["member"] == "article", f"{said}")
    door.ask("POST", "/explain?dialect=lucene", {"query": "tea"}).refused(400, "shape")
    with Door("--dialect", "press", engine=command_of([], workers=0)) as press:
        need(press.ask("GET", "/healthz").value["dialects"] == ["press"], "other dialects are told")
        need(press.ask("POST", "/explain", {"query": NEAR}).value["dialect"] == "press", "it is read in another dialect")
        need("tree" in press.ask("POST", "/explain?dialect=classic", {"query": "tea"}).value, "the engine's own is not read")


def rows_of_press_desks_are_tried() -> None:
    """Each article of each row, as whoever wrote the row says that it holds or not."""
    door, tried = shared(), 0
    for line in ROWS.read_text().splitlines():
        row = json.loads(line)
        for article in () if row["query"] in TOLD else row["articles"]:
            body = {"query": row["query"], "article": {"id": "a", "fields": article["fields"]}}
            answer = door.ask("POST", "/try?dialect=press", body)
            need((answer.status == 422) == (row["query"] in REFUSED), f"{row['query']}: {answer}")
            need(answer.status == 422 or answer.value["holds"] == article["holds"], f"{row['query']}: {article}")
            tried += answer.status == 200
    need(tried >= LEAST_TRIED, f"{tried} articles were tried")


def no_query_is_registered_in_another_dialect() -> None:
    """Than the door's own, neither by name nor through Elasticsearch's address."""
    door = shared()
    with Door("--dialect", "press", engine=command_of([], workers=0)) as press:
        for one, other in ((door, "press"), (press, "classic")):
            one.ask("PUT", f"/queries/q?dialect={other}", {"query": "tea"}).refused(409, "dialect")
            listed = {"queries": [{"id": "q", "query": "tea"}]}
            one.ask("POST", f"/queries?dialect={other}", listed).refused(409, "dialect")
            one.ask("PUT", "/queries/q?dialect=lucene", {"query": "tea"}).refused(400, "shape")
            need(one.ask("GET", "/queries").value["count"] == 0, "a query of another dialect is registered")
        need(door.ask("PUT", "/queries/q?dialect=classic", {"query": "tea"}).status == 201, "its own is refused")
        answer = press.ask("PUT", "/elasticsearch/news", {"mappings": {"properties": {"query": {"type": "percolator"}}}})
        need(answer.status == 400 and "dialect press" in answer.value["error"]["reason"], f"{answer}")


def places_in_prepared_articles_are_not_shown() -> None:
    """Neither hits nor marks nor excerpts, also of an engine that gives hits: they would be other words."""
    with Door("--dialect", "press", engine=[*command_of([], workers=0), "hits"]) as door:
        need(door.ask("GET", "/readyz").value["shows_hits"] is False, "hits are promised")
        door.put("near", NEAR)
        with Events(door, "/alerts?excerpts=true") as events:
            need(door.ask("POST", "/articles", HELD).value
                 == {"alerts": [{"article": "held", "queries": ["near"]}], "notes": []}, "hits are shown")
            event = events.next()
            need(event["data"]["queries"] == ["near"] and event["data"]["excerpts"] == [], f"{event}")
        for wish in ("hits", "marked"):
            door.ask("POST", f"/articles?{wish}=true", HELD).refused(409, "hits")


def the_dialect_is_chosen_by_settings() -> None:
    """With a profile, whose blank is OR; what can't be used together ends the door at once, with the reason."""
    with folder() as name:
        place = Path(name)
        engine = json.dumps(command_of([], workers=0))
        (place / "profile.toml").write_text('[dialect]\nblank = "or"\n')
        (place / "door.toml").write_text(f'engine = {engine}\ndialect = "press"\nprofile = "profile.toml"\n')
        with Door(str(place / "door.toml")) as door:
            door.put("either", "Tesla opinion")
            need(alerted(door) == {one: ["either"] for one in ("held", "far", "opinion")}, f"{alerted(door)}")
            body = {"query": "tea coffee", "article": {"id": "a", "fields": {"text": "tea"}}}
            need(door.ask("POST", "/try", body).value["holds"], "it is tried by another profile")
        for text, reason in (('dialect = "lucene"', "dialect is classic or press"),
                             ('dialect = "press"\ngrid = []', "leave dialect press out"),
                             ('profile = "profile.toml"', "a profile is of dialect press")):
            (place / "door.toml").write_text(text)
            done = subprocess.run([DEBIAN_PYTHON, str(DOOR), str(place / "door.toml")], stdin=subprocess.DEVNULL,
                                  capture_output=True, text=True, timeout=PATIENCE_SECONDS, check=False)
            need(done.returncode == 2 and reason in done.stderr, f"{text}: {done.returncode} {done.stderr}")


TESTS = (queries_of_press_desks_stand_at_the_door, queries_are_explained_and_tried_in_both_dialects,
         rows_of_press_desks_are_tried, no_query_is_registered_in_another_dialect,
         places_in_prepared_articles_are_not_shown, the_dialect_is_chosen_by_settings)
