"""Tests of the percolator's address of `service/door`, by Debian's client of Elasticsearch, by curl, and by a judge of
what Elasticsearch's queries mean."""

from __future__ import annotations

import json
import os
import signal
import subprocess
from functools import partial
from pathlib import Path
from random import Random
from typing import Any, Callable, Iterator, Sequence

from .door_runs import Answer, Door, Events, shared
from .elasticsearch_inputs import Judge, Source
from .elasticsearch_judge import FIELDS, holds
from .grid_runs import DEBIAN_PYTHON
from .judge import folder, need
from .processes import ENDED, PATIENCE_SECONDS

Json = dict[str, Any]
CLIENT = Path(__file__).with_name("percolator_client.py")
BASE = "/elasticsearch"
NDJSON = {"Content-Type": "application/x-ndjson"}
SIGNS = ("aZé\u00df\u0130\u4e00\u3042\ud55c\u0e01\u0301\u200d'\".,:;_-*?~^/\\+!(){}[]|& \t\u3000\u05d0"
         "\U0001f375\ufb01\u01490")
MAPPINGS: Json = {"properties": {"query": {"type": "percolator"}, **FIELDS}}
RANDOM_QUERIES, RANDOM_TEXTS, RANDOM_DOCUMENTS = 1_000, 400, 40


def called(door: Door, calls: Sequence[tuple[str, Json]], *token: str) -> list[Any]:
    """What Debian's client gives for calls, with a token where one is given."""
    command = [DEBIAN_PYTHON, "-B", str(CLIENT), door.address + BASE, *token]
    done = subprocess.run(command, input=json.dumps(calls).encode(), stdout=subprocess.PIPE, check=True,
                          timeout=PATIENCE_SECONDS)
    found: list[Any] = json.loads(done.stdout)
    return found


def asked(door: Door, method: str, path: str, body: object = None) -> Json:
    """The answer to a request that is not refused."""
    answer = door.ask(method, BASE + path, body)
    need(answer.status in (200, 201), f"{method} {path}: {answer}")
    said: Json = answer.value
    return said


def refused(answer: Answer, status: int, *words: str) -> str:
    """The reason of a refusal in Elasticsearch's form, which has all these words; `Failed` else."""
    need(answer.status == status and answer.value["status"] == status, f"{answer}, and status {status} is due")
    error = answer.value["error"]
    told = f"{error['type']} {error['reason']}"
    need(error["root_cause"][0]["reason"] == error["reason"], f"{error}")
    need(all(word in told for word in words), f"{told!r} has not all of {words}")
    return told


def emptied(door: Door, name: str, mappings: Json) -> None:
    """Makes an index anew."""
    door.ask("DELETE", f"{BASE}/{name}")
    asked(door, "PUT", f"/{name}", {"mappings": mappings})


def bulk(door: Door, name: str, queries: Sequence[Json]) -> list[Json]:
    """What becomes of documents with these queries, whose ids are their places."""
    lines: list[Json] = [line for place, query in enumerate(queries)
                         for line in ({"index": {"_id": str(place)}}, {"query": query})]
    text = b"".join(json.dumps(line).encode() + b"\n" for line in lines)
    answer = door.ask("POST", f"{BASE}/{name}/_bulk", text, NDJSON)
    need(answer.status == 200, f"{answer}")
    return [item["index"] for item in answer.value["items"]]


def percolated(door: Door, name: str, documents: Sequence[Json], **more: object) -> list[Json]:
    """The hits of documents."""
    body = {"size": 10_000, "query": {"percolate": {"field": "query", "documents": documents}}, **more}
    found: list[Json] = asked(door, "POST", f"/{name}/_search", body)["hits"]["hits"]
    return found


def slots_of(hits: Sequence[Json]) -> dict[str, list[int]]:
    """By the id of each hit the places of its documents."""
    return {hit["_id"]: hit["fields"]["_percolator_document_slot"] for hit in hits}


NEWS: Json = {"message": {"type": "text"}, "query": {"type": "percolator"}, "user": {"type": "keyword"}}
BONSAI: Json = {"query": {"match": {"message": "bonsai tree"}}, "user": "ann"}
TEA: Json = {"bool": {"must": {"match": {"message": "tea"}}, "must_not": [{"term": {"message": "spam"}}]}}
PERCOLATE: Json = {"percolate": {"field": "query", "documents": [
    {"message": "A new bonsai tree, and Tea."}, {"message": "spam of tea"}, {"message": "a tree"}]}}


def clients_make_indices_and_documents() -> None:
    """By Debian's client: an index, queries one by one and many, what is kept, and all gone."""
    door = shared()
    came = called(door, [
        ("info", {}), ("indices.create", {"index": "news", "body": {"mappings": {"properties": NEWS}}}),
        ("indices.create", {"index": "news", "body": {"mappings": {"properties": NEWS}}}),
        ("index", {"index": "news", "id": "1", "body": BONSAI, "refresh": "wait_for"}),
        ("index", {"index": "news", "id": "1", "body": BONSAI}),
        ("helpers.bulk", {"actions": [{"_index": "news", "_id": "2", "query": TEA, "user": "bob"},
                                      {"_index": "news", "_id": "bad", "query": {"geo_distance": {}}}]}),
        ("count", {"index": "news"}), ("get", {"index": "news", "id": "2"}), ("exists", {"index": "news", "id": "3"}),
        ("delete", {"index": "news", "id": "2"}), ("delete", {"index": "news", "id": "2"}),
        ("indices.refresh", {"index": "news"}), ("indices.get_mapping", {"index": "news"}),
        ("indices.delete", {"index": "news"}), ("indices.exists", {"index": "news"}), ("count", {"index": "news"})])
    well = called(door, [("ping", {}), ("cluster.health", {"wait_for_status": "yellow"})])
    need(well[0]["gave"] is True and well[1]["gave"]["status"] == "green", f"{well}")
    need(came[0]["gave"]["tagline"] == "You Know, for Search", f"{came[0]}")
    need(came[1]["gave"] == {"acknowledged": True, "shards_acknowledged": True, "index": "news"}, f"{came[1]}")
    need(came[2]["refused"]["error"]["type"] == "resource_already_exists_exception", f"{came[2]}")
    need([one["gave"]["result"] for one in came[3:5]] == ["created", "updated"], f"{came[3:5]}")
    need(came[4]["gave"]["_version"] == 2, f"{came[4]}")
    need(came[5][0] == 1 and came[5][1][0]["index"]["status"] == 400, f"{came[5]}")
    need(came[6]["gave"]["count"] == 2 and came[7]["gave"]["_source"] == {"query": TEA, "user": "bob"}, f"{came[6:8]}")
    need(came[8]["gave"] is False and came[9]["gave"]["result"] == "deleted", f"{came[8:10]}")
    need(came[10]["status"] == 404 and came[10]["refused"]["result"] == "not_found", f"{came[10]}")
    need(came[12]["gave"] == {"news": {"mappings": {"properties": NEWS}}}, f"{came[12]}")
    need(came[13]["gave"] == {"acknowledged": True} and came[14]["gave"] is False, f"{came[13:15]}")
    need(came[15]["refused"]["error"]["type"] == "index_not_found_exception", f"{came[15]}")
    need(door.ask("GET", "/queries").value["count"] == 0, "a query of the index is left")


def clients_percolate() -> None:
    """By Debian's client: documents, their slots, marked words, filters, and a part of the hits."""
    door = shared()
    emptied(door, "news", {"properties": NEWS})
    came = called(door, [
        ("index", {"index": "news", "id": "1", "body": BONSAI}),
        ("index", {"index": "news", "id": "2", "body": {"query": TEA, "user": "bob"}}),
        ("search", {"index": "news", "body": {"query": PERCOLATE, "highlight": {"fields": {"message": {}}}}}),
        ("search", {"index": "news", "body": {"query": {"bool": {"filter": [PERCOLATE, {"term": {"user": "bob"}}]}}}}),
        ("search", {"index": "news", "body": {"query": {"constant_score": {"filter": PERCOLATE}}, "size": 1, "from": 1,
                                              "_source": False}})])
    hits = came[2]["gave"]["hits"]
    need(hits["total"] == {"value": 2, "relation": "eq"}, f"{hits}")
    need(slots_of(hits["hits"]) == {"1": [0, 2], "2": [0]}, f"{hits}")
    need(hits["hits"][0]["_source"] == BONSAI, f"{hits}")
    need([hit["highlight"] for hit in hits["hits"]] == [
        {"0_message": ["A new <em>bonsai</em> <em>tree</em>, and Tea."], "2_message": ["a <em>tree</em>"]},
        {"0_message": ["A new bonsai tree, and <em>Tea</em>."]}], f"{hits}")
    need(slots_of(came[3]["gave"]["hits"]["hits"]) == {"2": [0]}, f"{came[3]}")
    need([one["gave"]["hits"]["max_score"] for one in came[2:]] == [1.0, 0.0, 1.0], "the scores are others")
    shown = came[4]["gave"]["hits"]
    need(shown["total"]["value"] == 2 and [hit["_id"] for hit in shown["hits"]] == ["2"], f"{shown}")
    need("_source" not in shown["hits"][0], f"{shown}")


Dues = Sequence[list[int]]


def dues_of(judges: Sequence[Judge], documents: Sequence[Json]) -> Dues:
    """The places of the documents that are due by each judge."""
    return [[place for place, document in enumerate(documents) if judge(document)] for judge in judges]


def differing(door: Door, queries: Sequence[Json], dues: Dues, documents: Sequence[Json]) -> Iterator[str]:
    """Those queries that are refused, or hold of other documents than are due."""
    emptied(door, "random", MAPPINGS)
    for query, item in zip(queries, bulk(door, "random", queries)):
        if "error" in item:
            yield f"{query} is refused: {item['error']}"
    came = slots_of(percolated(door, "random", documents))
    for place, (query, due) in enumerate(zip(queries, dues)):
        if came.get(str(place), []) != due:
            yield f"{query} holds of {came.get(str(place), [])}, and {due} are due: {documents}"


def judged(query: Json, document: Json) -> bool:
    """Whether a query holds of a document, by the judge."""
    return holds(document, query)


def queries_mean_what_elasticsearch_says() -> None:
    """Random queries over random documents, by a judge that is written apart."""
    door, source = shared(), Source(1)
    documents = [source.document() for _ in range(RANDOM_DOCUMENTS)]
    queries = [source.query() for _ in range(RANDOM_QUERIES)]
    judges: list[Judge] = [partial(judged, query) for query in queries]
    dues = dues_of(judges, documents)
    wrong = list(differing(door, queries, dues, documents))
    need(not wrong, f"{len(wrong)} of {RANDOM_QUERIES}: {wrong[:1]}")
    need(sum(0 < len(due) < RANDOM_DOCUMENTS for due in dues) > RANDOM_QUERIES // 3, "most hold of all or of none")


def texts_of_operators_mean_what_lucene_says() -> None:
    """Random texts of both syntaxes, by a judge that knows how each was made."""
    door, source = shared(), Source(2)
    documents = [{"text": source.text(9)} for _ in range(RANDOM_DOCUMENTS)]
    queries: list[Json] = []
    judges: list[Judge] = []
    for number in range(RANDOM_TEXTS):
        needs_all = number % 3 == 0
        if number % 2:
            text, judge = source.classic("text", needs_all)
            about: Json = {"query": text, "default_field": "text", "default_operator": "AND" if needs_all else "OR"}
            queries.append({"query_string": about})
        else:
            text, judge = source.simple("text")
            queries.append({"simple_query_string": {"query": text, "fields": ["text"]}})
        judges.append(judge)
    wrong = list(differing(door, queries, dues_of(judges, documents), documents))
    need(not wrong, f"{len(wrong)} of {RANDOM_TEXTS}: {wrong[:1]}")


# Texts, the fields that are searched, and of which of the documents below them they hold, worked out by hand.
TEXT_ROWS: tuple[tuple[str, Json, list[int]], ...] = (
    ("query_string", {"query": "green tea", "fields": ["title", "text"], "default_operator": "and"}, [0]),
    ("query_string", {"query": "green tea AND milk", "fields": ["title", "text"]}, [0]),
    ("query_string", {"query": "title:green AND text:tea"}, [0, 1]),
    ("query_string", {"query": "title:(green black) -cake", "default_field": "text"}, [0, 1, 3]),
    ("query_string", {"query": "-tea", "default_field": "text"}, [2, 3, 4]),
    ("query_string", {"query": "tea - cake", "default_field": "text"}, [0, 1, 2]),
    ("query_string", {"query": "tea & cake", "default_field": "text"}, [0, 1, 2]),
    ("query_string", {"query": "count:>=3 AND count:<7"}, [0]),
    ("query_string", {"query": "count:[3 TO 7} OR title:[gq TO gs]"}, [0, 1, 3]),
    ("query_string", {"query": "day:[2020-03 TO *]", "default_field": "text"}, [1]),
    ("query_string", {"query": "_exists_:day AND NOT tag:Red", "fields": ["text"]}, [1]),
    ("query_string", {"query": "tag:(dark red)", "default_field": "text"}, [1]),
    ("query_string", {"query": "tag:Re*", "default_field": "text"}, [0]),
    ("query_string", {"query": "title:*", "default_field": "text"}, [0, 1, 2, 3]),
    ("query_string", {"query": "*:* -title:*", "default_field": "text"}, [4]),
    ("query_string", {"query": "\\\"t\\u0065a\\\"", "default_field": "text"}, [0, 1]),
    ("query_string", {"query": "", "default_field": "text"}, []),
    ("query_string", {"query": "tea AND (", "fields": ["tag"]}, [-1]),
    ("simple_query_string", {"query": "tea + milk | cake", "fields": ["text"]}, [0, 2]),
    ("simple_query_string", {"query": "cake | tea + milk", "fields": ["text"]}, [0]),
    ("simple_query_string", {"query": "green -tea", "fields": ["title", "text"], "default_operator": "and"}, [3]),
    ("simple_query_string", {"query": "((tea\" + )mil* ~", "fields": ["text"]}, [0, 1, 3]),
    ("simple_query_string", {"query": "\"green tea\"", "fields": ["title", "text"]}, [0]),
    ("simple_query_string", {"query": "--tea", "fields": ["text"]}, [0, 1]),
    ("simple_query_string", {"query": "- tea", "fields": ["text"]}, [0, 1]),
    ("simple_query_string", {"query": "()&", "fields": ["text"]}, []))
ROW_DOCUMENTS: list[Json] = [
    {"title": "Green tea", "text": "tea with milk", "count": 3, "tag": "Red", "day": "2020-02-29"},
    {"title": ["Green", "leaf"], "text": "Black tea", "count": 7, "tag": "dark red", "day": ["2019", "2020-03-01"]},
    {"title": "Cakes", "text": "cake", "count": -1}, {"title": "green", "text": "milk"}, {}]


def texts_are_read_as_by_hand() -> None:
    """Rows that are worked out by hand; a text that can't be read is refused."""
    door = shared()
    emptied(door, "rows", MAPPINGS)
    items = bulk(door, "rows", [{form: about} for form, about, _ in TEXT_ROWS])
    came = slots_of(percolated(door, "rows", ROW_DOCUMENTS))
    for place, ((form, about, due), item) in enumerate(zip(TEXT_ROWS, items)):
        if due == [-1]:
            need(item["status"] == 400 and "at character 9" in item["error"]["reason"], f"{about}: {item}")
        else:
            need("error" not in item, f"{about}: {item}")
            need(came.get(str(place), []) == due, f"{form} {about}: {came.get(str(place))}, and {due} are due")


def texts_of_any_signs_hold_of_themselves() -> None:
    """Random texts of signs and scripts: as words, as a phrase and whole, each of the document that has it; whole of no
    other."""
    door, dice = shared(), Random("signs")
    emptied(door, "signs", MAPPINGS)
    texts = sorted({"".join(dice.choices(SIGNS, k=dice.randint(1, 8))) for _ in range(200)})
    has_words = [bool(door.ask("POST", "/words", {"text": text}).value["words"]) for text in texts]
    queries: list[Json] = [query for text in texts for query in (
        {"match": {"text": text}}, {"match_phrase": {"text": text}}, {"term": {"tag": text}})]
    need(all("error" not in item for item in bulk(door, "signs", queries)), "some are refused")
    came = slots_of(percolated(door, "signs", [{"text": text, "tag": text} for text in texts]))
    need(100 < sum(has_words) < len(texts), f"{sum(has_words)} of {len(texts)} texts have words")
    for place, (text, has) in enumerate(zip(texts, has_words)):
        by_words, by_phrase, by_whole = (came.get(str(3 * place + number), []) for number in range(3))
        need((place in by_words) == (place in by_phrase) == has, f"{text!r} holds of {by_words} and {by_phrase}")
        need(by_whole == [place], f"{text!r} holds of {by_whole} as a whole")


# What has no meaning here, and words of the reason: what is not served, and where.
REFUSALS: tuple[tuple[Json, tuple[str, ...]], ...] = (
    ({"match_phrase": {"text": {"query": "a b", "slop": 2}}}, ("[slop]", "[body.query.match_phrase.text.slop]")),
    ({"match": {"text": {"query": "tea", "fuzziness": "AUTO"}}}, ("[fuzziness]", "body.query.match.text.fuzziness")),
    ({"match": {"text": {"query": "tea", "boost": 2}}}, ("[boost]", "scored")),
    ({"match": {"text": {"query": "tea", "analyzer": "english"}}}, ("[analyzer]", "standard")),
    ({"bool": {"must": [{"match_all": {}}, {"fuzzy": {"text": "tea"}}]}}, ("[fuzzy]", "body.query.bool.must[1].fuzzy")),
    ({"regexp": {"text": "t.*"}}, ("[regexp]",)), ({"wildcard": {"text": "t*a"}}, ("[wildcard]", "prefix")),
    ({"nested": {"path": "by", "query": {"match_all": {}}}}, ("[nested]",)), ({"script": {}}, ("[script]",)),
    ({"function_score": {"query": {"match_all": {}}}}, ("[function_score]", "scored")),
    ({"boosting": {}}, ("[boosting]", "scored")), ({"more_like_this": {}}, ("[more_like_this]",)),
    ({"geo_distance": {}}, ("[geo_distance]",)), ({"span_term": {"text": "tea"}}, ("[span_term]",)),
    ({"multi_match": {"query": "tea", "fields": ["title^3", "text"]}}, ("[^]", "fields[0]", "scored")),
    ({"match_phrase_prefix": {"text": "green te"}}, ("[match_phrase_prefix]",)),
    ({"match": {"nowhere": "tea"}}, ("No field mapping can be found for the field with name [nowhere]",)),
    ({"maych": {"text": "tea"}}, ("unknown query [maych]", "body.query.maych")),
    ({"match": {"text": "tea", "title": "tea"}}, ("body.query.match", "it has 2")),
    ({"query_string": {"query": "tea~", "default_field": "text"}}, ("[~]", "character 3")),
    ({"query_string": {"query": "tea^2", "default_field": "text"}}, ("[^2]", "scored")),
    ({"query_string": {"query": "t?a", "default_field": "text"}}, ("[t?a]", "character 0")),
    ({"query_string": {"query": "/t.a/", "default_field": "text"}}, ("[/t.a/]",)),
    ({"query_string": {"query": "tea"}}, ("name those that are searched", "[price]")),
    ({"simple_query_string": {"query": "\"a b\"~2", "fields": ["text"]}}, ("[~]",)),
    ({"range": {"day": {"gte": "now-1d"}}}, ("[now-1d]", "body.query.range.day.gte")),
    ({"range": {"day": {"gte": "2020", "time_zone": "+01:00"}}}, ("[time_zone]",)),
    ({"range": {"count": {"gte": "many"}}}, ("[many] is no number", "[count]")),
    ({"range": {"flag": {"gte": True}}}, ("[flag]",)),
    ({"range": {"text": {"gte": "Tea"}}}, ("[Tea]", "lower case")),
    ({"term": {"count": 3_000_000_000}}, ("out of range for a integer",)),
    ({"prefix": {"price": "1"}}, ("prefix queries", "[double]")),
    ({"prefix": {"tag": {"value": "r", "case_insensitive": True}}}, ("[case_insensitive]",)),
    ({"terms": {"tag": {"index": "a", "id": "1", "path": "b"}}}, ("[terms]", "looked up")),
    ({"bool": {"should": [{"match_all": {}}], "minimum_should_match": "many"}}, ("[many]",)),
    ({"bool": {"should": [{"term": {"count": at}} for at in range(30)], "minimum_should_match": 15}},
     ("[minimum_should_match]", "15 of 30")),
    ({"bool": {"mustnt": []}}, ("[mustnt]",)), ({"ids": {"values": ["1"]}}, ("[ids]",)),
    ({"percolate": {}}, ("[percolate]",)), ({"match": {"text": "\U00010600"}}, ("[\U00010600]",)),
    ({"match": {"text": "\ud800"}}, ("surrogate",)),
    ({"dis_max": {"queries": [], "tie_breaker": 0.5}}, ("[tie_breaker]",)))


def what_has_no_meaning_is_refused() -> None:
    """By its name, at its place, and with the reason; nothing is registered."""
    door = shared()
    emptied(door, "strict", MAPPINGS)
    for query, words in REFUSALS:
        refused(door.ask("PUT", f"{BASE}/strict/_doc/1", {"query": query}), 400, *words)
    usual: Json = {"boost": 1.0, "fuzzy_transpositions": True, "lenient": False, "operator": "OR", "prefix_length": 0,
             "max_expansions": 50, "zero_terms_query": "NONE", "auto_generate_synonyms_phrase_query": True}
    asked(door, "PUT", "/strict/_doc/1", {"query": {"match": {"text": {"query": "tea", **usual}}}})
    nested: Json = {"match_all": {}}
    for _ in range(31):
        nested = {"bool": {"must": nested}}
    refused(door.ask("PUT", f"{BASE}/strict/_doc/2", {"query": nested}), 400, "30 deep")
    refused(door.ask("PUT", f"{BASE}/strict/_doc/2", {"text": "tea"}), 400, "without a query in [query]")
    long = {"match": {"text": " ".join(f"word{at}" for at in range(5_000))}}
    refused(door.ask("PUT", f"{BASE}/strict/_doc/2", {"query": long}), 400, "the engine refuses the query")
    need(asked(door, "GET", "/strict/_count")["count"] == 1, "a refused query is kept")
    shown = door.ask("GET", "/queries?prefix=strict/").value["queries"]
    need([one["query"] for one in shown] == ["text:tea"], f"{shown}")
    two_of_many = {"match": {"text": {"query": " ".join(f"w{at}" for at in range(60)), "minimum_should_match": 2}}}
    items = bulk(door, "strict", [two_of_many, {"match": {"text": "tea"}}, long, {"match": {"text": "milk"}}])
    need([item["status"] for item in items] == [201, 200, 400, 201], f"{items}")
    found = slots_of(percolated(door, "strict", [{"text": "w7"}, {"text": "w59 w0"}, {"text": "milk word7"}]))
    need(found == {"0": [1], "3": [2]}, f"{found}")


COSTLY: tuple[Json, ...] = (
    {"bool": {"must": [{"bool": {"should": [{"match": {"text": f"w{at}"}} for at in range(12)],
                                 "minimum_should_match": 4}}] * 3_000}},
    {"match": {"text": {"query": "w " * 30_000, "minimum_should_match": 15_000}}},
    {"terms": {"tag": [str(at) for at in range(100_000)]}},
    {"bool": {"should": [{"term": {"tag": "x"}}] * 50_000}},
    {"query_string": {"query": "(" * 60_000, "default_field": "text"}},
    {"query_string": {"query": "a " * 30_000, "default_field": "text"}},
    {"query_string": {"query": "[\t" + "\t" * 60_000, "default_field": "text"}},
    {"simple_query_string": {"query": "(\"" * 30_000, "fields": ["text"]}},
    {"simple_query_string": {"query": "a|b+" * 16_000, "fields": ["text"]}})
MOST_SECONDS_OF_COSTLY = 2.0


def seconds_of(door: Door) -> float:
    """How many seconds of the processor a door has taken."""
    fields = Path(f"/proc/{door.process.pid}/stat").read_text().rpartition(") ")[2].split()
    return (int(fields[11]) + int(fields[12])) / os.sysconf("SC_CLK_TCK")


def costly_queries_are_refused_soon() -> None:
    """Those that would be written out too long, and texts of signs alone, before they take long."""
    door = shared()
    emptied(door, "costly", MAPPINGS)
    for query in COSTLY:
        start = seconds_of(door)
        refused(door.ask("PUT", f"{BASE}/costly/_doc/1", {"query": query}), 400)
        took = seconds_of(door) - start
        need(took < MOST_SECONDS_OF_COSTLY, f"{str(query)[:100]} took {took:.1f} s of the processor")
    deep = b'{"query":' + b'{"bool":{"must":' * 900 + b"{}" + b"}}" * 900 + b"}"
    refused(door.ask("PUT", f"{BASE}/costly/_doc/1", deep), 400)
    need(asked(door, "GET", "/costly/_count")["count"] == 0, "one is kept")


def with_fields(**fields: Json) -> Json:
    """A mapping with a percolator and fields."""
    return {"properties": {"query": {"type": "percolator"}, **fields}}


MAPPING_REFUSALS: tuple[tuple[Json, tuple[str, ...]], ...] = (
    ({}, ("[mappings.properties]",)), ({"properties": {"text": {"type": "text"}}}, ("[percolator]",)),
    (with_fields(text={"type": "text", "analyzer": "english"}), ("english", "[text]")),
    (with_fields(place={"type": "geo_point"}), ("[geo_point]", "[place]")),
    (with_fields(by={"type": "nested", "properties": {}}), ("[nested]",)),
    (with_fields(day={"type": "date", "format": "dd/MM"}), ("[dd/MM]",)),
    ({"dynamic": "strict", **with_fields()}, ("[dynamic: strict]",)))


def what_the_mapping_can_not_have_is_refused() -> None:
    """By its name; a field may be added, and may not become another; documents are judged by it."""
    door = shared()
    for mappings, words in MAPPING_REFUSALS:
        refused(door.ask("PUT", f"{BASE}/shape", {"mappings": mappings}), 400, *words)
    refused(door.ask("PUT", f"{BASE}/Shape", {"mappings": MAPPINGS}), 400, "Invalid index name [Shape]")
    settings = {"index": {"analysis": {"analyzer": {"mine": {"type": "english"}}}}}
    refused(door.ask("PUT", f"{BASE}/shape", {"mappings": MAPPINGS, "settings": settings}), 400, "[analysis.analyzer")
    emptied(door, "shape", with_fields(count={"type": "byte"}))
    refused(door.ask("PUT", f"{BASE}/shape/_mapping", {"properties": {"count": {"type": "long"}}}), 400, "[count]")
    asked(door, "PUT", "/shape/_mapping", {"properties": {"a-b.c": {"type": "text"}, "a_x2db.c": {"type": "text"}}})
    asked(door, "PUT", "/shape/_doc/1", {"query": {"match": {"a-b.c": "tea"}}})
    asked(door, "PUT", "/shape/_doc/2", {"query": {"range": {"count": {"gt": -1}}}})
    found = percolated(door, "shape", [{"a-b": {"c": "tea"}}, {"a_x2db": {"c": "tea"}}, {"count": "127"}])
    need(slots_of(found) == {"1": [0], "2": [2]}, f"{found}")
    for document, words in (({"count": 128}, ("[128] is out of range for a byte", "documents[0].count")),
                            ({"count": "x"}, ("[count]",)), ({"count": {"x": 1}}, ("[count]", "an object")),
                            ({"a-b": 1}, ("[a-b]", "object"))):
        body = {"query": {"percolate": {"field": "query", "documents": [document]}}}
        refused(door.ask("POST", f"{BASE}/shape/_search", body), 400, *words)
    for number in range(20):
        asked(door, "PUT", "/shape/_mapping", {"properties": {f"f{number}": {"type": "keyword"}}})
        answer = door.ask("PUT", f"{BASE}/shape/_doc/f{number}", {"query": {"term": {f"f{number}": "x"}}})
        need((answer.status == 201) == (number < 14), f"{number}: {answer}")
    refused(answer, 400, "16 fields")


def marks_stand_where_queries_hold() -> None:
    """In each value of a field apart, in whole values, around the marks of a long text, and as it is asked for."""
    door = shared()
    emptied(door, "marked", MAPPINGS)
    queries: list[Json] = [{"match_phrase": {"text": "green tea"}}, {"terms": {"tag": ["dark red", "blue"]}}]
    need(all("error" not in item for item in bulk(door, "marked", queries)), "some are refused")
    long = "word " * 60 + "green tea " + "word " * 60 + "Green Tea"
    documents: list[Json] = [{"text": ["green", "tea, Green Tea! é"], "tag": ["dark red", "red"]}, {"text": long},
                             {"text": "green"}]
    style = {"pre_tags": ["["], "post_tags": ["]"], "fields": {"te*": {"number_of_fragments": 0}, "tag": {}}}
    hits = percolated(door, "marked", documents, highlight=style)
    need([hit["highlight"] for hit in hits] == [
        {"0_text": ["tea, [Green] [Tea]! é"], "1_text": [long.replace("green tea", "[green] [tea]").replace(
            "Green Tea", "[Green] [Tea]")]}, {"0_tag": ["[dark red]"]}], f"{hits}")
    body = {"query": {"percolate": {"field": "query", "document": documents[1]}},
            "highlight": {"fields": {"text": {"fragment_size": 40}}}}
    pieces = asked(door, "POST", "/marked/_search", body)["hits"]["hits"][0]["highlight"]["text"]
    need(len(pieces) == 2 and all("<em>" in piece and 20 < len(piece) < 80 for piece in pieces), f"{pieces}")
    need(all(piece.replace("<em>", "").replace("</em>", "") in long for piece in pieces), f"{pieces}")


def by_curl(door: Door, *words: str) -> tuple[int, Any]:
    """The status and the body of an answer to curl."""
    command = ["curl", "-s", "-w", "\n%{http_code}", *words[:-1], f"{door.address}{BASE}{words[-1]}"]
    done = subprocess.run(command, stdout=subprocess.PIPE, check=True, timeout=PATIENCE_SECONDS)
    body, _, status = done.stdout.decode().rpartition("\n")
    return int(status), json.loads(body) if body[:1] == "{" else None


def curl_percolates() -> None:
    """With each method, and what is wrong is told."""
    door = shared()
    kind = ("-H", "Content-Type: application/json")
    emptied(door, "curled", MAPPINGS)
    document = json.dumps({"query": {"match": {"text": "tea"}}})
    need(by_curl(door, "/")[1]["version"]["number"].startswith("7.17."), "it is not as Elasticsearch 7.17")
    put = ("-X", "PUT", *kind, "-d", document)
    need(by_curl(door, *put, "/curled/_doc/a%2Fb?refresh=true")[0] == 201, "it is not put")
    status, made = by_curl(door, *kind, "-d", document, "/curled/_doc")
    need(status == 201 and len(made["_id"]) == 20, f"{made}")
    need(by_curl(door, *put, "/curled/_create/a%2Fb")[0] == 409, "it is made twice")
    need(by_curl(door, "/curled/_doc/a%2Fb")[1]["_source"] == json.loads(document), "it is not shown")
    need(by_curl(door, "-I", "/curled")[0] == 200, "there is no index")
    search = json.dumps({"query": {"percolate": {"field": "query", "document": {"text": "Tea"}}}})
    found = by_curl(door, "-X", "GET", *kind, "-d", search, "/curled/_search?size=1&_source=false")[1]["hits"]
    need(found["total"]["value"] == 2 and [hit["_id"] for hit in found["hits"]] == ["a/b"], f"{found}")
    lines = '{"delete":{"_id":"a/b"}}\n{"delete":{"_id":"none"}}\n{"update":{"_id":"1"}}\n{"doc":{}}\n{"create":{}}\n'
    status, done = by_curl(door, "-X", "POST", "-H", "Content-Type: application/x-ndjson", "--data-binary",
                           lines + document + "\n", "/curled/_bulk")
    need([next(iter(item.values()))["status"] for item in done["items"]] == [200, 404, 400, 201], f"{done}")
    need(done["errors"] is True and by_curl(door, "/curled/_count")[1]["count"] == 2, f"{done}")
    for words, due in ((("-d", document, "/curled/_doc"), 406), (("/nowhere/_count",), 404),
                       (("/curled/_forcemerge",), 400), ((*kind, "-d", "{", "/curled/_search"), 400),
                       (("-X", "DELETE", "/*"), 404), (("/curled/_search?q=tea",), 400),
                       ((*kind, "-d", "{}", "/_bulk"), 400)):
        status, told = by_curl(door, *words)
        need(status == due and told["status"] == due and bool(told["error"]["reason"]), f"{words}: {status} {told}")


def searches_ask_for_what_is_served() -> None:
    """Filters on what is kept beside queries, parts of the source, all documents; and what is not served is named."""
    door = shared()
    emptied(door, "kept", MAPPINGS)
    for number in range(6):
        asked(door, "PUT", f"/kept/_doc/{number}", {"query": {"match": {"text": "tea"}}, "tag": f"t{number % 2}",
                                                    "count": number, "by": {"name": "Ann B" if number else "Bob"}})
    percolate = {"percolate": {"field": "query", "document": {"text": "tea"}}}

    def ids(query: Json, **more: int) -> list[str]:
        body: Json = {"query": query, **more}
        return [hit["_id"] for hit in asked(door, "POST", "/kept/_search", body)["hits"]["hits"]]

    need(ids({"bool": {"must": [percolate], "filter": [{"range": {"count": {"gte": 3}}}]}}) == ["3", "4", "5"], "range")
    need(ids({"bool": {"must": percolate, "must_not": {"term": {"tag": "t0"}}}}) == ["1", "3", "5"], "must_not")
    need(ids({"bool": {"must": percolate, "should": {"match": {"by.name": "bob"}}}}) == list("012345"), "should")
    need(ids({"bool": {"must": percolate, "should": {"match": {"by.name": "bob"}}, "minimum_should_match": 1}})
         == ["0"], "minimum_should_match")
    need(ids({"term": {"tag": "t1"}}) == ["1", "3", "5"], "without percolate")
    need(ids({"match_all": {}}, size=2, **{"from": 3}) == ["3", "4"], "of all")
    shown = asked(door, "POST", "/kept/_search", {"size": 1, "_source": ["by.*", "count"]})["hits"]["hits"]
    need(shown[0]["_source"] == {"count": 0, "by": {"name": "Bob"}}, f"{shown}")
    need(asked(door, "POST", "/kept/_count", {"query": {"term": {"tag": "t1"}}})["count"] == 3, "count")
    for body, words in (({"aggs": {}}, ("[aggs]",)), ({"sort": ["count"]}, ("[sort]", "_doc")),
                        ({"size": 10_001}, ("size",)),
                        ({"query": {"bool": {"should": [percolate]}}}, ("[percolate]", "should")),
                        ({"query": {"percolate": {"field": "text", "document": {}}}}, ("[text]",)),
                        ({"query": {"percolate": {"field": "query", "index": "a", "id": "1"}}}, ("[index]",)),
                        ({"query": {"percolate": {"field": "query"}}}, ("[documents]",)), ({"x": 1}, ("[x]",))):
        refused(door.ask("POST", f"{BASE}/kept/_search", body), 400, *words)
    asked(door, "DELETE", "/kept")


def what_was_answered_is_kept() -> None:
    """While the door is ended at once again and again: a document is there as it was answered last or sent after, and
    it is found by just the query that it shows."""
    dice = Random("percolator")
    sent: dict[str, list[int | None]] = {}
    number = 0
    with folder() as name:
        for life in range(3):
            with Door("--journal", str(Path(name) / "j")) as door:
                if life == 0:
                    emptied(door, "lives", MAPPINGS)
                judge_kept(door, sent)
                for _ in range(dice.randint(5, 25)):
                    number += 1
                    one = f"d{dice.randint(0, 9)}"
                    is_put = dice.random() < 0.75
                    act_on(door, one, number if is_put else None)
                    sent[one] = [number if is_put else None]
                number += 1
                cut_off(door, "dx", number)
                sent.setdefault("dx", [None]).append(number)
                door.process.send_signal(signal.SIGKILL)
                door.process.wait()
                ENDED.append("door")
        with Door("--journal", str(Path(name) / "j")) as door:
            judge_kept(door, sent)
            asked(door, "DELETE", "/lives")


def act_on(door: Door, name: str, number: int | None) -> None:
    """Puts a document whose query asks for a word of its own, or deletes it."""
    if number is None:
        need(door.ask("DELETE", f"{BASE}/lives/_doc/{name}").status in (200, 404), "it is not deleted")
    else:
        asked(door, "PUT", f"/lives/_doc/{name}", document_of(number))


def document_of(number: int) -> Json:
    """A document whose query asks for a word of its own."""
    return {"query": {"match": {"text": f"w{number}"}}, "count": number}


def cut_off(door: Door, name: str, number: int) -> None:
    """Sends a document, and waits for no answer."""
    body = json.dumps(document_of(number)).encode()
    head = (f"PUT {BASE}/lives/_doc/{name} HTTP/1.1\r\nHost: 127.0.0.1\r\nContent-Type: application/json\r\n"
            f"Content-Length: {len(body)}\r\n\r\n")
    door.talk(head.encode() + body, 0.003)


def judge_kept(door: Door, sent: dict[str, list[int | None]]) -> None:
    """Each document is there as it was sent last, or as one that had no answer, and holds of its word alone."""
    if not sent:
        return
    most = max(number for numbers in sent.values() for number in numbers if number)
    found = slots_of(percolated(door, "lives", [{"text": f"w{number}"} for number in range(most + 1)]))
    for name, numbers in sent.items():
        answer = door.ask("GET", f"{BASE}/lives/_doc/{name}")
        there = answer.value["_source"]["count"] if answer.status == 200 else None
        need(there in numbers, f"{name} is {there}, and was {numbers}")
        need(found.pop(name, []) == ([] if there is None else [there]), f"{name} holds of others than {there}")
        sent[name] = [there]
    need(not found, f"{found} hold, and are not there")


def queries_changed_elsewhere_are_gone() -> None:
    """What is deleted, replaced or cleared by another address is not there any more, and may be put again."""
    door = shared()
    emptied(door, "else", MAPPINGS)
    need([item["status"] for item in bulk(door, "else", [{"match": {"text": "tea"}}] * 3)] == [201] * 3, "not put")
    door.ask("DELETE", "/queries/else%2F0")
    door.put("else%2F1", "coffee")
    found = percolated(door, "else", [{"text": "tea coffee"}])
    need([hit["_id"] for hit in found] == ["2"], f"{found}")
    need(asked(door, "GET", "/else/_count")["count"] == 1, "the count is another")
    need(door.ask("GET", f"{BASE}/else/_doc/0").status == 404, "it is still there")
    door.ask("DELETE", "/queries")
    need(asked(door, "GET", "/else/_count")["count"] == 0, "some are there")
    need(bulk(door, "else", [{"match": {"text": "tea"}}])[0]["result"] == "created", "it is no new one")
    need(len(percolated(door, "else", [{"text": "tea"}])) == 1, "it does not hold")


def percolated_documents_are_no_articles() -> None:
    """They raise no alert, and are not among the last articles."""
    door = shared()
    emptied(door, "quiet", MAPPINGS)
    need(bulk(door, "quiet", [{"match": {"text": "tea"}}])[0]["status"] == 201, "it is not put")
    with Events(door) as events:
        need(len(percolated(door, "quiet", [{"text": "tea of nobody"}])) == 1, "it does not hold")
        door.match("a1", "tea of all")
        heard = events.next()
    need(heard["data"] == {"article": "a1", "queries": ["quiet/0"]}, f"{heard}")
    last = door.ask("GET", "/articles").value["articles"]
    need(not any("nobody" in article["fields"].get("text", "") for article in last), f"{last}")


def roles_are_asked_for() -> None:
    """Searching needs a token that may read, writing one that may write, and dropping an index one of an administrator;
    without a token nothing is told."""
    calls: list[tuple[str, Json]] = [
        ("indices.create", {"index": "roles", "body": {"mappings": MAPPINGS}}),
        ("index", {"index": "roles", "id": "1", "body": {"query": {"match_all": {}}}}),
        ("search", {"index": "roles", "body": {"query": {"percolate": {"field": "query", "document": {}}}}}),
        ("indices.delete", {"index": "roles"})]
    due = {"admin": [True, True, True, True], "write": [True, True, True, False], "read": [False, False, True, False]}
    with folder() as name:
        path = Path(name) / "tokens"
        path.write_text("".join(f"{role} {role}er {role[0] * 20}\n" for role in due))
        path.chmod(0o600)
        with Door("--tokens", str(path)) as door:
            for role, allowed in due.items():
                came = called(door, calls, role[0] * 20)
                need(["gave" in one for one in came] == allowed, f"{role}: {came}")
                need(all(one["status"] == 403 for one in came if "gave" not in one), f"{role}: {came}")
            need(door.ask("GET", f"{BASE}/roles/_count").status == 401, "it is told without a token")


TESTS: tuple[Callable[[], None], ...] = (
    clients_make_indices_and_documents, clients_percolate, queries_mean_what_elasticsearch_says,
    texts_of_operators_mean_what_lucene_says, texts_are_read_as_by_hand, texts_of_any_signs_hold_of_themselves,
    what_has_no_meaning_is_refused, what_the_mapping_can_not_have_is_refused, marks_stand_where_queries_hold,
    costly_queries_are_refused_soon, curl_percolates, searches_ask_for_what_is_served, what_was_answered_is_kept,
    queries_changed_elsewhere_are_gone, percolated_documents_are_no_articles, roles_are_asked_for)
