"""Tests of `pressclip-explain` with the program itself: its words, its replies, and that both read queries alike."""

from __future__ import annotations

import json
import os
import subprocess
from pathlib import Path
from random import Random
from typing import Any, Callable, Sequence

from .inputs import LONG
from .judge import need, replies_of_engine, same
from .texts_in_scripts import TEXTS

Told = dict[str, Any]
BUILT = Path(__file__).resolve().parents[2] / "crates" / "pressclip_explain" / "out" / "pressclip-explain"
ROWS = Path(__file__).resolve().parent / "queries_of_press_desks.jsonl"
VERSION = (Path(__file__).resolve().parents[2] / "VERSION").read_bytes()
USAGE = b"usage: pressclip-explain [--plain]\n"
PIECES = ["tea", "Title", "wi-fi", "é", "日本", " ", " ", " ", "+", "-", "!", "(", ")", "\"", "*", "*:*", "title:", ":",
          "AND", "OR", "NOT", "&&", "||", "&", "|", "[", "]", "{", "}", "a TO b", "\\", "\\u0041", "\\u", "~", "^2",
          "/", "?", ".", "'", "\t", "\u3000"]
RANDOM_TEXTS = 4_000
FAULTS: tuple[tuple[str, str, int], ...] = (
    ("tea" + " x" * 40_000, "TooLong", 65_536),
    ("green \"tea", "Lexical", 6),
    ("é [a TO b", "Lexical", 3),
    ("tea\\", "Lexical", 3),
    ("roam~", "LeftOut", 4),
    ("tea ?milk", "LeftOut", 4),
    ("roam organi?ation", "LeftOut", 5),
    ("author:*", "LeftOut", 7),
    ("tea AND", "Structure", 7),
    ("wind AND OR solar", "Structure", 9),
    ("tea \"\"", "NoWords", 4),
    ("(" * 65 + "tea" + ")" * 65, "TooBig", 133))


def explainer() -> str:
    """The program: what the variable PRESSCLIP_EXPLAIN names, or what this checkout built."""
    return os.environ.get("PRESSCLIP_EXPLAIN") or str(BUILT)


def explained(words: Sequence[str], text: bytes) -> subprocess.CompletedProcess[bytes]:
    """The program with these words, on this input."""
    return subprocess.run([explainer(), *words], input=text, capture_output=True, check=False)


def told_of(asked: Sequence[Told]) -> list[Told]:
    """What is told of each; it has to be compact, with its members in the order of their bytes."""
    text = b"".join(json.dumps(ask).encode() + b"\n" for ask in asked)
    done = explained([], text)
    need(done.returncode == 0, f"it ended with status {done.returncode}: {done.stderr!r}")
    lines = done.stdout.split(b"\n")
    need(lines.pop() == b"" and len(lines) == len(asked), f"{len(lines)} replies to {len(asked)} lines")
    found = [json.loads(line) for line in lines]
    for line, value in zip(lines, found):
        same(line, dumped(value), "a reply's spelling")
    return found


def dumped(value: object) -> bytes:
    """The value as the program writes it."""
    return json.dumps(value, ensure_ascii=False, separators=(",", ":"), sort_keys=True).encode()


def quoted(word: str) -> str:
    """The query for a word as it stands."""
    escaped = word.replace("\\", "\\\\").replace('"', '\\"')
    return f'"{escaped}"'


def alerts_of(queries: Sequence[str], articles: Sequence[dict[str, str]]) -> list[list[str]]:
    """For each article the numbers of the queries that hold of it, as the engine says."""
    registered = [{"id": str(number), "query": query} for number, query in enumerate(queries)]
    lines = [{"op": "register", "queries": [query]} for query in registered]
    lines += [{"op": "match", "articles": [{"id": "a", "fields": fields}]} for fields in articles]
    replies = replies_of_engine(b"".join(json.dumps(line).encode() + b"\n" for line in lines)).splitlines()
    return [json.loads(reply)["alerts"][0]["queries"] for reply in replies[len(queries):]]


def other_words_are_refused() -> None:
    """With what there is on standard error, status 2, and nothing read."""
    for words in (["--help"], ["--plain", "--plain"], ["run"], ["--version", "--plain"]):
        done = explained(words, b'{"query":"tea"}\n')
        need(done.returncode == 2, f"{words} ended with status {done.returncode}")
        same(done.stderr, USAGE, f"{words} on standard error")
        same(done.stdout, b"", f"{words} on standard output")


def the_explainer_tells_its_version() -> None:
    """By the file VERSION, on standard output alone, with nothing read."""
    done = explained(["--version"], b'{"query":"tea"}\n')
    same(done.stdout, b"pressclip-explain " + VERSION, "the version")
    need((done.returncode, done.stderr) == (0, b""), f"it ended with status {done.returncode}: {done.stderr!r}")


def a_full_disk_ends_the_program() -> None:
    """With status 1 and the fault on standard error."""
    with open("/dev/full", "wb") as full:
        done = subprocess.run([explainer()], input=b'{"query":"tea"}\n', stdout=full, stderr=subprocess.PIPE,
                              check=False)
    need(done.returncode == 1, f"it ended with status {done.returncode}")
    same(done.stderr, b"pressclip-explain: write fault\n", "standard error")


def other_lines_are_refused() -> None:
    """Each with its reason; blank lines give nothing, and the last may lack its line feed."""
    lines = [b"", b" \t\r", b"{", b'{"query":"\xff"}', b"[]", b"{}", b'{"query":1}', b'{"query":"a","text":"b"}',
             b'{"Query":"a"}', b" " * LONG + b"x", b'{"text":"a"}']
    done = explained([], b"\n".join(lines))
    due = ["json", "json", "shape", "shape", "shape", "shape", "shape", "long", None]
    found = [json.loads(line) for line in done.stdout.splitlines()]
    need([told.get("refused") for told in found] == due, f"refused are {found}")
    need(all(told["says"] for told in found[:-1]), "each refusal has a sentence")
    same(dumped(found[-1]), b'{"words":[{"end":1,"start":0,"word":"a"}]}', "the last line")


def each_fault_is_told() -> None:
    """By its word, at its byte and with a sentence."""
    found = told_of([{"query": query} for query, _, _ in FAULTS])
    for (query, word, at), told in zip(FAULTS, found):
        need((told["fault"], told["at"]) == (word, at), f"{query[:40]!r} is {told}")
        need(len(told["says"].split()) > 5, f"{query[:40]!r} has no sentence")


def a_query_is_told() -> None:
    """By all its parts, as they are worked out by hand."""
    told = told_of([{"query": 'Tea AND (title:"green house" pric* [a TO b}) -*:*'}])[0]
    told.pop("remarks")
    need(told.pop("says").startswith("No article can hold"), "an article that must not hold every article")
    rest = {"always": False, "keys": [{"field": "text", "word": "tea"}], "never": True, "nodes": 7,
            "reads": '+text:tea +(title:"green house" text:pric* text:["a" TO "b"}) -*:*', "tried_on_all": False,
            "weight": 3, "words": ["tea", "green", "house", "pric"],
            "tree": [{"occur": "must", "tree": {"term": {"field": "text", "word": "tea"}}},
                     {"occur": "must", "tree": [
                         {"occur": "should", "tree": {"phrase": {"field": "title", "words": ["green", "house"]}}},
                         {"occur": "should", "tree": {"prefix": {"field": "text", "front": "pric"}}},
                         {"occur": "should", "tree": {"range": {
                             "field": "text", "high": {"included": False, "text": "b"},
                             "low": {"included": True, "text": "a"}}}}]},
                     {"occur": "must_not", "tree": "all"}]}
    need(told == rest, f"told is {told}")


def a_line_of_the_protocol_is_judged() -> None:
    """With the program's refusal, and the place."""
    due: list[tuple[str, Told]] = [
        ('{"op":"count"}', {"refused": None}),
        ('{"op":"count"', {"at": 13, "refused": "json"}),
        ('{"op":"counts"}', {"member": "op", "refused": "shape"}),
        ('{"op":"show"}', {"member": "id", "refused": "shape"}),
        ('{"op":"delete","ids":["a",""]}', {"member": "ids[1]", "refused": "limit"}),
        ('{"op":"register","queries":[{"id":"a","query":"tea"},{"id":"b","query":"tea AND"}]}',
         {"member": "queries[1].query", "refused": "query"})]
    found = told_of([{"line": line} for line, _ in due])
    for (line, judged), told in zip(due, found):
        if judged["refused"] is not None:
            need(bool(told.pop("says")), f"{line} has no sentence")
        need(told == judged, f"{line} is {told}")


def desks_are_told_what_they_mean() -> None:
    """Each row has its fault, or at least its remarks, and one where an article is not judged as the row means."""
    rows: list[Told] = [json.loads(line) for line in ROWS.read_text().splitlines()]
    found = told_of([{"query": row["query"]} for row in rows])
    for row, told in zip(rows, found):
        need((told.get("fault"), told.get("at")) == (row.get("fault"), row.get("at")), f"{row['query']}: {told}")
        if "fault" in row:
            continue
        rules = {remark["rule"] for remark in told["remarks"]}
        need(rules.issuperset(row["tells"]), f"{row['query']}: the remarks are {sorted(rules)}")
        fields = [article["fields"] for article in row["articles"]]
        holds = [alerts == ["0"] for alerts in alerts_of([row["query"]], fields)]
        means = [article["holds"] for article in row["articles"]]
        need(holds == means or bool(rules), f"{row['query']} is not read as it is meant, and nothing is told")


def both_programs_refuse_the_same_texts() -> None:
    """A text has a fault just where a register of it is refused, and what it is read as is read as itself."""
    dice = Random("explain")
    texts = ["".join(dice.choices(PIECES, k=dice.randint(0, 9))) for _ in range(RANDOM_TEXTS)]
    lines = [{"op": "register", "queries": [{"id": "q", "query": text}]} for text in texts]
    replies = replies_of_engine(b"".join(json.dumps(line).encode() + b"\n" for line in lines)).splitlines()
    found = told_of([{"query": text} for text in texts])
    for text, reply, told in zip(texts, replies, found):
        need(("fault" in told) == (json.loads(reply).get("refused") == "query"), f"{text!r} is {reply!r} and {told}")
    need(100 < sum("fault" in told for told in found) < RANDOM_TEXTS - 100, "both kinds of texts are tried")
    read = [told for told in found if "reads" in told]
    for told, again in zip(read, told_of([{"query": told["reads"]} for told in read])):
        need(told["reads"] == again.get("reads"), f"{told['reads']!r} is read as {again}")


def words_stand_where_the_engine_hits() -> None:
    """In each script: the words of a text are those at whose positions a query for the word has its hits."""
    found = told_of([{"text": text} for text in TEXTS.values()])
    for (script, text), told in zip(TEXTS.items(), found):
        spans = [(text.encode()[word["start"]:word["end"]].decode(), word["word"]) for word in told["words"]]
        need(len(spans) > 3, f"{script} has {spans}")
        words = sorted({word for _, word in spans})
        queries = [{"id": str(number), "query": quoted(word)} for number, word in enumerate(words)]
        lines: list[Told] = [{"op": "register", "queries": queries},
                             {"op": "match", "articles": [{"id": "a", "fields": {"text": text}}]}]
        replies = replies_of_engine(b"".join(json.dumps(line).encode() + b"\n" for line in lines), ["hits"])
        alert = json.loads(replies.splitlines()[1])["alerts"][0]
        for number, hits in zip(alert["queries"], alert["hits"]):
            places = [place for place, (_, word) in enumerate(spans) if word == words[int(number)]]
            need([hit["position"] for hit in hits] == places, f"{script}: {words[int(number)]!r} is at {hits}")
        need(len(alert["queries"]) == len(words), f"{script}: a word is not found")
        need(all(piece.casefold() == word for piece, word in spans), f"{script}: {spans}")


def people_get_a_caret_under_the_place() -> None:
    """In the plain form, for JSON lines and for the text of a query alike."""
    for line in (b'{"query":"tea AND"}', b"tea AND"):
        done = explained(["--plain"], line + b"\n")
        lines = done.stdout.decode().splitlines()
        need(lines[0] == "tea AND" and lines[1].startswith(" " * 7 + "^ Structure: "), f"{line!r} gives {lines}")
        need(done.returncode == 0, f"it ended with status {done.returncode}")


TESTS: tuple[Callable[[], None], ...] = (
    other_words_are_refused, the_explainer_tells_its_version, a_full_disk_ends_the_program, other_lines_are_refused,
    each_fault_is_told, a_query_is_told, a_line_of_the_protocol_is_judged, desks_are_told_what_they_mean, both_programs_refuse_the_same_texts,
    words_stand_where_the_engine_hits, people_get_a_caret_under_the_place)
