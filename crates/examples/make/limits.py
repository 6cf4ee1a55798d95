"""Requests at each limit and over it, and events of a trace likewise, with the replies that are due.

The limits are those of docs/PROTOCOL.md, and the replies follow from them: at
the limit a request is taken, and with one more of what is limited it is
refused. The longest line has a test of its own.
"""

from __future__ import annotations

from typing import Iterable, Iterator

from lines import Turn, Value

ID_BYTES, LISTED, ARTICLES, FIELDS, NAME_BYTES = 256, 1_024, 256, 16, 64
DEEPEST, QUERY_BYTES, OPEN = 127, 65_536, 64
MERGES, BATCHES, CALLERS = 16, 32, 64
LIMIT = {"refused": "limit"}
NO_QUERY = {"refused": "query", "which": 0}


def registering(ids: Iterable[str], query: str) -> Value:
    """A register of one text under each id."""
    return {"op": "register", "queries": [{"id": id, "query": query} for id in ids]}


def matching(ids: Iterable[str], fields: dict[str, str]) -> Value:
    """A match of one article under each id."""
    return {"op": "match", "articles": [{"id": id, "fields": fields} for id in ids]}


def alerts(ids: Iterable[str], *queries: str) -> Value:
    """The reply to a match of articles of which these queries hold."""
    return {"alerts": [{"article": id, "queries": [*queries]} for id in ids], "notes": []}


def numbered(letter: str, count: int) -> list[str]:
    """So many names that begin with a letter."""
    return [f"{letter}{number}" for number in range(count)]


def grouped(depth: int) -> str:
    """A word in so many parentheses."""
    return depth * "(" + "tea" + depth * ")"


def of_ids() -> Iterator[Turn]:
    """Ids of as many bytes as there may be, of one more, and of none."""
    longest = ID_BYTES * "a"
    yield Turn(registering([longest], "tea"), {"registered": 1})
    yield Turn({"op": "show", "id": longest}, {"query": "tea"})
    yield Turn(matching([longest], {"text": "tea"}), alerts([longest], longest))
    yield Turn({"op": "delete", "ids": [longest]}, {"deleted": 1})
    for id in (ID_BYTES + 1) * "a", (ID_BYTES // 2) * "é" + "a", "":
        yield Turn(registering([id], "tea"), LIMIT)
        yield Turn({"op": "show", "id": id}, LIMIT)
        yield Turn(matching(["a1", id], {}), LIMIT)
        yield Turn({"op": "delete", "ids": ["q1", id]}, LIMIT)
    # An id is judged before the text of its query.
    yield Turn(registering([""], "("), LIMIT)


def of_lists() -> Iterator[Turn]:
    """Lists of as many as there may be, and of one more."""
    yield Turn(registering(numbered("q", LISTED), "milk"), {"registered": LISTED})
    yield Turn(registering(numbered("r", LISTED + 1), "milk"), LIMIT)
    yield Turn({"op": "count"}, {"count": LISTED})
    yield Turn({"op": "delete", "ids": numbered("q", LISTED + 1)}, LIMIT)
    yield Turn({"op": "delete", "ids": numbered("q", LISTED)}, {"deleted": LISTED})
    yield Turn(registering(LISTED * ["q1"], "tea"), {"registered": 1})
    yield Turn(registering((LISTED + 1) * ["q1"], "milk"), LIMIT)
    yield Turn(matching(numbered("a", ARTICLES), {"text": "tea"}), alerts(numbered("a", ARTICLES), "q1"))
    yield Turn(matching(numbered("a", ARTICLES + 1), {"text": "tea"}), LIMIT)


def of_fields() -> Iterator[Turn]:
    """Fields as many as there may be and one more, and names of fields."""
    for name in "a" * NAME_BYTES, "_9", "Z":
        yield Turn(matching(["a1"], {name: "tea"}), alerts(["a1"]))
    for name in "a" * (NAME_BYTES + 1), "9a", "", "a-b", "é":
        yield Turn(matching(["a1"], {name: "tea"}), LIMIT)
    yield Turn(matching(["a1"], dict.fromkeys(["text", *numbered("f", FIELDS - 1)], "tea")), alerts(["a1"], "q1"))
    yield Turn(matching(["a1"], dict.fromkeys(["text", *numbered("f", FIELDS)], "tea")), LIMIT)


def of_depth() -> Iterator[Turn]:
    """Lists of JSON in lists and groups in groups, as deep as they may be and deeper, and parentheses that stay open."""
    yield Turn(DEEPEST * "[" + DEEPEST * "]", {"refused": "shape"})
    yield Turn((DEEPEST + 1) * "[" + (DEEPEST + 1) * "]", {"refused": "json"})
    yield Turn(registering(["deep"], grouped(OPEN)), {"registered": 1})
    yield Turn(registering(["deep"], grouped(OPEN + 1)), NO_QUERY)
    yield Turn(registering(["deep"], QUERY_BYTES * "("), NO_QUERY)
    yield Turn(registering(["deep"], (QUERY_BYTES + 1) * "("), NO_QUERY)
    yield Turn(matching(["a1"], {"text": "tea"}), alerts(["a1"], "deep", "q1"))


def requests(_seed: int) -> Iterator[Turn]:
    """All requests."""
    for some in of_ids, of_lists, of_fields, of_depth:
        yield from some()


def of_merges() -> Iterator[Turn]:
    """Merges begun, one more than there may be at once; one that is installed makes room for the next."""
    for number in range(1, 5):
        yield Turn(registering([f"q{number}"], "tea"), {"registered": 1})
    for number in range(1, MERGES + 1):
        yield Turn({"op": "begin", "merge": number}, {"step": "begun"})
    yield Turn({"op": "begin", "merge": MERGES + 1}, {"step": "toomany"})


def of_batches() -> Iterator[Turn]:
    """Batches looked at, one more than there may be open; one that is finished makes room for the next."""
    for number in range(1, BATCHES + 1):
        yield Turn({"op": "look", "batch": number, "articles": []}, {"step": "looked"})
    yield Turn({"op": "look", "batch": BATCHES + 1, "articles": []}, {"step": "toomany"})
    yield Turn({"op": "piece", "batch": 1}, {"step": "unknown"})
    yield Turn({"op": "finish", "batch": 1}, {"alerts": []})


def of_commands() -> Iterator[Turn]:
    """Callers and lists of a trace."""
    tea = registering(["q5"], "tea")
    yield Turn({**tea, "caller": CALLERS + 1}, LIMIT)
    yield Turn({**tea, "caller": 0}, LIMIT)
    yield Turn({**tea, "caller": CALLERS}, {"registered": 1})
    yield Turn(registering(numbered("r", LISTED + 1), "milk"), LIMIT)
    yield Turn({"op": "delete", "ids": numbered("r", LISTED + 1)}, LIMIT)
    yield Turn({**matching(numbered("a", ARTICLES + 1), {}), "op": "look", "batch": 1}, LIMIT)
    yield Turn({**matching(numbered("a", ARTICLES), {"text": "tea"}), "op": "look", "batch": 1}, {"step": "looked"})
    finished = alerts(numbered("a", ARTICLES), *(f"q{number}" for number in range(1, 6)))
    yield Turn({"op": "finish", "batch": 1}, {"alerts": finished["alerts"]})


def of_room() -> Iterator[Turn]:
    """What is refused first, and what is taken once there is room."""
    yield Turn({"op": "begin", "merge": MERGES}, {"step": "used"})
    yield Turn({"op": "install", "merge": 1}, {"step": "installed"})
    yield Turn({"op": "begin", "merge": MERGES + 1}, {"step": "nothing"})
    yield Turn({"op": "install", "merge": 2}, {"step": "stale"})
    yield Turn({"op": "look", "batch": BATCHES + 1, "articles": []}, {"step": "looked"})
    yield Turn({"op": "look", "batch": BATCHES + 1, "articles": []}, {"step": "used"})
    yield Turn({"op": "look", "batch": BATCHES + 2, "articles": []}, {"step": "toomany"})


def events(_seed: int) -> Iterator[Turn]:
    """All events."""
    for some in of_merges, of_batches, of_commands, of_room:
        yield from some()
