"""Requests of each kind, each cut after each of its bytes, with the replies that are due.

One has a text of characters of two, three and four bytes. A request that is cut
is no JSON value, since its first bracket stays open, and so it changes nothing;
after its last byte it has the reply that stands beside it.
"""

from __future__ import annotations

from typing import Iterator

from lines import Turn, Value

REQUESTS: list[tuple[str, Value]] = [
    ('{"op":"register","queries":[{"id":"q1","query":"+tea pric*"}]}', {"registered": 1}),
    ('{"op":"match","articles":[{"id":"a1","fields":{"text":"Tea prices rise"}}]}',
     {"alerts": [{"article": "a1", "queries": ["q1"]}], "notes": []}),
    ('{"op":"count"}', {"count": 1}),
    ('{"op":"show","id":"q1"}', {"query": "+tea pric*"}),
    ('{"op":"delete","ids":["q1","q9"]}', {"deleted": 1}),
    ('{"op":"clear"}', {"cleared": 0}),
    ('{"op":"purge"}', {"purged": True}),
    ('{"op":"register","queries":[{"id":"q2","query":"tea","listener":"mail"}]}', {"registered": 1}),
    ('{"op":"match","articles":[{"id":"a2","fields":{"text":"Tea"}}]}',
     {"alerts": [{"article": "a2", "queries": ["q2"]}], "notes": ["mail: q2 in a2"]}),
    ('{"op":"register","queries":[{"id":"q1","query":"tea","listener":"mail"},'
     '{"id":"q2","query":"tea","listener":"feed"},{"id":"q3","query":"tea"}]}', {"registered": 3}),
    ('{"op":"match","articles":[{"id":"a1","fields":{"text":"tea"}}]}',
     {"alerts": [{"article": "a1", "queries": ["q1", "q2", "q3"]}], "notes": ["mail: q1 in a1", "feed q2/a1"]}),
    ('{"op":"register","queries":[{"id":"q4","query":"tea","listener":"fax"}]}', {"refused": "listener", "which": 0}),
    ('{"op":"match","articles":[{"id":"ä1","fields":{"text":"Straße 日本 𝒳"}}]}',
     {"alerts": [{"article": "ä1", "queries": []}], "notes": []}),
]


def turns(_seed: int) -> Iterator[Turn]:
    """Each request cut after each byte but the last, and then whole."""
    for request, reply in REQUESTS:
        text = request.encode()
        for end in range(1, len(text)):
            yield Turn(text[:end], {"refused": "json"})
        yield Turn(text, reply)
