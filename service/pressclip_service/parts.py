"""Answers of shards, and how the parts of a reply are put together, mostly by their bytes alone.

The answer to a change or a count is a number. That to a `show` is the query's text as JSON from the shard of its id,
and nothing from another. That to a `match` is the list of alerts as the engine wrote it, without its brackets, with
hits where the engine shows them; where listeners said something there follow a line feed and, as JSON, for each article
what they said, each with the place of its query in the article's list.

A quotation mark inside a text is written with a backslash, so `]},{"article":`, `,"queries":[`, `,"hits":[` and
`],"line":` occur where members stand and nowhere else; and where there is no backslash at all, `","` stands between two
ids. A hit has no bracket in it, so `],[` stands between the hits of two queries.
"""

from __future__ import annotations

import json
from operator import itemgetter
from typing import Sequence

from .errors import EngineFailed
from .gathering import gathered
from .names import CLEAR, COUNT, DELETE, FULL, MATCH, PURGE, REGISTER, SHOW
from .replies import count_in

_ENCODER = json.JSONEncoder(ensure_ascii=False, separators=(",", ":"))
_COUNTS = {REGISTER: b'{"line":%d,"registered":%d}', DELETE: b'{"deleted":%d,"line":%d}',
           CLEAR: b'{"cleared":%d,"line":%d}', COUNT: b'{"count":%d,"line":%d}'}
_ALERTS, _AFTER_ALERTS, _NOTES = b'{"alerts":[', b'],"line":', b',"notes":'
_ARTICLE, _NEXT_ARTICLE, _QUERIES, _HITS = b'{"article":', b']},{"article":', b',"queries":[', b',"hits":['


class Heard:
    """Which of a shard's live queries have a listener."""

    def __init__(self) -> None:
        self.names: set[str] = set()

    def register(self, queries: Sequence[dict[str, str]]) -> None:
        """Follows a register of these queries."""
        for listing in queries:
            if "listener" in listing:
                self.names.add(listing["id"])
            else:
                self.names.discard(listing["id"])

    def delete(self, ids: Sequence[str]) -> None:
        """Follows a delete of these ids."""
        self.names.difference_update(ids)

    def notes_by_place(self, found: Sequence[str], notes: Sequence[str], said: int) -> list[list[object]]:
        """The notes of an article's alerts, from a place in the list of notes on, each with the place of its query."""
        if not self.names:
            return []
        places = [place for place, name in enumerate(found) if name in self.names]
        return [[place, note] for place, note in zip(places, notes[said:])]

    def notes_by_article(self, alerts: Sequence[Sequence[str]], notes: Sequence[str]) -> list[list[list[object]]]:
        """The notes of each article, by the ids of the queries that hold of it."""
        said = 0
        articles = []
        for found in alerts:
            articles.append(self.notes_by_place(found, notes, said))
            said += len(articles[-1])
        if said != len(notes):
            raise EngineFailed(f"the engine gave {len(notes)} notes where {said} are due")
        return articles


def _listed(ids: bytes) -> list[str]:
    """The ids of a list without its brackets."""
    found: list[str] = json.loads(b"[%b]" % ids)
    return found


def _articles(alerts: bytes) -> list[tuple[bytes, bytes]]:
    """Of a list of alerts without its brackets: each article's id as JSON, with the hits where there are any, and its
    queries, without brackets too."""
    if not alerts:
        return []
    found = []
    for alert in alerts[len(_ARTICLE):-len(b"]}")].split(_NEXT_ARTICLE):
        article, _, ids = alert.partition(_QUERIES)
        found.append((article, ids))
    return found


def match_answer(reply: bytes, heard: Heard) -> bytes:
    """A shard's answer, from its engine's reply to a match."""
    end = reply.index(_AFTER_ALERTS)
    alerts = reply[len(_ALERTS):end]
    notes = reply[reply.index(_NOTES, end) + len(_NOTES):-1]
    if notes == b"[]":
        return alerts
    said = heard.notes_by_article([_listed(ids) for _, ids in _articles(alerts)], json.loads(notes))
    return b"%b\n%b" % (alerts, _ENCODER.encode(said).encode())


def answer_of(kind: bytes, reply: bytes, is_owner: bool, heard: Heard) -> bytes:
    """A shard's answer to a request, from its engine's reply to its part of it."""
    if kind == MATCH:
        return match_answer(reply, heard)
    if kind == SHOW:
        return _ENCODER.encode(json.loads(reply)["query"]).encode() if is_owner else b""
    return b"%d" % (0 if kind in (PURGE, FULL) else count_in(reply))


def merged(lists: Sequence[bytes]) -> bytes:
    """One list of ids in byte order, from lists in that order, all without brackets."""
    found = [ids for ids in lists if ids]
    if len(found) < 2:
        return b"".join(found)
    if any(b"\\" in ids for ids in found):
        return _ENCODER.encode(gathered(str, [_listed(ids) for ids in found]))[1:-1].encode()
    names = gathered(str, [ids[1:-1].decode().split('","') for ids in found])
    return b'"%b"' % '","'.join(names).encode()


def _with_hits(fronts: Sequence[bytes], lists: Sequence[bytes]) -> tuple[bytes, bytes]:
    """One list of hits and one of ids, in the byte order of the ids, from lists in that order, all without brackets."""
    parts: list[list[tuple[str, bytes]]] = []
    for front, ids in zip(fronts, lists):
        names = _listed(ids)
        hits = front.partition(_HITS)[2][1:-2].split(b"],[") if names else []
        if len(hits) != len(names):
            raise EngineFailed(f"the engine gave hits of {len(hits)} queries where {len(names)} hold")
        parts.append(list(zip(names, hits)))
    found = gathered(itemgetter(0), parts)
    return b",".join(b"[%b]" % hits for _, hits in found), _ENCODER.encode([name for name, _ in found])[1:-1].encode()


def _alert(found: Sequence[tuple[bytes, bytes]]) -> bytes:
    """The alert of an article, from the shards' alerts of it."""
    fronts, lists = [front for front, _ in found], [ids for _, ids in found]
    has_hits = _HITS in fronts[0]
    if any((_HITS in front) != has_hits for front in fronts):
        raise EngineFailed("some engines of the grid show hits and some do not: start all workers with one command")
    if not has_hits:
        return b'{"article":%b,"queries":[%b]}' % (fronts[0], merged(lists))
    return b'{"article":%b,"hits":[%b],"queries":[%b]}' % (fronts[0].partition(_HITS)[0], *_with_hits(fronts, lists))


def _notes(shards: Sequence[Sequence[tuple[bytes, bytes]]], said: Sequence[bytes]) -> bytes:
    """What listeners said, in the order of the articles and of their queries' ids, by what each shard's did."""
    if not any(said):
        return b"[]"
    speaking = [(articles, json.loads(text)) for articles, text in zip(shards, said) if text]
    notes: list[str] = []
    for place in range(len(shards[0])):
        own = []
        for articles, by_article in speaking:
            names = _listed(articles[place][1])
            own.append([(names[at], note) for at, note in by_article[place]])
        notes += [note for _, note in gathered(itemgetter(0), own)]
    return _ENCODER.encode(notes).encode()


def _matched(number: int, parts: Sequence[bytes]) -> bytes:
    """The reply to a match."""
    cut = [part.partition(b"\n") for part in parts]
    shards = [_articles(alerts) for alerts, _, _ in cut]
    if any(len(articles) != len(shards[0]) for articles in shards):
        raise EngineFailed("the shards answered for different numbers of articles")
    alerts = b",".join(map(_alert, zip(*shards)))
    return b'{"alerts":[%b],"line":%d,"notes":%b}' % (alerts, number, _notes(shards, [said for _, _, said in cut]))


def reply_of(kind: bytes, number: int, parts: Sequence[bytes]) -> bytes:
    """The reply to a line of this number, from the answers of all shards."""
    if kind == MATCH:
        return _matched(number, parts)
    if kind == FULL:
        return b'{"line":%d,"refused":"full"}' % number
    if kind == PURGE:
        return b'{"line":%d,"purged":true}' % number
    if kind == SHOW:
        return b'{"line":%d,"query":%b}' % (number, next(part for part in parts if part))
    total = sum(map(int, parts))
    return _COUNTS[kind] % ((number, total) if kind == REGISTER else (total, number))
