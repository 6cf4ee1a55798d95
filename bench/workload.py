"""The lines to send: registered queries and articles of one seed, as JSON."""

from __future__ import annotations

import json
from collections import Counter
from dataclasses import dataclass, field
from pathlib import Path
from random import Random

from prose import Article, Prose
from queries import Query, QuerySource, text_of

QUERIES_PER_LINE = 1_024


def line_of(value: object) -> bytes:
    """A value as one line of JSON."""
    return json.dumps(value, ensure_ascii=False, separators=(",", ":")).encode() + b"\n"


def register_lines(named: list[tuple[str, str]], per_line: int = QUERIES_PER_LINE) -> list[bytes]:
    """Lines that register the queries, pairs of an id and a text."""
    items = [{"id": id, "query": text} for id, text in named]
    return [line_of({"op": "register", "queries": items[at:at + per_line]}) for at in range(0, len(items), per_line)]


def match_lines(articles: list[Article], per_line: int = 1) -> list[bytes]:
    """Lines that match the articles."""
    items = [{"id": a.id, "fields": {"title": a.title, "text": a.text}} for a in articles]
    return [line_of({"op": "match", "articles": items[at:at + per_line]}) for at in range(0, len(items), per_line)]


@dataclass
class Workload:
    """Queries and articles of a seed. A smaller workload is the front of a larger one."""

    seed: int
    articles: list[Article]
    queries: list[Query] = field(default_factory=list)
    named: list[tuple[str, str]] = field(default_factory=list)
    kinds: Counter[str] = field(default_factory=Counter)

    @staticmethod
    def make(seed: int, queries: int, articles: int) -> Workload:
        """So many queries and articles."""
        prose = Prose(seed)
        rng = Random(f"articles {seed}")
        workload = Workload(seed, [prose.article(rng, f"a{n}") for n in range(articles)])
        source = QuerySource(prose, seed)
        for number in range(queries):
            kind, query = source.next()
            workload.kinds[kind] += 1
            workload.queries.append(query)
            workload.named.append((f"q{number:07d}", text_of(query)))
        return workload

    def keep(self, folder: Path, sizes: list[int]) -> None:
        """Writes the lines to files: `queries-N.jsonl` for each size, and `articles.jsonl`."""
        folder.mkdir(parents=True, exist_ok=True)
        for size in sizes:
            (folder / f"queries-{size}.jsonl").write_bytes(b"".join(register_lines(self.named[:size])))
        (folder / "articles.jsonl").write_bytes(b"".join(match_lines(self.articles)))
