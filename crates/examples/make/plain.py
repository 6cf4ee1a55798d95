"""A plain engine: a dictionary of queries and a filter over it, with the reply to each request but for its number.

It is written from docs/PROTOCOL.md and shares no code with the engine.
"""

from __future__ import annotations

from typing import Iterable, NamedTuple, Optional, Sequence

from lines import Value
from reading import Fields, Question

# What the listeners of the program say.
LISTENERS = {"mail": "mail: {query} in {article}", "feed": "feed {query}/{article}"}


class Standing(NamedTuple):
    """A registered query: its text, whether it holds of an article, and the name of its listener, if any."""

    text: str
    question: Question
    listener: Optional[str]


class Plain:
    """The registered queries by their ids."""

    def __init__(self) -> None:
        self.queries: dict[str, Standing] = {}

    def register(self, listed: Sequence[tuple[str, Standing]]) -> Value:
        """Each takes the place of the one with its id."""
        self.queries.update(listed)
        return {"registered": len({id for id, _ in listed})}

    def delete(self, ids: Iterable[str]) -> Value:
        """Takes those out that are there."""
        return {"deleted": sum(self.queries.pop(id, None) is not None for id in set(ids))}

    def clear(self) -> Value:
        """Takes all out."""
        count = len(self.queries)
        self.queries.clear()
        return {"cleared": count}

    def count(self) -> Value:
        """How many there are."""
        return {"count": len(self.queries)}

    def show(self, id: str) -> Value:
        """The text of one, or none."""
        return {"query": self.queries[id].text if id in self.queries else None}

    def match(self, articles: Sequence[tuple[str, Fields]]) -> Value:
        """Of each article the queries that hold of it, in the order of their ids, and what their listeners say."""
        alerts: list[Value] = []
        notes: list[str] = []
        for article, fields in articles:
            due = sorted(id for id, query in self.queries.items() if query.question(fields))
            alerts.append({"article": article, "queries": due})
            named = [(id, self.queries[id].listener) for id in due]
            notes += [LISTENERS[name].format(query=id, article=article) for id, name in named if name]
        return {"alerts": alerts, "notes": notes}
