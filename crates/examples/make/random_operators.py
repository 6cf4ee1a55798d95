"""Random rows of words, signs, operators, fields and parentheses, half of them no query.

The rows are drawn and read by `reading.py`.
"""

from __future__ import annotations

import random
from typing import Iterator

from lines import Turn, Value
from reading import Drawing, Question

LINES, IDS, ARTICLES = 600, 24, 4


def turns(seed: int) -> Iterator[Turn]:
    """Registers of one row each, a refused one of which leaves the query under its id; one line in ten is a match."""
    drawing = Drawing(random.Random(seed))
    queries: dict[str, Question] = {}
    for line in range(1, LINES + 1):
        if line % 10:
            id = f"q{drawing.dice.randrange(IDS)}"
            text, question = drawing.row()
            if question:
                queries[id] = question
            yield Turn({"op": "register", "queries": [{"id": id, "query": text}]},
                       {"registered": 1} if question else {"refused": "query", "which": 0})
        else:
            articles: list[Value] = []
            alerts: list[Value] = []
            for number in range(ARTICLES):
                fields = drawing.fields()
                articles.append({"id": f"a{number}", "fields": {name: " ".join(its) for name, its in fields.items()}})
                due = sorted(id for id, question in queries.items() if question(fields))
                alerts.append({"article": f"a{number}", "queries": due})
            yield Turn({"op": "match", "articles": articles}, {"alerts": alerts, "notes": []})
