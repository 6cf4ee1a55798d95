"""Texts with the words marked at which a query holds."""

from __future__ import annotations

from itertools import groupby
from typing import Any, Mapping

from ._matches import Found


def highlight(article: Mapping[str, Any], match: Found, before: str, after: str) -> dict[str, str]:
    """The texts of an article's fields in which a query has hits, with `before` and `after` around each such word.

    By the names of the fields. Nothing in the texts is escaped: for HTML, mark with characters that can't occur in
    them, escape, and put tags in their place. The monitor has to be one with `hits`; else there is no field.

    >>> from pressclip import Monitor
    >>> article = {"id": "a1", "fields": {"title": "Markets", "text": "Tea prices rise"}}
    >>> with Monitor(hits=True) as monitor:
    ...     monitor.register("tea", "+tea pric*")
    ...     (found,) = monitor.match(article)
    >>> highlight(article, found, "[", "]")
    {'text': '[Tea] [prices] rise'}
    """
    marked = {}
    for name, hits in groupby(match.hits, key=lambda hit: hit.field):
        text, pieces, end = article["fields"][name], [], 0
        for hit in hits:
            pieces += [text[end:hit.start], before, text[hit.start:hit.end], after]
            end = hit.end
        marked[name] = "".join([*pieces, text[end:]])
    return marked
