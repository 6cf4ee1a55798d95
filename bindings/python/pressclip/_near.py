"""Whether two queries are near in an article."""

from __future__ import annotations

import sys
from ctypes import byref, c_bool
from typing import Mapping

from . import _calls
from ._calls import encoded


def near_holds(first: str, second: str, between: int, ordered: bool, fields: Mapping[str, str]) -> bool:
    """Whether two queries, each a word, a phrase or a prefix, are near in an article of these fields, by their names.

    They are where in one field each has a place, apart from the other's, with at most `between` words from the end of
    the one to the start of the other; where `ordered`, the first before the second. `f"+({first}) +({second})"` holds
    of each such article. `Refused` with `query` where one is none of these, `LimitError`, `NoMemory`; `ValueError`
    where `between` is below 0. The cost is that of reading the article, and of two walks over the words of the field.

    >>> near_holds("tea", "pric*", 2, ordered=True, fields={"text": "The tea board sets prices"})
    True
    """
    if between < 0:
        raise ValueError(f"{between} words can't be between two places")
    one, other = encoded(first, "a query"), encoded(second, "a query")
    pairs = [(encoded(name, "a field's name"), encoded(text, "a field's text")) for name, text in fields.items()]
    pair = _calls.Pair(one, len(one), other, len(other), min(between, sys.maxsize), ordered)
    near = c_bool()
    _calls.well(_calls.LIBRARY.pressclip_near(_calls.fields_of(pairs), len(pairs), byref(pair), byref(near)))
    return near.value
