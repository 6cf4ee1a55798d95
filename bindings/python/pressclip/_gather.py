"""What the parts of one registry found of an article, as one."""

from __future__ import annotations

from array import array
from itertools import chain
from typing import Callable, Iterable, Sequence, TypeVar

from . import _calls
from ._calls import encoded
from ._matches import Found

Item = TypeVar("Item")


def gather(parts: Iterable[Sequence[Found]]) -> list[Found]:
    """What monitors found of one article, where each query is registered in one of them: as one with all finds it.

    `Refused` with `order` where those of a part are not in the byte order of their ids, as `match` gives them,
    `LimitError` with `size` where a part or the parts are over 1,000,000, `NoMemory`. The cost is a comparison of two
    ids for each item for each time that the number of parts can be halved, and one more.

    >>> from pressclip import Monitor, gather
    >>> one, other = Monitor(), Monitor()
    >>> one.register_many([("a", "tea"), ("c", "tea")])
    >>> other.register("b", "pric*")
    >>> article = {"id": "a1", "fields": {"text": "Tea prices rise"}}
    >>> [found.query for found in gather([one.match(article), other.match(article)])]
    ['a', 'b', 'c']
    """
    return gather_by(lambda found: found.query, parts)


def gather_by(id_of: Callable[[Item], str], parts: Iterable[Sequence[Item]]) -> list[Item]:
    """What `gather` does, of whatever has an id. Items with one id stand in the order of their parts.

    >>> gather_by(str, [["a", "c"], ["b"]])
    ['a', 'b', 'c']
    """
    lists = list(parts)
    items = list(chain.from_iterable(lists))
    ids = [encoded(id_of(item), "an id") for item in items]
    lengths, counts, order = array("Q", map(len, ids)), array("Q", map(len, lists)), array("Q", bytes(8 * len(ids)))
    _calls.well(_calls.LIBRARY.pressclip_gather_ids(b"".join(ids), lengths.buffer_info()[0], counts.buffer_info()[0],
                                                    len(lists), order.buffer_info()[0]))
    return [items[place] for place in order]
