"""`minimum_should_match`: how many it asks for, and how to say so by all and one."""

from __future__ import annotations

import re
from itertools import combinations
from math import comb
from typing import Sequence

from .part import Part
from .tree import Never, Node, both, either, size
from .trouble import Trouble, malformed, not_served

# A query of the engine has at most 4,096 parts.
MOST_PARTS = 4_000
_CONDITION = re.compile(r"(-?\d{1,9})<(-?\d{1,9}%?)")


def asked_for(spec: Part, count: int) -> int:
    """How many of so many clauses a specification asks for: `2`, `-1`, `75%`, `-25%`, or `2<75%` and more of these."""
    text = str(spec.value).strip() if isinstance(spec.value, (int, str)) and not isinstance(spec.value, bool) else ""
    if "<" not in text:
        return simple(spec, text, count)
    result = count
    for condition in re.sub(r"\s*<\s*", "<", text).split():
        found = _CONDITION.fullmatch(condition)
        if found is None:
            raise malformed(spec.place, f"[{text}] is no minimum_should_match")
        if count <= int(found[1]):
            break
        result = simple(spec, found[2], count)
    return result


def simple(spec: Part, text: str, count: int) -> int:
    """How many a number or a percentage asks for; less than none is none."""
    found = re.fullmatch(r"([+-]?\d{1,9})(%?)", text)
    if found is None:
        raise malformed(spec.place, f"[{text}] is no minimum_should_match")
    number = int(found[1])
    if found[2]:
        part = abs(number) * count // 100
        return max(0, count - part if number < 0 else part)
    return max(0, count + number if number < 0 else number)


def too_long(least: int, count: int, place: str) -> Trouble:
    """That a count of clauses can't be said."""
    return not_served("minimum_should_match", place, f"{least} of {count} is too long to be said by and and or")


def at_least(least: int, nodes: Sequence[Node], place: str) -> Node:
    """At least so many of the nodes hold, one at least; by all and one alone, in the shorter of two ways."""
    count = len(nodes)
    if least > count:
        return Never()
    if least == count:
        return both(nodes)
    if least <= 1:
        return either(nodes)
    if count > MOST_PARTS:
        raise too_long(least, count, place)
    largest = max(size(node) for node in nodes)
    ways = comb(count, least) * (least * largest + 1)
    gaps = comb(count, least - 1) * ((count - least + 1) * largest + 1)
    if min(ways, gaps) > MOST_PARTS:
        raise too_long(least, count, place)
    if ways <= gaps:
        return either([both(chosen) for chosen in combinations(nodes, least)])
    return both([either(chosen) for chosen in combinations(nodes, count - least + 1)])
