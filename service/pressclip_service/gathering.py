"""What shards found, put in the order of ids: by the proved library, where that is built or installed."""

from __future__ import annotations

import sys
from functools import lru_cache
from importlib import import_module
from itertools import chain
from typing import Any, Callable, Sequence, TypeVar

from .errors import EngineFailed
from .place import IS_CHECKOUT, TOP

Item = TypeVar("Item")
_BINDINGS = TOP / "bindings" / "python"


@lru_cache(maxsize=None)
def library() -> Any:
    """The module `pressclip`, or None where it, its library or its `gather_by` is not there."""
    if IS_CHECKOUT and str(_BINDINGS) not in sys.path:
        sys.path.append(str(_BINDINGS))
    try:
        module = import_module("pressclip")
    except ImportError:
        return None
    return module if hasattr(module, "gather_by") else None


def gathered(id_of: Callable[[Item], str], parts: Sequence[Sequence[Item]]) -> list[Item]:
    """The items of all parts in the byte order of their ids, in which each part stands; of one id in that of the parts.

    `EngineFailed` where the library finds a part that does not stand so."""
    proved = library()
    if proved is None:
        return sorted(chain.from_iterable(parts), key=id_of)
    try:
        items: list[Item] = proved.gather_by(id_of, parts)
    except proved.Refused as why:
        raise EngineFailed(f"what the shards found can't be put together: {why}") from None
    return items
