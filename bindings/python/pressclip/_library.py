"""Where the library is."""

from __future__ import annotations

import ctypes
import os
from pathlib import Path

MISSING = """pressclip: there is no libpressclip.so. This builds it, in a checkout of pressclip:

    bindings/c/build

Or set PRESSCLIP_LIBRARY to its path."""
# As make install in bindings/c names it, for the loader of the machine.
INSTALLED = "libpressclip.so.1"


def load() -> ctypes.CDLL:
    """The library: what PRESSCLIP_LIBRARY names, the one beside this file, the checkout's, or an installed one."""
    here = Path(__file__).resolve().parent
    named = os.environ.get("PRESSCLIP_LIBRARY")
    places = [Path(named)] if named else [here / "libpressclip.so", here.parents[1] / "c" / "libpressclip.so"]
    for place in places:
        if place.exists():
            return ctypes.CDLL(str(place))
    if named:
        raise ImportError(MISSING)
    try:
        return ctypes.CDLL(INSTALLED)
    except OSError:
        raise ImportError(MISSING) from None
