"""The library of the engine's own words and of its nearness, where it is built."""

from __future__ import annotations

import sys
from importlib import import_module
from pathlib import Path
from typing import Any

_BINDINGS = Path(__file__).resolve().parents[2] / "bindings" / "python"


def _library() -> Any:
    """The module `pressclip`, or None where there is no libpressclip.so."""
    if str(_BINDINGS) not in sys.path:
        sys.path.append(str(_BINDINGS))
    try:
        return import_module("pressclip")
    except ImportError:
        return None


LIBRARY: Any = _library()
