"""Kinds of values that fields have."""

from __future__ import annotations

from enum import Enum


class Kind(Enum):
    """What the values of a field are."""

    TEXT = "text"
    DATE = "date"
    NUMBER = "number"
    URL = "url"
    WORD = "word"
