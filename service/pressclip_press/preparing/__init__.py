"""Articles prepared for the engine, and the words of queries alike."""

from .preparer import SEPARATOR, Prepared, Preparer

__all__ = ["SEPARATOR", "Prepared", "Preparer"]
