"""Tests of `keep` and `grid`: the engine itself is the judge."""
