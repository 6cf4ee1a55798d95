"""Parts of a JSON request that know their place, so that each refusal names it."""

from __future__ import annotations

from dataclasses import dataclass
from typing import Any, Iterator, Mapping

from .trouble import malformed, not_served

_SCORES = "nothing is scored here, queries hold or do not"
_WHOLE = "words are compared whole, and letter by letter"
_WHY: Mapping[str, str] = {
    "boost": _SCORES, "tie_breaker": _SCORES, "negative_boost": _SCORES, "score_mode": _SCORES,
    "slop": "the words of a phrase stand next to each other, in their order",
    "phrase_slop": "the words of a phrase stand next to each other, in their order",
    "fuzziness": _WHOLE, "fuzzy_max_expansions": _WHOLE, "fuzzy_prefix_length": _WHOLE, "max_expansions": _WHOLE,
    "analyzer": "words are cut as the mapping's analyzer [standard] does",
    "quote_analyzer": "words are cut as the mapping's analyzer [standard] does"}
# Members that change nothing where they have one of these values, which clients write out.
_USUAL: Mapping[str, tuple[object, ...]] = {
    "boost": (1,), "tie_breaker": (0,), "slop": (0,), "phrase_slop": (0,), "fuzziness": (0, "0", None),
    "max_expansions": (50,), "prefix_length": (0,), "fuzzy_prefix_length": (0,), "fuzzy_max_expansions": (50,),
    "fuzzy_transpositions": (True,), "auto_generate_synonyms_phrase_query": (True,), "analyzer": (None, "standard"),
    "quote_analyzer": (None, "standard"), "rewrite": (None, "constant_score"), "fuzzy_rewrite": (None,),
    "adjust_pure_negative": (True,), "max_determinized_states": (10_000,), "enable_position_increments": (True,),
    "escape": (False,), "analyze_wildcard": (False,), "quote_field_suffix": (None,),
    "relation": (None, "intersects", "INTERSECTS"), "allow_leading_wildcard": (True, False), "flags": (-1, 255, "ALL")}


@dataclass(frozen=True)
class Part:
    """A value of a request, and the path that leads to it."""

    value: Any
    place: str

    def at(self, name: str | int, value: Any) -> Part:
        """A part of this one."""
        return Part(value, f"{self.place}[{name}]" if isinstance(name, int) else f"{self.place}.{name}")

    def members(self) -> dict[str, Part]:
        """Its members; it has to be an object."""
        if not isinstance(self.value, dict):
            raise malformed(self.place, "an object is asked for")
        return {name: self.at(name, value) for name, value in self.value.items()}

    def only(self) -> tuple[str, Part]:
        """The name of its one member, and that."""
        members = self.members()
        if len(members) != 1:
            raise malformed(self.place, f"an object of one member is asked for, and it has {len(members)}")
        return next(iter(members.items()))

    def items(self) -> list[Part]:
        """The members of a list; what is no list is the only one of its own."""
        if not isinstance(self.value, list):
            return [self]
        return [self.at(number, value) for number, value in enumerate(self.value)]

    def text(self) -> str:
        """It as a text that UTF-8 can write."""
        if not isinstance(self.value, str):
            raise malformed(self.place, "a text is asked for")
        return self.written(self.value)

    def written(self, text: str) -> str:
        """The text, which UTF-8 has to be able to write."""
        try:
            text.encode()
        except UnicodeEncodeError:
            raise malformed(self.place, "half of a surrogate pair is no character") from None
        return text

    def truth(self) -> bool:
        """It as true or false."""
        if self.value in (True, "true"):
            return True
        if self.value in (False, "false"):
            return False
        raise malformed(self.place, "true or false is asked for")

    def number(self, least: int, most: int) -> int:
        """It as a whole number from the least to the most."""
        value = self.value
        if isinstance(value, str) and value.isascii() and value.isdigit() and len(value) < 10:
            value = int(value)
        if isinstance(value, bool) or not isinstance(value, int) or not least <= value <= most:
            raise malformed(self.place, f"a whole number from {least} to {most} is asked for")
        return value

    def scalar(self) -> Any:
        """It as a text, a number, true or false."""
        if isinstance(self.value, str):
            return self.text()
        if isinstance(self.value, (bool, int, float)):
            return self.value
        raise malformed(self.place, "a text, a number, true or false is asked for")


class Options:
    """The members of an object, taken one by one; `end` refuses what nobody took."""

    def __init__(self, part: Part, form: str) -> None:
        self._part = part
        self._form = form
        self._left = part.members()

    def take(self, *names: str) -> Part | None:
        """The member of the first of these names that it has, where that is not null."""
        for name in names:
            found = self._left.pop(name, None)
            if found is not None and found.value is not None:
                return found
        return None

    def need(self, *names: str) -> Part:
        """The member of one of these names, which has to be there."""
        found = self.take(*names)
        if found is None:
            raise malformed(self._part.place, f"[{self._form}] needs [{names[0]}]")
        return found

    def rest(self) -> Iterator[tuple[str, Part]]:
        """What is left, taken one by one."""
        while self._left:
            name = next(iter(self._left))
            yield name, self._left.pop(name)

    def end(self) -> None:
        """Refuses what is left, but for what has the value that it has where it is left out."""
        self._left.pop("_name", None)
        for name, part in self._left.items():
            usual = _USUAL.get(name)
            if usual is None and name not in _WHY:
                raise malformed(part.place, f"[{self._form}] has no member [{name}] here")
            if usual is None or not any(is_same(part.value, one) for one in usual):
                raise not_served(name, part.place, _WHY.get(name, "only its usual value is"))


def is_same(value: object, other: object) -> bool:
    """Whether two values of JSON are one; 1 and 1.0 are, 1 and true are not."""
    return isinstance(value, bool) == isinstance(other, bool) and value == other
