"""The syntax of `simple_query_string`, in which no text is wrong: what does not fit is passed over."""

from __future__ import annotations

from dataclasses import dataclass
from enum import Enum
from typing import Union

from .classic import MOST_OPEN, Unreadable

_WHITE = " \t\n\r"
_ENDS_WORD = '"|+()' + _WHITE


@dataclass(frozen=True)
class Text:
    """Words, a phrase, or how a word begins, by its form."""

    form: str
    text: str


@dataclass(frozen=True)
class Not:
    """All but what it holds."""

    inner: Tree


class Operator(Enum):
    """How parts are put together: all of them, or one."""

    AND = "+"
    OR = "|"


@dataclass(frozen=True)
class Joined:
    """Parts, put together."""

    operator: Operator
    parts: list[Tree]


Tree = Union[Text, Not, Joined]


class Simple:
    """Reads one text, or what stands in parentheses within it."""

    def __init__(self, text: str, usual: Operator) -> None:
        self._text = text
        self._usual = usual
        self._closings = closings_of(text)
        self._depth = 0
        self._at = 0
        self._end = len(text)

    def whole(self) -> Tree | None:
        """What the text asks for, or None where it has no words."""
        branches, negations = Branches(self._usual), 0
        while self._at < self._end:
            sign = self._text[self._at]
            if sign == "-":
                negations += 1
                self._at += 1
                continue
            if sign in "+|":
                branches.operate(Operator(sign))
                self._at += 1
            elif sign == ")" or sign in _WHITE:
                self._at += 1
            else:
                branches.take(self._branch(sign, branches), negations)
            negations = 0
        return branches.top

    def _branch(self, sign: str, branches: Branches) -> Tree | None:
        """A group, a phrase or a word; None where there is none."""
        if sign == "(":
            return self._group(branches)
        return self._phrase(branches) if sign == '"' else self._word()

    def _phrase(self, branches: Branches) -> Tree | None:
        """A phrase; a quotation mark that is never closed is passed over."""
        self._at += 1
        start, found = self._at, []
        while self._at < self._end and self._text[self._at] != '"':
            self._at += self._text[self._at] == "\\"
            found.append(self._text[self._at:min(self._at + 1, self._end)])
            self._at += 1
        if self._at >= self._end:
            self._at = start
            return None
        self._at += 1
        if self._text[self._at:self._at + 1] == "~":
            raise Unreadable(f"[~] at character {self._at} is not served: phrases have no slop")
        if not found:
            branches.operator = None
        return Text("phrase", "".join(found)) if found else None

    def _group(self, branches: Branches) -> Tree | None:
        """What stands in parentheses; one that is never closed is passed over."""
        self._at += 1
        start, end = self._at, self._closings.get(self._at - 1, self._end)
        if end >= self._end:
            return None
        if end == start:
            branches.operator = None
            self._at = end + 1
            return None
        if self._depth == MOST_OPEN:
            raise Unreadable(f"over {MOST_OPEN} parentheses are open at once")
        outer, self._end = self._end, end
        self._depth += 1
        inner = self.whole()
        self._depth -= 1
        self._at, self._end = end + 1, outer
        return inner

    def _word(self) -> Tree | None:
        """A word, or how one begins."""
        found: list[str] = []
        is_begun = False
        while self._at < self._end and self._text[self._at] not in _ENDS_WORD:
            sign = self._text[self._at]
            if sign == "~" and found:
                raise Unreadable(f"[~] at character {self._at} is not served: words are compared whole")
            is_begun = sign == "*" and bool(found)
            if sign == "\\":
                self._at += 1
                sign = self._text[self._at:min(self._at + 1, self._end)]
            found.append(sign)
            self._at += 1
        text = "".join(found)
        if not text:
            return None
        return Text("begun", text[:-1]) if is_begun else Text("words", text)


class Branches:
    """What was read so far, put together from left to right by the operators between."""

    def __init__(self, usual: Operator) -> None:
        self.top: Tree | None = None
        self.operator: Operator | None = None
        self._usual = usual
        self._before: Operator | None = None
        self._turns = 0

    def operate(self, operator: Operator) -> None:
        """Takes an operator; the first of several counts, and none where nothing stands before it."""
        if self.operator is None and self.top is not None:
            self.operator = operator

    def take(self, branch: Tree | None, negations: int) -> None:
        """Puts a part to what is there. Where the operator is another one, what is there becomes the first part."""
        if branch is None:
            return
        branch = Not(branch) if negations % 2 else branch
        top = self.top
        if top is None:
            self.top = branch
        else:
            operator = self.operator or self._usual
            if isinstance(top, Joined) and self._before is operator:
                top.parts.append(branch)
            else:
                self._turns += 1
                self.top = Joined(operator, [top, branch])
            if self._turns > MOST_OPEN:
                raise Unreadable(f"its operators alternate over {MOST_OPEN} times")
            self._before = operator
        self.operator = None


def closings_of(text: str) -> dict[int, int]:
    """For each parenthesis that is closed, where."""
    found: dict[int, int] = {}
    opened: list[int] = []
    at = 0
    while at < len(text):
        if text[at] == "(":
            opened.append(at)
        elif text[at] == ")" and opened:
            found[opened.pop()] = at
        at += 2 if text[at] == "\\" else 1
    return found
