"""Cuts a query into the lexemes of the grammar."""

from __future__ import annotations

import re
from collections.abc import Collection

from .choices import Choices
from .lexemes import FieldOf, Kind, Lexeme, Load, Within
from .settling import settled
from .signs import (DASHES, EXACT, HEBREW, NEAR_ALONE, NEAR_ORDERED, NEAR_WORD, OPERATORS, QUOTE, SAME_ALONE,
                    SAME_WORD, SEGMENT_WORD, SINGLE_QUOTES, Word, with_plain_signs)
from .tree import (WILD_MANY, WILD_ONE, Every, Has, Level, Place, Range, Refused, Remark, Slop, Term, Unit)

MOST_BYTES = 65_536
MOST_WORDS_NEAR = 1_000
# How many of a list, where all of it is asked for.
MOST_OF = 1_000_000
_RUN = re.compile(r"""(?: \\. | (?<=[\u05d0-\u05ea])"(?=[\u05d0-\u05ea]) | (?<=\d)[,](?=\d) | &(?!&)
                      | (?<=\w)[{](?=\w) | [^\s()\[\]{}",;|&\\] )+""", re.VERBOSE | re.DOTALL)
_NAMED = re.compile(r"([A-Za-z_][A-Za-z0-9_.-]*):(?!//)")
_COMPARED = re.compile(r"([A-Za-z_][A-Za-z0-9_]*)(\s*(?:>=|<=|>|<)\s*|:\s*(?:>=|<=|>|<)\s*|=)(?=[^\s=<>])")
_SPREAD = re.compile(r"([^\s()\"]+?)\.\.([^\s()\"]+)")
_VALUE = re.compile(r'"[^"]*"|[^\s()"]+')
_RANGE = re.compile(r"""([\[{]) \s* ("[^"]*"|\S+?) \s+ (?:TO|to|-) \s+ ("[^"]*"|[^\s\]}]+) \s* ([\]}])""", re.VERBOSE)
_PLACES = re.compile(r"(?i:at\s?least|atl)\s?(\d{1,4})(?=\s*[(\s])")
_OF = re.compile(r"(?:(?:at\s?least|minimum|min|any)\s+)?(\d{1,3}|any|all)\s+of\s*(?=\()", re.IGNORECASE)
_AROUND = re.compile(r"(AROUND|NEAR|ONEAR|WITHIN|ADJ)(?:\s?\(\s?(\d{1,6})\s?\)|\s+(\d{1,4})(?=\s+\S))")
_SHARE = re.compile(r"\d+(?:[.,]\d+)*\s+%(?=[\s)]|$)")
_ENTITY = re.compile(r"&(?:amp|quot|lt|gt|nbsp|#\d+|#x[0-9a-f]+);", re.IGNORECASE)
_WITHIN_WORDS = re.compile(r"within\s+(\d{1,6})(?:\s+words?(?:\s+of)?)?(?=[\s(\"])", re.IGNORECASE)
_SLOP = re.compile(r"~(\d{0,6})")
_BOOST = re.compile(r"\^\d+(?:\.\d+)?")
_EXPRESSION = re.compile(r"/(?:[^/\\\s]|\\.)+/(?=[\s)]|$)")
_WITHIN_QUOTES = re.compile(r"\b(?:AND|OR|NOT|O?NEAR/\d+)\b")
_CUT_SHORT = re.compile(r"[^\W\d_]{3,}\$\d?")
_DATE_BOUNDS = {"before": "<", "until": "<=", "after": ">", "since": ">="}


class Lexer:
    """Cuts one query. Its remarks are in the order in which they were made."""

    def __init__(self, query: str, choices: Choices, known: Collection[str]) -> None:
        self.query, self.choices, self.known = query, choices, known
        self.plain = with_plain_signs(query)
        self.at = 0
        self.lexemes: list[Lexeme] = []
        self.remarks: list[Remark] = []
        # Items that were written as a word without quotes, by where they start, as they were written.
        self.bare: dict[int, str] = {}

    def run(self) -> list[Lexeme]:
        """The lexemes. `Refused` where the query has what is none, or is too long."""
        if len(self.query.encode(errors="replace")) > MOST_BYTES:
            raise Refused(Place(0, 1), "long", f"A query has at most {MOST_BYTES:,} bytes.")
        if entity := _ENTITY.search(self.plain):
            self.at = entity.end()
            raise self.refuse(entity.start(), "entity", f"{entity[0]} is a sign of HTML: write the sign itself.")
        while self._skip_blanks():
            self._next()
        return settled(self)

    def _skip_blanks(self) -> bool:
        while self.at < len(self.plain) and self.plain[self.at] == " ":
            self.at += 1
        return self.at < len(self.plain)

    def push(self, kind: Kind, start: int, load: Load = None) -> None:
        """Adds a lexeme that ends here."""
        self.lexemes.append(Lexeme(kind, Place(start, self.at), self.query[start:self.at], load))

    def remark(self, start: int, level: Level, rule: str, says: str) -> None:
        """Adds a remark on what stands from there to here."""
        self.remarks.append(Remark(Place(start, max(self.at, start + 1)), level, rule, says))

    def refuse(self, start: int, rule: str, says: str) -> Refused:
        """The refusal of what stands from there to here."""
        return Refused(Place(start, max(self.at, start + 1)), rule, says)

    def _next(self) -> None:
        sign = self.plain[self.at]
        if self._operator_phrase():
            return
        if sign == "/" and (found := _EXPRESSION.match(self.plain, self.at)):
            start, self.at = self.at, found.end()
            raise self.refuse(start, "regular_expression",
                              "Regular expressions can't be said: * and ? stand for letters.")
        if sign in "(),;|":
            self._sign(sign)
        elif sign == QUOTE or sign in SINGLE_QUOTES and self._has_single_quotes():
            self._quoted()
        elif sign in "[{":
            self._range(None)
        elif sign in "+-!" + DASHES and self._prefix(sign):
            pass
        else:
            self._word()

    def _sign(self, sign: str) -> None:
        start = self.at
        self.at += 2 if self.plain.startswith("||", start) else 1
        if sign == "(":
            self._need_no_word_before(start)
        kinds = {"(": Kind.OPEN, ")": Kind.CLOSE, "|": Kind.OR}
        self.push(kinds.get(sign, Kind.COMMA), start)
        if sign == ")" and self.at < len(self.plain) and (self.plain[self.at].isalnum() or self.plain[self.at] in "*?"):
            run = _RUN.match(self.plain, self.at)
            if run and run[0].upper() not in OPERATORS and not NEAR_WORD.fullmatch(run[0]):
                raise self.refuse(start, "parenthesis_in_word",
                                  "A parenthesis stands within a word: write both spellings, with OR between.")

    def _need_no_word_before(self, start: int) -> None:
        """Refuses `product(s)`."""
        last = self.lexemes[-1] if self.lexemes else None
        if last and last.kind is Kind.ITEM and last.place.end == start and last.place.start in self.bare:
            raise self.refuse(last.place.start, "parenthesis_in_word",
                              "A parenthesis stands within a word: write both spellings with OR between, or before it"
                              " a field that is known.")

    def _prefix(self, sign: str) -> bool:
        """Takes a sign before an item; False where it belongs to a word."""
        start = self.at
        after = self.plain[start + 1:start + 2]
        if sign == "+" and after == "+":
            return False
        if sign in "-" + DASHES and after in (" ", ""):
            self.at += 1
            raise self.refuse(start, "dash", "A dash between blanks can mean with, without, or to: write AND, NOT or OR.")
        if sign in DASHES:
            self.at += 1
            self.remark(start, Level.NOTICE, "dash_is_minus", "The dash is read as a minus: without what follows.")
            self.push(Kind.NOT, start)
            return True
        if sign == "-" and after in "-+!>" or after == "":
            self.at += 1
            raise self.refuse(start, "two_signs", "Two signs stand before one item: one is enough.")
        self.at += 1
        self.push(Kind.MUST if sign == "+" else Kind.NOT, start)
        return True

    def _operator_phrase(self) -> bool:
        """Takes an operator that is written in several words or with parentheses of its own."""
        start = self.at
        if start and (self.plain[start - 1].isalnum() or self.plain[start - 1] in "_:"):
            return False
        if found := _OF.match(self.plain, start):
            self.at = found.end()
            self.push(Kind.OF, start, {"any": 1, "all": MOST_OF}.get(found[1].lower()) or int(found[1]))
        elif found := _PLACES.match(self.plain, start):
            self.at = found.end()
            self.push(Kind.PLACES, start, int(found[1]))
        elif found := _AROUND.match(self.plain, start):
            self.at = found.end()
            self._within(start, Within(int(found[2] or found[3]), ordered=found[1] in NEAR_ORDERED))
        elif self.lexemes and (found := _WITHIN_WORDS.match(self.plain, start)):
            self.at = found.end()
            self._within(start, Within(int(found[1])))
        else:
            return False
        return True

    def _within(self, start: int, load: Within) -> None:
        """Adds nearness. With a NOT directly before it the left one stands with none of the right near it."""
        if load.unit is None and not 1 <= load.words <= MOST_WORDS_NEAR:
            raise self.refuse(start, "near_words", f"Nearness is 1 to {MOST_WORDS_NEAR:,} words.")
        if self.lexemes and self._is_not(self.lexemes[-1]):
            taken = self.lexemes.pop()
            start = taken.place.start
            load = Within(load.words, load.unit, load.ordered, unless=True)
        self.push(Kind.WITHIN, start, load)

    @staticmethod
    def _is_not(lexeme: Lexeme) -> bool:
        return lexeme.text.lower() == "not" and lexeme.kind in (Kind.NOT, Kind.ITEM)

    def _has_single_quotes(self) -> bool:
        """Whether single quotes open here and close before the end of a word."""
        return self._single_close() > 0

    def _single_close(self) -> int:
        if self.at and (self.plain[self.at - 1].isalnum() or self.plain[self.at - 1] in "_"):
            return -1
        close = SINGLE_QUOTES[self.plain[self.at]]
        found = re.compile(rf"\S(?:[^{close}]|[{close}](?=\w))*?[{close}](?!\w)").match(self.plain, self.at + 1)
        return found.end() - 1 if found else -1

    def _quoted(self) -> None:
        start = self.at
        if self.plain[start] == QUOTE:
            end = self._quote_end(start)
        else:
            end = self._single_close()
            self.remark(start, Level.NOTICE, "single_quotes", "Single quotes are read as quotes: the words in a row.")
        self.at = end + 1
        raw, plain = self.query[start + 1:end], self.plain[start + 1:end]
        exact = self.choices.exact_quotes
        if found := _WITHIN_QUOTES.search(plain):
            self.remark(start, Level.NOTICE, "operator_in_quotes", f"Within quotes {found[0]} is a word.")
        if (named := _NAMED.match(plain)) and named[1].lower() in EXACT:
            raw, plain, exact = raw[named.end():], plain[named.end():], True
        text = self._unescaped(raw, plain)
        if not text.strip():
            raise self.refuse(start, "empty_quotes", "Nothing stands between these quotes.")
        if self.plain.startswith("*", self.at):
            self.at += 1
            text += WILD_MANY
        self._close_term(start, Term(Place(start, self.at), text, quoted=True, exact=exact))

    def _close_term(self, start: int, term: Term) -> None:
        """Adds a term in quotes, with what stands behind the quotes."""
        if boost := _BOOST.match(self.plain, self.at):
            self.at = boost.end()
            self.remark(start, Level.NOTICE, "boost", "What stands behind ^ ranks, and changes no alert.")
        slop = _SLOP.match(self.plain, self.at)
        if not slop:
            self.push(Kind.ITEM, start, term)
            return
        self.at = slop.end()
        if not slop[1]:
            raise self.refuse(start, "fuzzy", "~ has no number: \"a b\"~5 has the words at most 5 moves apart.")
        if int(slop[1]) > MOST_WORDS_NEAR:
            raise self.refuse(start, "near_words", f"Nearness is 1 to {MOST_WORDS_NEAR:,} words.")
        self.push(Kind.ITEM, start, Slop(Place(start, self.at), term, int(slop[1])))

    def _quote_end(self, start: int) -> int:
        """Where the quote closes that opens here. One between Hebrew letters is of a word, and an escaped one too."""
        at = start + 1
        while at < len(self.plain):
            if self.plain[at] == "\\":
                at += 1
            elif self.plain[at] == QUOTE and not self._is_in_hebrew(at):
                return at
            at += 1
        self.at = start + 1
        raise self.refuse(start, "open_quote", "This quote is not closed.")

    def _is_in_hebrew(self, at: int) -> bool:
        return bool(at + 1 < len(self.plain) and HEBREW.match(self.plain[at - 1]) and HEBREW.match(self.plain[at + 1]))

    def _unescaped(self, raw: str, plain: str) -> str:
        """A term without its escapes, with letters for its wildcards."""
        made: list[str] = []
        is_escaped = False
        for given, sign in zip(raw, plain):
            if not is_escaped and sign == "\\":
                is_escaped = True
                continue
            wild = {"*": WILD_MANY, "?": WILD_ONE}.get(sign) if not is_escaped else None
            made.append(wild or (sign if sign == '"' else given))
            is_escaped = False
        return "".join(made)

    def _range(self, field: str | None) -> None:
        """A range in brackets, or a word in braces, whose capitals count."""
        start = self.at
        if found := _RANGE.match(self.plain, start):
            self.at = found.end()
            low, high = (None if end == "*" else end.strip('"') for end in (found[2], found[3]))
            self.push(Kind.ITEM, start, Range(Place(start, self.at), field or "text", low, high,
                                              with_low=found[1] == "[", with_high=found[4] == "]"))
            return
        close = self.plain.find("}", start)
        if self.plain[start] == "{" and close > start + 1:
            self.at = close + 1
            term = Term(Place(start, self.at), self._unescaped(self.query[start + 1:close], self.plain[start + 1:close]),
                        quoted=True, exact=True)
            self.push(Kind.ITEM, start, term)
            return
        self.at += 1
        raise self.refuse(start, "range", "This is no range: [low TO high], with * for an open end.")

    def _word(self) -> None:
        """A word, an operator, or a field's name before one."""
        start = self.at
        if self._comparison():
            return
        named = _NAMED.match(self.plain, start)
        if named and not self.plain.startswith("*:*", start) and self._field(named):
            return
        if share := _SHARE.match(self.plain, start):
            self.at = share.end()
            self._bare_word(start, share[0])
            return
        if self.plain.startswith('\\"', start):
            self.at += 2
            raise self.refuse(start, "escaped_quote", "A backslash makes a sign of this quote: take it away.")
        run = _RUN.match(self.plain, start)
        if not run:
            self.at += 2 if self.plain.startswith("&&", start) else 1
            if self.plain.startswith("&&", start):
                self.push(Kind.AND, start)
                return
            raise self.refuse(start, "sign", f"{self.query[start]} stands here for nothing that can be said.")
        self.at = run.end()
        if not self._operator(start, run[0]):
            self._bare_word(start, run[0])

    def _comparison(self) -> bool:
        """Takes `reach>1000`, `date >= 2026-01-01` and `la=en`, where the name is a field's."""
        start = self.at
        found = _COMPARED.match(self.plain, start)
        name = self._field_name(found[1]) if found else None
        if not found:
            return False
        self.at = found.end()
        if name is None:
            raise self.refuse(start, "unknown_field",
                              f"{found[1]} is no field that is known: write \\ before the sign in a word, or quotes.")
        sign = found[2].strip().lstrip(":").strip()
        if sign == "=":
            self.push(Kind.FIELD, start, FieldOf(name))
            return True
        self._bound(start, name, sign)
        return True

    def _bound(self, start: int, name: str, sign: str) -> None:
        """A range of a field that is open at one end."""
        value = _VALUE.match(self.plain, self.at)
        if not value:
            raise self.refuse(start, "range", f"Nothing stands behind {sign}.")
        self.at = value.end()
        text = value[0].strip('"')
        low, high = (text, None) if sign[0] == ">" else (None, text)
        self.push(Kind.ITEM, start, Range(Place(start, self.at), name, low, high, "=" in sign, "=" in sign))

    def _field_name(self, written: str) -> str | None:
        """The field of a name that is known, or None."""
        name = self.choices.aliases.get(written.lower(), written.lower())
        return name if name in self.known or written.lower() in self.choices.aliases else None

    def _field(self, named: re.Match[str]) -> bool:
        """Takes a field's name and what belongs to it; False where the name is part of a word."""
        start = self.at
        written, small = named[1], named[1].lower()
        self.at = named.end()
        if small in EXACT:
            self.push(Kind.FIELD, start, FieldOf("", exact=True))
        elif small in ("has", "_exists_"):
            self._has(start)
        elif small in _DATE_BOUNDS and self.plain[self.at:self.at + 1].isdigit():
            self._bound(start, "date", _DATE_BOUNDS[small])
        elif small == "hashtag":
            self._hashtag(start)
        else:
            name = self._field_name(written)
            if name is None:
                name = self._unknown_field(start, written)
            self._field_value(start, name)
        return True

    def _unknown_field(self, start: int, written: str) -> str:
        """A name that the profile doesn't know: taken where it is written as one, with a remark."""
        after = self.plain[self.at:self.at + 1]
        if after in ("<", ">"):
            raise self.refuse(start, "unknown_field", f"{written} is no number and no day in the profile's [kinds].")
        if after in ("", " ") or not re.fullmatch(r"[a-z_][a-z0-9_]{0,63}", written):
            raise self.refuse(start, "unknown_field",
                              f"{written} is no field that is known: write \\: for a colon in a word, or quotes.")
        self.remark(start, Level.WARNING, "unknown_field",
                    f"The profile knows no field {written}: articles are searched that have one of this name.")
        return written

    def _has(self, start: int) -> None:
        value = _RUN.match(self.plain, self.at)
        if not value or not re.fullmatch(r"[A-Za-z_][A-Za-z0-9_]*", value[0]):
            raise self.refuse(start, "has", "A field's name stands behind has:, as in has:author.")
        self.at = value.end()
        name = self.choices.aliases.get(value[0].lower(), value[0].lower())
        self.push(Kind.ITEM, start, Has(Place(start, self.at), name))

    def _hashtag(self, start: int) -> None:
        value = _RUN.match(self.plain, self.at)
        if not value:
            raise self.refuse(start, "hashtag", "A word stands behind hashtag:, as in hashtag:metoo.")
        self.at = value.end()
        self._bare_word(start, "#" + value[0].lstrip("#"))

    def _field_value(self, start: int, name: str) -> None:
        """What stands behind a field's name: a range, a value, or any item."""
        rest = self.plain[self.at:]
        if re.match(r"\*(?=[\s)]|$)", rest):
            self.at += 1
            self.push(Kind.ITEM, start, Has(Place(start, self.at), name))
        elif rest[:1] in ("[", "{"):
            self._range(name)
        elif (spread := _SPREAD.match(rest)) and spread[1][-1:].isdigit():
            self.at += spread.end()
            low, high = (None if end == "*" else end for end in spread.groups())
            self.push(Kind.ITEM, start, Range(Place(start, self.at), name, low, high))
        else:
            self.push(Kind.FIELD, start, FieldOf(name))
            if re.match(r"[-+!]", rest):
                self.at += 1
                raise self.refuse(start, "two_signs", f"The sign stands before the field: {rest[0]}{name}:..")

    def _operator(self, start: int, run: str) -> bool:
        """Takes an operator's word; False where it is another word."""
        if run in OPERATORS:
            self._logical(start, run)
            return True
        if re.fullmatch(r"(?i:and/or|und/oder|et/ou)", run):
            raise self.refuse(start, "and_or", f"{run} is no operator: OR has one of the two or both.")
        if SEGMENT_WORD.fullmatch(run):
            raise self.refuse(start, "segment", f"Articles have no segments: write a field before each word for {run}.")
        if same := SAME_WORD.fullmatch(run):
            unit = Unit.SENTENCE if same["unit"].lower().startswith("s") else Unit.PARAGRAPH
            self._within(start, Within(unit=unit, ordered=(same["word"] or "").upper() == "PRE"))
            return True
        if near := NEAR_WORD.fullmatch(run):
            return self._near(start, near)
        return self._alone(start, run)

    def _logical(self, start: int, run: str) -> None:
        word = OPERATORS[run]
        if word in (Word.AND, Word.AND_NOT):
            self.push(Kind.AND, start)
        if word in (Word.NOT, Word.AND_NOT):
            self.push(Kind.NOT, start)
        if word is Word.OR:
            self.push(Kind.OR, start)
        if run == "&":
            self.remark(start, Level.NOTICE, "ampersand",
                        "& between blanks is AND: quotes make a name of it, as in \"Procter & Gamble\".")

    def _near(self, start: int, near: re.Match[str]) -> bool:
        word = (near["word"] or "").upper()
        if not near["mark"] and word not in ("NEAR", "ONEAR", "ADJ"):
            return False
        self._within(start, Within(int(near["number"]), ordered=word in NEAR_ORDERED or bool(near["forward"])))
        return True

    def _alone(self, start: int, run: str) -> bool:
        """Nearness in capitals and without a number."""
        if run not in NEAR_ALONE and run not in SAME_ALONE or not self.lexemes:
            return False
        if run in SAME_ALONE:
            self._within(start, Within(unit=Unit.PARAGRAPH))
            return True
        self._within(start, Within(self.choices.near, ordered=run in NEAR_ORDERED))
        self.remark(start, Level.NOTICE, "near_without_number",
                    f"{run} without a number is {run}/{self.choices.near}: at most so many words apart.")
        return True

    def _bare_word(self, start: int, run: str) -> None:
        """A word without quotes."""
        if run == "*:*":
            self.push(Kind.ITEM, start, Every(Place(start, self.at)))
            return
        if self.plain.startswith("(", self.at) and (name := self._field_name(run)):
            self.push(Kind.FIELD, start, FieldOf(name))
            return
        raw = self.query[self.at - len(run):self.at]
        if self.plain[start:self.at] != run:
            raw = run
        run, raw = self._without_ends(start, run, raw)
        self.bare[start] = run
        text = self._unescaped(raw, run)
        self.push(Kind.ITEM, start, Term(Place(start, self.at), text))

    def _without_ends(self, start: int, run: str, raw: str) -> tuple[str, str]:
        """A word and its spelling, without a boost; what can't be said is refused."""
        if re.fullmatch(r"[*?]+", run):
            raise self.refuse(start, "lone_wildcard", "A wildcard stands alone: *:* is each article, and in quotes"
                              " * is any one word.")
        if re.search(r"(?<!\\)~\d*(?:\.\d+)?$", run) or run.startswith("~"):
            raise self.refuse(start, "fuzzy", "Words like another can't be said: write their spellings with OR.")
        if re.fullmatch(r"\W?\d[\d.,]*\.\.\W?\d[\d.,]*", run):
            raise self.refuse(start, "spread", "A range of numbers has a field before it, as in reach:1000..5000.")
        if _CUT_SHORT.fullmatch(run):
            raise self.refuse(start, "cut_short", "$ cuts no word short: * stands for any letters.")
        if boost := re.search(r"(?<!\\)\^\d+(?:\.\d+)?$", run):
            self.remark(start, Level.NOTICE, "boost", "What stands behind ^ ranks, and changes no alert.")
            run, raw = run[:boost.start()], raw[:boost.start()]
        if run.endswith("!") and len(run) > 1:
            self.remark(start, Level.NOTICE, "exclamation",
                        "The ! at the end counts for nothing: * stands for any other end of a word.")
            run, raw = run.rstrip("!"), raw.rstrip("!！")
        return run, raw
