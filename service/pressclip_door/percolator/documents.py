"""Documents as articles of the engine."""

from __future__ import annotations

from dataclasses import dataclass, field
from typing import Any, Iterable, Iterator

from .leaves import text_of_value, word_of_value
from .mapping import PRESENT, Field, FieldMap, Kind, above
from .part import Part
from .trouble import Trouble
from .values import Unfit, decimal_of, integer_word, keyword_word, within
from .words import BETWEEN

MOST_DEPTH = 30
# Between the values of a text stands a word of its own, on a line of its own.
_GAP = f"\n{BETWEEN}\n"


@dataclass
class Document:
    """A document: by each field its values as the engine has them, texts or words; and which fields have values."""

    values: dict[str, list[str]] = field(default_factory=dict)
    present: set[str] = field(default_factory=set)

    def article_fields(self, fields: FieldMap, engine_names: Iterable[str]) -> dict[str, str]:
        """The texts of those of the engine's fields that are asked for."""
        texts = {one.engine: (_GAP if one.kind is Kind.TEXT else " ").join(self.values[path])
                 for path, one in fields.fields.items() if path in self.values}
        texts[PRESENT] = " ".join(keyword_word(path) for path in sorted(self.present))
        return {name: texts[name] for name in engine_names if name in texts}


def document_of(fields: FieldMap, part: Part) -> Document:
    """The fields of a document that the mapping has; `Trouble` where a value is none of its field's type."""
    found = Document()
    part.members()
    for path, value in _values(part, fields, "", 0):
        if path in fields.objects:
            raise unfit(path, "object", value, "a value stands where an object has to")
        for one in fields.by_source.get(path, ()):
            _take(found, one, value)
    return found


def _values(part: Part, fields: FieldMap, path: str, depth: int) -> Iterator[tuple[str, Part]]:
    """Each value that is no object and not null, with the path of its field."""
    if isinstance(part.value, list):
        for one in part.items():
            yield from _values(one, fields, path, depth)
    elif path == fields.query:
        return
    elif isinstance(part.value, dict):
        if path in fields.by_source:
            raise unfit(path, fields.by_source[path][0].type, part, "an object stands where a value has to")
        if depth > MOST_DEPTH:
            raise Trouble("mapper_parsing_exception", f"[{part.place}]: objects stand in each other {MOST_DEPTH} deep"
                                                      " at most")
        for name, one in part.members().items():
            yield from _values(one, fields, f"{path}.{name}" if path else name, depth + 1)
    elif part.value is not None:
        yield path, part


def _take(found: Document, one: Field, value: Part) -> None:
    """Takes a value of a field."""
    try:
        written = written_value(one, value.scalar())
        if one.kind in (Kind.TEXT, Kind.WHOLE):
            value.written(text_of_value(value.value))
    except (Unfit, Trouble) as error:
        raise unfit(one.path, one.type, value, str(error)) from None
    if written is None:
        return
    found.values.setdefault(one.path, []).append(written)
    found.present.add(one.path)
    found.present.update(above(one.source))


def written_value(one: Field, value: Any) -> str | None:
    """The text or the word of a value; None where it counts for nothing."""
    if one.kind is Kind.TEXT:
        return text_of_value(value)
    if one.kind is Kind.WHOLE:
        is_left_out = one.most_characters is not None and utf16_length(text_of_value(value)) > one.most_characters
        return None if is_left_out else word_of_value(one, value)
    if isinstance(value, str) and not value.strip() and one.kind is not Kind.TRUTH:
        return None
    if one.kind is Kind.INTEGER:
        return integer_word(within(int(decimal_of(value)), one.type))
    return word_of_value(one, value)


def utf16_length(text: str) -> int:
    """How many units of UTF-16 a text has."""
    return len(text.encode("utf-16-le", errors="surrogatepass")) // 2


def unfit(path: str, kind: str, value: Part, why: str) -> Trouble:
    """That a value is none of its field's type."""
    return Trouble("mapper_parsing_exception", f"failed to parse field [{path}] of type [{kind}] at [{value.place}]:"
                                               f" {why}")
