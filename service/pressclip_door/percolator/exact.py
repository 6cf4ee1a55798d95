"""Queries for values as they stand: `term`, `terms`, `prefix`, `range` and `exists`."""

from __future__ import annotations

from dataclasses import replace

from .dates import known_format
from .leaves import Bound
from .mapping import Field, Kind
from .part import Options, Part
from .reader import MOST_PARTS, Reader, form, too_large
from .trouble import malformed, not_served
from .tree import Node, either

_UTC = ("Z", "UTC", "+00:00", "+0000", "+00")


@form("term")
async def term(reader: Reader, part: Part) -> Node:
    """A value, or a word of a text."""
    field, value, options = reader.of_field(part, "term", "value")
    any_case = is_in_any_case(options)
    options.end()
    return await reader.leaves.term(field, value, any_case)


@form("prefix")
async def prefix(reader: Reader, part: Part) -> Node:
    """How a value, or a word of a text, begins."""
    field, value, options = reader.of_field(part, "prefix", "value")
    any_case = is_in_any_case(options)
    options.end()
    return reader.leaves.front(field, value, any_case)


@form("terms")
async def terms(reader: Reader, part: Part) -> Node:
    """One of several values."""
    members = part.members()
    named = [name for name in members if name not in ("boost", "_name")]
    if len(named) != 1:
        raise malformed(part.place, "[terms] needs one field")
    values = members.pop(named[0])
    Options(Part({name: one.value for name, one in members.items()}, part.place), "terms").end()
    if isinstance(values.value, dict):
        raise not_served("terms", values.place, "terms of another document are not looked up: list them")
    if not isinstance(values.value, list):
        raise malformed(values.place, "[terms] needs a list")
    if len(values.value) > MOST_PARTS:
        raise too_large("terms", values)
    field = reader.field(part.at(named[0], named[0]))
    return either([await reader.leaves.term(field, value) for value in values.items()])


@form("range")
async def span(reader: Reader, part: Part) -> Node:
    """A value, or a word of a text, between two ends."""
    path, below = part.only()
    field = reader.field(part.at(path, path))
    options = Options(below, "range")
    low = bound_of(options, "gt", "gte", ("from", "include_lower"))
    high = bound_of(options, "lt", "lte", ("to", "include_upper"))
    field = with_format(field, options)
    options.end()
    return reader.leaves.span(field, low, high)


def bound_of(options: Options, open_name: str, closed_name: str, old: tuple[str, str]) -> Bound | None:
    """An end of a range, if it has one, by each of its names."""
    excluded, included, named = options.take(open_name), options.take(closed_name), options.take(old[0])
    flag = options.take(old[1])
    given = [one for one in (excluded, included, named) if one is not None]
    if len(given) > 1:
        raise malformed(given[1].place, "this end of the range is given twice")
    if not given:
        return None
    given[0].scalar()
    return Bound(given[0], excluded is None and (named is None or flag is None or flag.truth()))


def with_format(field: Field, options: Options) -> Field:
    """The field as a range reads its dates; another zone than UTC is refused."""
    form_given, zone = options.take("format"), options.take("time_zone")
    if zone is not None and zone.value not in _UTC:
        raise not_served("time_zone", zone.place, "write the zone with the dates, as 2020-01-01T00:00:00+02:00")
    if form_given is None:
        return field
    if field.kind is not Kind.DATE or not known_format(form_given.text()):
        raise not_served("format", form_given.place, f"[{form_given.value}] is not read here")
    return replace(field, format=form_given.text())


@form("exists")
async def exists(reader: Reader, part: Part) -> Node:
    """Whether a field, or one of an object's, has a value."""
    options = Options(part, "exists")
    path = options.need("field")
    options.end()
    name = path.text()
    if name not in reader.fields.objects:
        reader.field(path)
    return reader.leaves.present([name])


def is_in_any_case(options: Options) -> bool:
    """Whether the case of letters is passed over."""
    part = options.take("case_insensitive")
    return part is not None and part.truth()
