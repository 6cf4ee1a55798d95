"""Queries of queries: `bool`, `constant_score`, `dis_max`, and those that hold of all documents or of none."""

from __future__ import annotations

from .counting import asked_for, at_least
from .part import Options, Part
from .reader import Reader, form
from .tree import All, Group, Never, Node, either


@form("match_all")
async def match_all(reader: Reader, part: Part) -> Node:
    """Each document."""
    Options(part, "match_all").end()
    return All()


@form("match_none")
async def match_none(reader: Reader, part: Part) -> Node:
    """No document."""
    Options(part, "match_none").end()
    return Never()


@form("constant_score")
async def constant_score(reader: Reader, part: Part) -> Node:
    """The query that it filters by."""
    options = Options(part, "constant_score")
    node = await reader.read(options.need("filter"))
    options.end()
    return node


@form("dis_max")
async def dis_max(reader: Reader, part: Part) -> Node:
    """One of its queries."""
    options = Options(part, "dis_max")
    nodes = [await reader.read(query) for query in options.need("queries").items()]
    options.end()
    return either(nodes)


@form("bool")
async def boolean(reader: Reader, part: Part) -> Node:
    """Clauses that must hold, must not, and of which so many should: one where nothing must hold, none else."""
    options = Options(part, "bool")
    must = [*await clauses(reader, options, "must"), *await clauses(reader, options, "filter")]
    should = await clauses(reader, options, "should")
    must_not = await clauses(reader, options, "must_not")
    spec = options.take("minimum_should_match")
    keeps_negative = (options.take("adjust_pure_negative") or Part(True, "")).truth()
    options.end()
    if not must and not should and not must_not:
        return All()
    least = 0 if spec is None else asked_for(spec, len(should))
    if should and not must:
        least = max(least, 1)
    if least:
        must.append(at_least(least, should, part.place))
    elif not must and not keeps_negative:
        return Never()
    return must[0] if len(must) == 1 and not must_not else Group(must=tuple(must), must_not=tuple(must_not))


async def clauses(reader: Reader, options: Options, name: str) -> list[Node]:
    """The clauses of one kind."""
    found = options.take(name)
    return [] if found is None else [await reader.read(clause) for clause in found.items()]
