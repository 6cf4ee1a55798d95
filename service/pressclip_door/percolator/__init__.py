"""The percolator's address: the part of Elasticsearch's API that percolation needs, below `/elasticsearch`."""

from __future__ import annotations

from aiohttp import web

from ..door import Door
from ..guard import needs
from ..settings import PRESS
from ..tokens import Role
from .answers import Handler, handled
from .handlers import OfDocuments, OfIndices, OfSearches
from .indices import Indices
from .trouble import Trouble

PREFIX = "/elasticsearch"
INDEX = "/{index:[^_/][^/]*}"


async def refused(request: web.Request) -> web.StreamResponse:
    """Refuses all where the engine reads queries in another dialect than those that are made here."""
    raise Trouble("illegal_argument_exception", f"the service has the dialect {PRESS}, and takes no queries of Elasticsearch")


def routes(door: Door) -> list[web.RouteDef]:
    """Its routes, each with the role that its callers need, where that is not told by its method."""
    if door.settings.dialect == PRESS:
        return [web.route("*", PREFIX + "{rest:.*}", handled(refused))]
    indices = Indices(door)
    of_indices, of_documents, of_searches = OfIndices(indices), OfDocuments(indices), OfSearches(indices)
    handlers: list[tuple[str, str, Handler, Role | None]] = [
        ("GET", "", of_indices.about, None), ("GET", "/", of_indices.about, None),
        ("GET", "/_cluster/health", of_indices.health, None),
        ("POST PUT", "/_bulk", of_documents.bulk, None), ("POST PUT", "/{index}/_bulk", of_documents.bulk, None),
        ("GET POST", "/_refresh", of_indices.refresh, Role.READ),
        ("GET POST", "/{index}/_refresh", of_indices.refresh, Role.READ),
        ("GET POST", "/{index}/_search", of_searches.search, Role.READ),
        ("GET POST", "/{index}/_count", of_searches.count, Role.READ),
        ("GET", "/{index}/_mapping", of_indices.mapping, None),
        ("PUT POST", "/{index}/_mapping", of_indices.extend, None),
        ("POST", "/{index}/_doc", of_documents.put, None), ("PUT POST", "/{index}/_doc/{id}", of_documents.put, None),
        ("PUT POST", "/{index}/_create/{id}", of_documents.put, None),
        ("GET", "/{index}/_doc/{id}", of_documents.get, None),
        ("DELETE", "/{index}/_doc/{id}", of_documents.delete, None),
        ("GET", "/{index}/_source/{id}", of_documents.source, None), ("PUT", INDEX, of_indices.create, None),
        ("GET", INDEX, of_indices.get, None), ("DELETE", INDEX, of_indices.drop, Role.ADMIN),
        ("*", "/{rest:.*}", of_indices.unknown, None)]
    found: list[web.RouteDef] = []
    for methods, path, handler, role in handlers:
        answering = handled(handler) if role is None else needs(role)(handled(handler))
        found += [web.route(method, PREFIX + path, answering) for method in methods.split()]
    return found
