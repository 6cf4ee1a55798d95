"""Refusals in the form of Elasticsearch's errors."""

from __future__ import annotations

from typing import Any

Json = dict[str, Any]


class Trouble(Exception):
    """A refusal: the status, the type that Elasticsearch gives it, and why."""

    def __init__(self, kind: str, reason: str, status: int = 400, **members: object) -> None:
        super().__init__(reason)
        self.kind = kind
        self.reason = reason
        self.status = status
        self.members = members

    def cause(self) -> Json:
        """What is said of it."""
        return {"type": self.kind, "reason": self.reason, **self.members}

    def document(self) -> Json:
        """The body of the answer."""
        return {"error": {"root_cause": [self.cause()], **self.cause()}, "status": self.status}


def not_served(what: str, place: str, why: str) -> Trouble:
    """That a form is not served, at a place of the request, and why."""
    return Trouble("parsing_exception", f"[{what}] at [{place}] is not served: {why}")


def malformed(place: str, why: str) -> Trouble:
    """That a place of the request is not of its form."""
    return Trouble("parsing_exception", f"[{place}]: {why}")


def bad_query(reason: str) -> Trouble:
    """That a query does not fit the mapping."""
    return Trouble("query_shard_exception", reason)


def no_index(name: str) -> Trouble:
    """That there is no such index."""
    return Trouble("index_not_found_exception", f"no such index [{name}]", 404, index=name, index_uuid="_na_",
                   **{"resource.type": "index_or_alias", "resource.id": name})
