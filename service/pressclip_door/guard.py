"""What stands before each handler: names of requests, whose they are, what they may take, and refusals."""

from __future__ import annotations

import re
import secrets
import time
from collections import OrderedDict
from typing import Any, Awaitable, Callable, Sequence, TypeVar
from urllib.parse import unquote_to_bytes, urlsplit

from aiohttp import hdrs, web

from pressclip_service.errors import EngineFailed

from .courier import NotSpooled
from .door import Door
from .pipe import Behind, Ended
from .problems import Problem
from .tokens import ANYBODY, Role, Token, token_given

Handler = Callable[[web.Request], Awaitable[web.StreamResponse]]
Middleware = Callable[[web.Request, Handler], Awaitable[web.StreamResponse]]
Handling = TypeVar("Handling", bound=Callable[..., Any])
SAFE_METHODS = ("GET", "HEAD")
MOST_HEADERS = 100
MOST_CLIENTS = 10_000
SECURITY_HEADERS = {
    "Content-Security-Policy": "default-src 'self'; base-uri 'none'; form-action 'self'; frame-ancestors 'none'",
    "X-Content-Type-Options": "nosniff",
    "Referrer-Policy": "no-referrer",
    "Cross-Origin-Resource-Policy": "same-origin",
}
_REQUEST_ID = re.compile(r"[A-Za-z0-9._-]{1,64}")
_STATUS_WORDS = {404: "path", 405: "method", 413: "body"}
_SINGLE = (b"transfer-encoding", b"content-length", b"content-type", b"authorization", b"host")
_LOCAL_NAMES = ("127.0.0.1", "localhost", "[::1]")
_PORT = re.compile(r":\d*$")


def needs(role: Role) -> Callable[[Handling], Handling]:
    """Marks a handler by the role that its callers need, where that is not READ for GET and WRITE for all else."""

    def mark(handling: Handling) -> Handling:
        setattr(handling, "role", role)
        return handling

    return mark


def problem_of(error: Exception) -> Problem:
    """The problem that an error is."""
    if isinstance(error, Problem):
        return error
    if isinstance(error, Behind):
        return Problem("behind", headers={"Retry-After": "1"})
    if isinstance(error, (Ended, EngineFailed)):
        return Problem("ended", str(error), {"Retry-After": "1"})
    if isinstance(error, NotSpooled):
        return Problem("spool", str(error), {"Retry-After": "10"})
    if isinstance(error, web.HTTPException):
        headers = {"Allow": error.headers["Allow"]} if "Allow" in error.headers else {}
        return Problem(_STATUS_WORDS.get(error.status, "request"), headers=headers)
    if isinstance(error, web.RequestPayloadError):
        return Problem("request", "the body is cut, or not framed as its header says")
    return Problem("fault")


class Rates:
    """How many requests each client may still make: so many a second, and a burst of more."""

    def __init__(self, a_second: float, burst: int) -> None:
        self._a_second = a_second
        self._burst = float(burst)
        self._left: OrderedDict[str, tuple[float, float]] = OrderedDict()

    def take(self, client: str) -> float:
        """Counts a request. 0 where it may be made, or the seconds until it may."""
        now = time.monotonic()
        left, at = self._left.pop(client, (self._burst, now))
        left = min(self._burst, left + (now - at) * self._a_second)
        wait = 0.0 if left >= 1 else (1 - left) / self._a_second
        self._left[client] = (left if wait else left - 1, now)
        if len(self._left) > MOST_CLIENTS:
            self._left.popitem(last=False)
        return wait


class Guard:
    """Looks at each request before its handler."""

    def __init__(self, door: Door, tokens: Sequence[Token]) -> None:
        self._door = door
        self._tokens = tokens
        self._rates = Rates(door.settings.limits.requests_a_second, door.settings.limits.burst)
        self._names = {name.lower() for name in door.settings.names} or (
            None if tokens else set(_LOCAL_NAMES))

    def look(self, request: web.Request) -> None:
        """`Problem` where the request may not go on."""
        self._look_at_form(request)
        self._look_at_names(request)
        token = self._token_of(request)
        wait = self._rates.take(token.name if token and self._tokens else str(request.remote))
        if wait:
            raise Problem("rate", headers={"Retry-After": str(int(wait) + 1)})
        role = role_of(request)
        if self._tokens and role is not Role.OPEN:
            if token is None:
                raise Problem("token", headers={"WWW-Authenticate": "Bearer"})
            if token.role < role:
                raise Problem("role", f"this needs a token of the role {role.name.lower()}")
        if self._door.is_draining and role is not Role.OPEN:
            raise Problem("draining", headers={"Retry-After": "5"})

    def _look_at_form(self, request: web.Request) -> None:
        """Refuses what two servers in a row could read in two ways, and what is too large."""
        headers = request.headers
        if len(headers) > MOST_HEADERS:
            raise Problem("headers", f"at most {MOST_HEADERS} header fields are taken")
        if hdrs.TRANSFER_ENCODING in headers and hdrs.CONTENT_LENGTH in headers:
            raise Problem("request", "a body has a length or a transfer encoding, and not both")
        names = [name.lower() for name, _ in request.raw_headers]
        if len(set(names)) < len(names) and any(names.count(name) > 1 for name in _SINGLE):
            raise Problem("request", "a header field is there twice that may be there once")
        if headers.get(hdrs.TRANSFER_ENCODING, "chunked").strip().lower() != "chunked":
            raise Problem("request", "the only transfer encoding is chunked")
        if headers.get(hdrs.CONTENT_ENCODING, "identity").strip().lower() != "identity":
            raise Problem("encoding", "send the body as it is")
        try:
            if "%" in request.raw_path:
                unquote_to_bytes(request.raw_path).decode()
        except UnicodeDecodeError:
            raise Problem("request", "the address is not of UTF-8") from None

    def _look_at_names(self, request: web.Request) -> None:
        """Refuses names of others, and pages of others; a link of theirs may lead to what needs no token."""
        hosts: list[str] = request.headers.getall(hdrs.HOST, [])
        if len(hosts) != 1:
            raise Problem("request", "a request has one Host")
        name = hosts[0].lower()
        if self._names is not None and _PORT.sub("", name) not in self._names:
            raise Problem("host", f"the names of this service are {', '.join(sorted(self._names))}")
        origin = request.headers.get(hdrs.ORIGIN)
        is_foreign = origin is not None and urlsplit(origin).netloc.lower() != name
        is_visit = request.headers.get("Sec-Fetch-Mode") == "navigate" and role_of(request) is Role.OPEN
        if is_foreign or (request.headers.get("Sec-Fetch-Site") == "cross-site" and not is_visit):
            raise Problem("origin")

    def _token_of(self, request: web.Request) -> Token | None:
        """The token of a request; where there are no tokens, that of anybody."""
        if not self._tokens:
            return ANYBODY
        return token_given(self._tokens, request.headers.get(hdrs.AUTHORIZATION, ""))


def role_of(request: web.Request) -> Role:
    """The role that a request needs."""
    role: Role | None = getattr(request.match_info.handler, "role", None)
    if role is not None:
        return role
    return Role.READ if request.method in SAFE_METHODS else Role.WRITE


def guarding(door: Door, tokens: Sequence[Token]) -> Middleware:
    """The middleware of the application."""
    guard = Guard(door, tokens)

    @web.middleware
    async def answer(request: web.Request, handler: Handler) -> web.StreamResponse:
        start = time.perf_counter()
        given = request.headers.get("X-Request-Id", "")
        request["id"] = name = given if _REQUEST_ID.fullmatch(given) else secrets.token_hex(8)
        door.handled += 1
        try:
            guard.look(request)
            response = await handler(request)
        except Exception as error:
            if request.writer.output_size:
                door.log.event("broken off", id=name, error=repr(error))
                raise ConnectionResetError("the answer had begun") from error
            response = refused(door, name, error)
        finally:
            door.handled -= 1
        door.metrics.count_request(request.method if response.status != 405 else "other", response.status)
        door.log.soon("request", id=name, method=request.method, path=request.path, status=response.status,
                       ms=round(1e3 * (time.perf_counter() - start), 2))
        return response

    return answer


def refused(door: Door, name: str, error: Exception) -> web.Response:
    """The answer to a request that is refused."""
    problem = problem_of(error)
    if problem.word == "fault":
        door.log.event("fault", id=name, error=repr(error))
    door.metrics.problems.labels(problem.word).inc()
    problem.members.setdefault("request", name)
    return problem.response()


async def sign(request: web.Request, response: web.StreamResponse) -> None:
    """Puts on each answer, before it is sent, what all have."""
    headers = response.headers
    headers.setdefault("X-Request-Id", request.get("id", ""))
    for name, value in SECURITY_HEADERS.items():
        headers.setdefault(name, value)
    headers["Server"] = "pressclip"
