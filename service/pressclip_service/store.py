"""Redis as the grid uses it: each call is made again until Redis answers it."""

from __future__ import annotations

import secrets
import threading
import time
from typing import Any, Callable, Mapping, Sequence, TypeVar

import redis
from redis.exceptions import ConnectionError as Unreachable
from redis.exceptions import NoScriptError, ResponseError
from redis.exceptions import TimeoutError as TimedOut

from .errors import ServiceError, tell
from .names import Id, Names, Settings
from .place import VERSION
from .scripts import SETTINGS
from .troubles import is_passing, words_of
from .wire import Channel, Wire

REDIS_VARIABLE = "PRESSCLIP_REDIS"
PAUSE_SECONDS = 0.1
BLOCK_MILLISECONDS = 1_000
TIMEOUT_SECONDS = 30.0
# So long a role waits for a grid that another is about to make.
MADE_SECONDS = 10.0
# What Redis is to be set to, the first of each before all.
_SETTINGS = {"appendonly": ("yes",), "appendfsync": ("always", "everysec"), "aof-load-truncated": ("no",),
             "maxmemory-policy": ("noeviction",)}

Entry = tuple[Id, Mapping[bytes, bytes]]
Result = TypeVar("Result")


class RedisRefused(ServiceError):
    """Redis answered with an error that does not pass."""


class RequestsLost(ServiceError):
    """Redis forgot requests that entered."""


class NoGrid(ServiceError):
    """The grid was never made, or is gone from Redis."""

    @staticmethod
    def gone(grid: str) -> NoGrid:
        """It was there before."""
        return NoGrid(f"the grid {grid} is gone from Redis, as after FLUSHALL or with an empty folder, or was made anew"
                      " since: make it with 'grid init', and register its queries again")


def pool_of(url: str) -> redis.ConnectionPool:
    """Connections to the Redis of a URL. Where it is to show a certificate, that has to be of the name in the URL."""
    is_checked = url.startswith("rediss:") and "ssl_cert_reqs=" not in url
    checked: dict[str, Any] = {"ssl_check_hostname": True} if is_checked else {}
    try:
        return redis.ConnectionPool.from_url(url, socket_timeout=TIMEOUT_SECONDS, socket_connect_timeout=5.0,
                                             health_check_interval=0, **checked)
    except ValueError as error:
        raise ServiceError(f"Redis can't be found by its URL: {error}") from None


def entries_of(raw: Sequence[Any]) -> list[Entry]:
    """Entries of a stream as Redis gave them."""
    return [(Id.of(key), dict(zip(fields[::2], fields[1::2]))) for key, fields in raw]


class Store:
    """A connection of one program of the grid, by its name on standard error."""

    def __init__(self, url: str, grid: str, program: str) -> None:
        self.names = Names(grid)
        self.program = program
        self._pool = pool_of(url)
        self._redis = redis.Redis(connection_pool=self._pool)
        self._wires = threading.local()
        # The last request that is known here.
        self.last_read = Id(0, 0)
        self._is_told_gone = False
        self._shas: dict[str, bytes] = {}

    def do(self, call: Callable[[redis.Redis[bytes]], Result]) -> Result:
        """The result of the call, which is made again until Redis answers."""
        was_gone = False
        while True:
            try:
                if was_gone:
                    self._see_that_nothing_is_lost()
                result = call(self._redis)
                if was_gone and self._is_told_gone:
                    self._is_told_gone = False
                    tell(self.program, "Redis is back")
                return result
            except (Unreachable, TimedOut, ResponseError) as error:
                if not is_passing(error):
                    raise RedisRefused(f"Redis refuses: {words_of(error)}") from error
                if not self._is_told_gone:
                    self._is_told_gone = True
                    tell(self.program, f"waiting for Redis: {words_of(error)}")
                was_gone = True
                time.sleep(PAUSE_SECONDS)

    def _see_that_nothing_is_lost(self) -> None:
        # Looked at before Redis is asked, since another thread may read on meanwhile.
        last_read = self.last_read
        if last_read > Id(0, 0) and self.last_id(self._redis) < last_read:
            raise RequestsLost("Redis came back without requests that it had given out: its file is an older one, or is"
                               " not synced always")

    def last_id(self, client: redis.Redis[bytes]) -> Id:
        """The id of the last request that ever entered."""
        if not client.exists(self.names.requests):
            return Id(0, 0)
        return Id.of(client.xinfo_stream(self.names.requests)["last-generated-id"])

    def settings(self) -> Settings:
        """What the grid is made of, after a short wait where it was not made yet; `NoGrid` where it never was."""
        deadline = None
        while (found := self._settings()) is None:
            if deadline is None:
                deadline = time.monotonic() + MADE_SECONDS
                tell(self.program, f"waiting for the grid {self.names.grid} to be made")
            if time.monotonic() > deadline:
                raise NoGrid(f"there is no grid {self.names.grid} in this Redis: make it with 'grid init --shards N'")
            time.sleep(PAUSE_SECONDS)
        return found

    def make(self, settings: Settings) -> None:
        """Makes the grid, where it is not there; `ServiceError` where it is there with other settings."""
        found = self._settings(settings.shards, settings.replicas, settings.limit)
        if found != settings:
            raise ServiceError(f"the grid is there with other settings: {found}")

    def _settings(self, *wanted: int) -> Settings | None:
        [found] = self.scripted(SETTINGS, [([self.names.settings], [secrets.token_hex(8), VERSION, *wanted])])
        if not found:
            return None
        shards, replicas, limit, mark, version = found
        return Settings(int(shards), int(replicas), int(limit), mark, version.decode() if version else None)

    def tell_of_settings(self) -> None:
        """Tells which settings of Redis are others than a grid needs, as far as Redis says them."""
        for name, values in _SETTINGS.items():
            try:
                found = self.asked("CONFIG", "GET", name)
            except RedisRefused:
                return
            if found and found[1].decode() not in values:
                has = f"Redis has {name} {found[1].decode()}"
                tell(self.program, f"{has}, and needs {values[0]}: docs/OPERATING.md says why")

    def read(self, after: Mapping[str, Id], count: int,
             block: int | None = BLOCK_MILLISECONDS) -> dict[str, list[Entry]]:
        """The next entries of some streams, after a wait where there are none; none where that was too long."""
        words = ["XREAD", "COUNT", count, *(() if block is None else ("BLOCK", block)), "STREAMS", *after]
        words += [place.text() for place in after.values()]
        found = self.asked(*words)
        return {key.decode(): entries_of(raw) for key, raw in found or ()}

    def read_requests(self, after: Id, count: int, block: int | None = BLOCK_MILLISECONDS) -> list[Entry]:
        """The next requests."""
        found = self.read({self.names.requests: after}, count, block).get(self.names.requests, [])
        if found:
            self.last_read = max(self.last_read, found[-1][0])
        return found

    def trim(self, key: str, count: int) -> None:
        """Drops the oldest entries of a stream, of which about so many stay."""
        self.asked("XTRIM", key, "MAXLEN", "~", count)

    def positions(self, key: str) -> dict[str, Id]:
        """The positions in a hash."""
        return {name.decode(): Id.of(text) for name, text in self.do(lambda client: client.hgetall(key)).items()}

    def requests_between(self, after: Id, up_to: Id) -> list[Entry]:
        """The requests behind one and up to another, which clients wait for and are few therefore."""
        if after >= up_to:
            return []
        return entries_of(self.asked("XRANGE", self.names.requests, f"({after.text()}", up_to.text()))

    def now(self) -> float:
        """Seconds by Redis's clock."""
        seconds, microseconds = self.asked("TIME")
        return float(seconds) + float(microseconds) / 1e6

    def kept(self) -> Id:
        """Up to which request all replies are kept."""
        return Id.of(self.do(lambda client: client.hget(self.names.kept, "at")))

    def kept_number(self) -> int:
        """How many requests are there up to that one."""
        return int(self.do(lambda client: client.hget(self.names.kept, "number")) or 0)

    def hear(self, channel: str) -> Channel:
        """A connection that hears what is told on a channel from now on."""
        heard = Channel(self._pool, channel)
        self.do(lambda _: heard.open())
        return heard

    @property
    def _wire(self) -> Wire:
        """This thread's own connection."""
        if not hasattr(self._wires, "own"):
            self._wires.own = Wire(self._pool)
        own: Wire = self._wires.own
        return own

    def asked(self, *words: object) -> Any:
        """What Redis answers to one call, as it says it."""
        return self.do(lambda _: self._ask([words]))[0]

    def _ask(self, calls: Sequence[Sequence[object]]) -> list[Any]:
        """What Redis answers to the calls; the first error is raised."""
        results = self._wire.ask(calls)
        for result in results:
            if isinstance(result, ResponseError):
                raise result
        return results

    def scripted(self, script: str, calls: Sequence[tuple[Sequence[str], Sequence[object]]]) -> list[Any]:
        """The results of calls of a script, each with keys and arguments. All are made again where one has to be."""
        def call(_: redis.Redis[bytes]) -> list[Any]:
            sha = self._shas.get(script)
            if sha is None:
                [sha] = self._ask([["SCRIPT", "LOAD", script]])
                self._shas[script] = sha
            try:
                return self._ask([["EVALSHA", sha, len(keys), *keys, *arguments] for keys, arguments in calls])
            except NoScriptError:
                self._shas.pop(script, None)
                raise Unreachable("Redis was started anew and has no scripts") from None
        return self.do(call)
