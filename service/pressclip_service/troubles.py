"""What goes wrong between a program of the grid and Redis: which errors pass, and how each is told."""

from __future__ import annotations

import ssl

from redis.exceptions import (AuthenticationError, BusyLoadingError, NoPermissionError, ReadOnlyError, RedisError,
                              ResponseError)
from redis.exceptions import ConnectionError as Unreachable
from redis.exceptions import TimeoutError as TimedOut

# The first words of errors that pass, and what they say; python3-redis makes classes of some and drops their words.
_PASSING = {"OOM": "it has no memory left: its `maxmemory` is reached", "MISCONF": "it can't write its file",
            "BUSY": "a script runs in it", "MASTERDOWN": "it is a replica that lost its master",
            "NOREPLICAS": "too few replicas follow it", "TRYAGAIN": "it moves its keys",
            "UNBLOCKED": "it began to follow another Redis"}
_PASSING_CLASSES: dict[type[RedisError], str] = {BusyLoadingError: "it reads its file still",
                                                 ReadOnlyError: "it is a replica and takes no writes"}
_WITHOUT_PASSWORD = ("it wants a password, or another one: write it into the URL in PRESSCLIP_REDIS, as"
                     " redis://:PASSWORD@HOST:PORT/0")
_REFUSING = {"WRONGPASS": _WITHOUT_PASSWORD,
             "DENIED": "it takes no other machines while it has no password: docs/OPERATING.md says how to give it one",
             "NOPERM": "the user that the URL names may not do what the grid does"}


def _first_word(error: Exception) -> str:
    return str(error).partition(" ")[0]


def is_passing(error: RedisError) -> bool:
    """Whether the same call may go well later."""
    if isinstance(error, AuthenticationError) or isinstance(error.__context__, ssl.SSLCertVerificationError):
        return False
    return isinstance(error, (Unreachable, TimedOut, *_PASSING_CLASSES)) or _first_word(error) in _PASSING


def words_of(error: RedisError) -> str:
    """What an error of Redis says, in a sentence."""
    for kind, words in _PASSING_CLASSES.items():
        if isinstance(error, kind):
            return words
    if isinstance(error, AuthenticationError):
        return _WITHOUT_PASSWORD
    if isinstance(error, NoPermissionError):
        return f"{_REFUSING['NOPERM']}: {error}"
    if isinstance(error.__context__, ssl.SSLCertVerificationError):
        return f"its certificate is not one that this machine trusts: {error.__context__.verify_message}"
    if isinstance(error, ResponseError):
        return {**_PASSING, **_REFUSING}.get(_first_word(error), str(error))
    return str(error)
