"""Who may do what: tokens of three roles."""

from __future__ import annotations

import hmac
import stat
from dataclasses import dataclass
from enum import IntEnum
from hashlib import sha256
from pathlib import Path
from typing import Sequence

from .settings import BadSettings

LEAST_CHARACTERS = 16


class Role(IntEnum):
    """What a caller may do; each role may do what those before it may."""

    OPEN = 0
    READ = 1
    WRITE = 2
    ADMIN = 3


@dataclass(frozen=True)
class Token:
    """A token by its digest, with its role and a name for the log."""

    name: str
    role: Role
    digest: bytes


ANYBODY = Token("anybody", Role.ADMIN, b"")


def digest_of(text: str) -> bytes:
    """What a token is compared by."""
    return sha256(text.encode(errors="surrogateescape")).digest()


def read_tokens(path: Path) -> list[Token]:
    """The tokens of a file: lines of a role, a name and a token. `BadSettings` where it can't be read, where others
    than its owner may, or where a line is of another form."""
    try:
        mode, text = path.stat().st_mode, path.read_text()
    except (OSError, UnicodeDecodeError) as error:
        raise BadSettings(f"the tokens {path} can't be read: {error}") from None
    if stat.S_IMODE(mode) & 0o077:
        raise BadSettings(f"the tokens {path} may be read by others than their owner: chmod 600 {path}")
    found: list[Token] = []
    for number, line in enumerate(text.splitlines(), 1):
        if line.strip() and not line.startswith("#"):
            found.append(token_of(f"{path}: line {number}", line.split()))
    if not found:
        raise BadSettings(f"{path} has no token")
    return found


def token_of(place: str, words: Sequence[str]) -> Token:
    """The token of a line's words."""
    roles = {"read": Role.READ, "write": Role.WRITE, "admin": Role.ADMIN}
    if len(words) != 3 or words[0] not in roles:
        raise BadSettings(f"{place} is not a role (read, write, admin), a name and a token")
    if len(words[2]) < LEAST_CHARACTERS:
        raise BadSettings(f"{place}: a token has at least {LEAST_CHARACTERS} characters")
    return Token(words[1], roles[words[0]], digest_of(words[2]))


def token_given(tokens: Sequence[Token], authorization: str) -> Token | None:
    """The token that an `Authorization` header brings, if it is one of these. Each is compared, in constant time."""
    scheme, _, text = authorization.partition(" ")
    given, found = digest_of(text.strip()), None
    for token in tokens:
        if hmac.compare_digest(token.digest, given):
            found = token
    return found if scheme.lower() == "bearer" else None
