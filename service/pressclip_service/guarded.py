"""How a Redis is kept from strangers: a password by its access list, and TLS."""

from __future__ import annotations

import hashlib
from pathlib import Path

from .errors import ServiceError

CERTIFICATE, KEY, AUTHORITY = "redis.crt", "redis.key", "ca.crt"


def password_rule(file: Path) -> str:
    """The line of Redis's settings by which its user, who may do all, has to know the first line of a file. The line
    has the password's digest alone. `ServiceError` where the file can't be read or has none."""
    try:
        lines = file.read_bytes().splitlines()
    except OSError as error:
        raise ServiceError(f"the password can't be read from {file}: {error.strerror}") from error
    if not lines or not lines[0]:
        raise ServiceError(f"there is no password in the first line of {file}")
    return f"user default on #{hashlib.sha256(lines[0]).hexdigest()} ~* &* +@all\n"


def certificate_options(folder: Path) -> list[str]:
    """Options of redis-server by which it speaks TLS alone and shows the folder's certificate; clients need none.
    `ServiceError` where one of the folder's three files can't be read."""
    files = [folder / name for name in (CERTIFICATE, KEY, AUTHORITY)]
    for file in files:
        try:
            file.open("rb").close()
        except OSError as error:
            raise ServiceError(f"{file} can't be read: {error.strerror}") from error
    words = ["--port", "0", "--tls-auth-clients", "no"]
    for name, file in zip(("--tls-cert-file", "--tls-key-file", "--tls-ca-cert-file"), files):
        words += [name, str(file.absolute())]
    return words
