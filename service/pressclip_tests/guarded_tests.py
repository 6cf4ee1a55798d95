"""Tests of a Redis with a password and with TLS, and of where the password stands."""

from __future__ import annotations

import os
import subprocess
import time
from pathlib import Path
from typing import Iterator, Sequence

from pressclip_service.engine import command_of

from .grid_runs import free_port
from .judge import GRID, REDIS, folder, need, same
from .processes import children_of

PASSWORD = "tea:and@milk"
IN_A_URL = "tea%3Aand%40milk"
PATIENCE_SECONDS = 30.0
KEY_WORDS = ("-newkey", "ec", "-pkeyopt", "ec_paramgen_curve:P-256", "-nodes")
TEXT = b'{"op":"register","queries":[{"id":"q1","query":"tea"}]}\n{"op":"count"}\n'
DUE = b'{"line":1,"registered":1}\n{"count":1,"line":2}\n'


def openssl(*words: str) -> None:
    """Runs it."""
    subprocess.run(["openssl", *words], check=True, stdout=subprocess.DEVNULL, stderr=subprocess.DEVNULL)


def certificates(where: Path, address: str) -> Path:
    """A folder with an authority, and a certificate of it for an address."""
    where.mkdir()
    names = {name: str(where / name) for name in ("ca.key", "ca.crt", "redis.key", "redis.csr", "redis.crt")}
    openssl("req", "-x509", *KEY_WORDS, "-days", "2", "-subj", "/CN=desk", "-keyout", names["ca.key"], "-out",
            names["ca.crt"])
    openssl("req", *KEY_WORDS, "-subj", "/CN=redis", "-addext", f"subjectAltName=IP:{address}", "-keyout",
            names["redis.key"], "-out", names["redis.csr"])
    openssl("x509", "-req", "-in", names["redis.csr"], "-CA", names["ca.crt"], "-CAkey", names["ca.key"],
            "-CAcreateserial", "-days", "2", "-copy_extensions", "copy", "-out", names["redis.crt"])
    return where


class Guarded:
    """A Redis that is started with some options of `service/redis`, and of its own."""

    def __init__(self, words: Sequence[str], options: Sequence[str]) -> None:
        self._command = [str(REDIS), *words, "--", "--bind", "127.0.0.1", *options]

    def __enter__(self) -> subprocess.Popen[bytes]:
        self._process = subprocess.Popen(self._command, stdin=subprocess.DEVNULL, stdout=subprocess.DEVNULL)
        return self._process

    def __exit__(self, *_: object) -> None:
        self._process.kill()
        self._process.wait()


def grid(url: str, *words: str, text: bytes = b"") -> subprocess.CompletedProcess[bytes]:
    """What a role of the grid does that finds Redis by a URL in its environment."""
    return subprocess.run([str(GRID), *words], input=text, capture_output=True, check=False, timeout=60,
                          env={**os.environ, "PRESSCLIP_REDIS": url})


def command_lines(process: int) -> Iterator[bytes]:
    """The words of a process and of all below it."""
    yield Path(f"/proc/{process}/cmdline").read_bytes()
    for child in children_of(process):
        yield from command_lines(child)


def served(url: str, redis: subprocess.Popen[bytes]) -> None:
    """A grid over a guarded Redis answers, and nobody's command line has the password."""
    whole = subprocess.Popen([str(GRID), "up", "--shards", "2", "--", *command_of([], workers=0)],
                             stdin=subprocess.DEVNULL, stderr=subprocess.DEVNULL,
                             env={**os.environ, "PRESSCLIP_REDIS": url})
    try:
        same(grid(url, "submit", "--", *command_of([], workers=0), text=TEXT).stdout, DUE, "a guarded grid")
        words = [*command_lines(whole.pid), *command_lines(redis.pid)]
        need(len(words) == 8, f"{len(words)} processes: {words}")
        need(not any(secret.encode() in line for line in words for secret in (PASSWORD, IN_A_URL)),
             f"a password is on a command line: {words}")
    finally:
        whole.terminate()
        whole.wait(30)


def refused(url: str, words: str) -> None:
    """`Failed` where a role doesn't end with status 1 and these words."""
    done = grid(url, "init", "--shards", "2")
    need(done.returncode == 1 and words in done.stderr.decode(), f"{url}: {done.returncode} {done.stderr.decode()}")


def a_password_is_asked_for() -> None:
    """By the access list: with it all goes on, and without it or with another one a role says so and ends."""
    with folder() as name:
        file = Path(name) / "password"
        file.write_text(f"{PASSWORD}\nthe second line is none\n")
        port = free_port()
        address = f"127.0.0.1:{port}/0"
        with Guarded(["--dir", f"{name}/r", "--password", str(file)], ["--port", str(port)]) as redis:
            served(f"redis://:{IN_A_URL}@{address}", redis)
            refused(f"redis://{address}", "it wants a password")
            refused(f"redis://:milk@{address}", "it wants a password")


def a_certificate_is_shown_and_looked_at() -> None:
    """TLS with a password: a role goes on where it knows the authority and the address is the certificate's."""
    with folder() as name:
        file = Path(name) / "password"
        file.write_text(PASSWORD)
        own, other = certificates(Path(name) / "own", "127.0.0.1"), certificates(Path(name) / "other", "127.0.0.2")
        port = free_port()
        front, back = f"rediss://:{IN_A_URL}@127.0.0.1:{port}/0?ssl_ca_certs=", "/ca.crt"
        with Guarded(["--dir", f"{name}/r", "--password", str(file), "--tls", str(own)],
                     ["--tls-port", str(port)]) as redis:
            served(f"{front}{own}{back}", redis)
            refused(f"{front}{other}{back}", "certificate is not one that this machine trusts")
        with Guarded(["--dir", f"{name}/r", "--password", str(file), "--tls", str(other)], ["--tls-port", str(port)]):
            refused(f"{front}{other}{back}", "IP address mismatch")


def files_that_are_missing_are_told() -> None:
    """A password and a certificate that are not there: status 1, and no Redis without them."""
    with folder() as name:
        (Path(name) / "empty").write_text("\n")
        for words in (["--password", f"{name}/none"], ["--password", f"{name}/empty"], ["--tls", name]):
            done = subprocess.run([str(REDIS), "--dir", f"{name}/r", *words, "--", "--port", "1"], capture_output=True,
                                  timeout=60, check=False)
            need(done.returncode == 1 and name.encode() in done.stderr, f"{words}: {done.returncode} {done.stderr!r}")


def one_redis_has_a_folder() -> None:
    """A second `service/redis` on one folder, and one beside a Redis that somebody else started there, end with status
    5 and a sentence; once the first is gone another starts."""
    with folder() as name:
        words = ["--dir", f"{name}/r"]
        port, other = free_port(), free_port()
        with Guarded(words, ["--port", str(port)]):
            wait_for(port)
            need(Path(name, "r").stat().st_mode & 0o777 == 0o700, "others may look into the folder")
            second = subprocess.run([str(REDIS), *words, "--", "--port", str(other), "--bind", "127.0.0.1"],
                                    capture_output=True, timeout=60, check=False)
            need(second.returncode == 5 and b"another service/redis has the folder" in second.stderr, f"{second}")
        plain = subprocess.Popen(["redis-server", "--port", str(port), "--bind", "127.0.0.1", "--appendonly", "yes",
                                  "--dir", f"{name}/r"], stdout=subprocess.DEVNULL)
        try:
            wait_for(port)
            second = subprocess.run([str(REDIS), *words, "--", "--port", str(other), "--bind", "127.0.0.1"],
                                    capture_output=True, timeout=60, check=False)
            need(second.returncode == 5 and b"another process may have" in second.stderr, f"{second}")
        finally:
            plain.kill()
            plain.wait()
        with Guarded(words, ["--port", str(port)]):
            wait_for(port)


def wait_for(port: int) -> None:
    """`Failed` where no Redis answers at a port after a while."""
    deadline = time.monotonic() + PATIENCE_SECONDS
    while subprocess.run(["redis-cli", "-p", str(port), "PING"], capture_output=True, check=False).stdout != b"PONG\n":
        need(time.monotonic() < deadline, f"no Redis at {port}")
        time.sleep(0.05)


TESTS = (a_password_is_asked_for, a_certificate_is_shown_and_looked_at, files_that_are_missing_are_told,
         one_redis_has_a_folder)
