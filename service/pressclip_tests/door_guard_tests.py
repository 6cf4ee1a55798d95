"""Tests of what `service/door` refuses: hostile requests, tokens, rates, settings; and of how it runs."""

from __future__ import annotations

import json
import os
import shutil
import socket
import subprocess
import tempfile
import time
from pathlib import Path
from typing import Callable

from .door_runs import DOOR, LINES, Door, all_of, with_settings, without_hits
from .grid_runs import DEBIAN_PYTHON, free_port
from .judge import folder, need
from .processes import PATIENCE_SECONDS

HOST = "Host: 127.0.0.1\r\n"
JSON = "Content-Type: application/json\r\n"
QUICK = "header_seconds = 1\nbody_seconds = 1\nbody_bytes = 100000\nconnections = 40"

def posting(path: str, text: str, more: str = "") -> str:
    """A post of a text."""
    return f"POST {path} HTTP/1.1\r\n{HOST}{JSON}{more}Content-Length: {len(text)}\r\n\r\n{text}"


def chunked(text: str, more: str = "Transfer-Encoding: chunked\r\n") -> str:
    """A post of chunks."""
    return f"POST /articles HTTP/1.1\r\n{HOST}{JSON}{more}\r\n{text}"


def getting(path: str, more: str = "", host: str = HOST) -> str:
    """A request for what is at an address."""
    return f"GET {path} HTTP/1.1\r\n{host}{more}\r\n"


def upgrading(*more: str) -> str:
    """A request for a WebSocket."""
    return getting("/alerts", "Upgrade: websocket\r\nConnection: Upgrade\r\n" + "".join(f"{one}\r\n" for one in more))


KEY = "Sec-WebSocket-Key: MDEyMzQ1Njc4OWFiY2RlZg=="
VERSION = "Sec-WebSocket-Version: 13"
ENCODED = "Transfer-Encoding: chunked\r\n"
LAST = "0\r\n\r\n"

# A request as it goes over the connection, and the status and the word of its refusal.
HOSTILE: tuple[tuple[str, str, int, str], ...] = (
    # Lengths that two servers could read in two ways.
    ("two lengths", chunked("{}x", "Content-Length: 2\r\nContent-Length: 3\r\n"), 400, "request"),
    ("a length and chunks", chunked(LAST, "Content-Length: 5\r\n" + ENCODED), 400, "request"),
    ("chunks twice", chunked(LAST, ENCODED + ENCODED), 400, "request"),
    ("an unknown encoding", chunked(LAST, "Transfer-Encoding: xchunked\r\n"), 400, "request"),
    ("chunks and another", chunked(LAST, "Transfer-Encoding: chunked, identity\r\n"), 400, "request"),
    ("a negative length", chunked("", "Content-Length: -1\r\n"), 400, "request"),
    ("a length in words", chunked("", "Content-Length: ten\r\n"), 400, "request"),
    ("a signed length", chunked("{}", "Content-Length: +2\r\n"), 400, "request"),
    ("a huge length", chunked("", "Content-Length: 99999999999\r\n"), 413, "body"),
    ("a length beyond all", chunked("", f"Content-Length: {'9' * 40}\r\n"), 400, "request"),
    ("a chunk without a size", chunked("zz\r\n{}\r\n" + LAST), 400, "request"),
    ("a chunk longer than told", chunked("1\r\n{}}\r\n" + LAST), 400, "request"),
    ("a space before the colon", getting("/healthz", "Content-Length : 0\r\n"), 400, "request"),
    ("a length that is folded away", getting("/healthz", "X-One: a\r\n b\r\nContent-Length: 0\r\n"
                                             "Content-Length: 1\r\n"), 400, "request"),
    # What is no request.
    ("no HTTP", "hello there\r\n\r\n", 400, "request"),
    ("TLS", "\x16\x03\x01\x02\x00\x01\x00\x01\xfc\x03\x03" + "x" * 60 + "\r\n\r\n", 400, "request"),
    ("another version", f"GET /healthz HTTP/9.9\r\n{HOST}\r\n", 400, "request"),
    ("a stream over an old version", f"GET /alerts HTTP/1.0\r\n{HOST}\r\n", 400, "request"),
    ("a NUL in a header", getting("/healthz", "X-One: a\x00b\r\n"), 400, "request"),
    ("a bare line feed in a header", getting("/healthz", "X-One: a\nContent-Length: 3\nContent-Length: 4\r\n"), 400,
     "request"),
    ("a space in the address", getting("/queries/a b"), 400, "request"),
    ("a preface of HTTP/2", "PRI * HTTP/2.0\r\n\r\nSM\r\n\r\n", 400, "request"),
    # Names.
    ("no host", getting("/readyz", host=""), 400, "request"),
    ("two hosts", getting("/readyz", "Host: other\r\n"), 400, "request"),
    ("the host of another", getting("/readyz", host="Host: evil.example\r\n"), 421, "host"),
    ("a rebound name", getting("/queries", host="Host: 127.0.0.1.evil.example\r\n"), 421, "host"),
    ("a post of another page", posting("/articles", "{}", "Origin: https://evil.example\r\n"), 403, "origin"),
    ("a post of a page in a box", posting("/articles", "{}", "Origin: null\r\n"), 403, "origin"),
    ("a post across sites", posting("/articles", "{}", "Sec-Fetch-Site: cross-site\r\n"), 403, "origin"),
    ("a text of another page", posting("/articles", "{}").replace("application/json", "text/plain"), 415, "type"),
    ("a form", posting("/queries", "{}").replace("json", "x-www-form-urlencoded"), 415, "type"),
    ("a socket of another page", upgrading(VERSION, KEY, "Origin: https://evil.example"), 403, "origin"),
    ("a socket without a key", upgrading(VERSION), 400, "request"),
    ("a socket of another version", upgrading("Sec-WebSocket-Version: 99", KEY), 400, "request"),
    # Addresses.
    ("steps up", getting("/queries/../metrics"), 404, "path"),
    ("hidden steps up", getting("/page/%2e%2e/%2e%2e/etc/passwd"), 404, "path"),
    ("bytes that are no UTF-8", getting("/queries/%ff"), 400, "request"),
    ("half a surrogate pair", getting("/queries/%ed%a0%80"), 400, "request"),
    ("a long address", getting("/" + "a" * 20_000), 400, "request"),
    ("an empty id", posting("/queries/", '{"query":"tea"}').replace("POST", "PUT"), 404, "path"),
    ("a method that is none", getting("/queries").replace("GET", "BREW"), 400, "request"),
    ("a method that is not taken", getting("/queries").replace("GET", "PATCH"), 405, "method"),
    ("a trace", getting("/queries").replace("GET", "TRACE"), 405, "method"),
    ("a tunnel", "CONNECT evil.example:443 HTTP/1.1\r\nHost: evil.example:443\r\n\r\n", 421, "host"),
    # Headers.
    ("many headers", getting("/healthz", "".join(f"X-{n}: a\r\n" for n in range(110))), 431, "headers"),
    ("more headers", getting("/healthz", "".join(f"X-{n}: a\r\n" for n in range(1_000))), 400, "request"),
    ("a long header", getting("/healthz", f"X-One: {'a' * 20_000}\r\n"), 400, "request"),
    ("headers without an end", f"GET /healthz HTTP/1.1\r\n{HOST}" + "X-One: aaaaaaaaaaaaaaa\r\n" * 8_000, 400, "request"),
    ("a header that stops", f"GET /healthz HTTP/1.1\r\n{HOST}X-One: a", 408, "slow"),
    # Bodies.
    ("a body that stops", chunked("{", "Content-Length: 100\r\n"), 408, "slow"),
    ("a body that is too large", chunked("30D40\r\n" + "x" * 200_000 + "\r\n" + LAST), 413, "body"),
    ("a packed body", posting("/articles", "{}", "Content-Encoding: gzip\r\n"), 415, "encoding"),
    ("no JSON", posting("/articles", "{]}"), 400, "json"),
    ("deep JSON", posting("/articles", "[" * 90_000), 400, "json"),
    ("a list for an object", posting("/articles", "[]"), 400, "shape"),
    ("a number for a text", posting("/explain", '{"query":7}'), 400, "shape"),
    ("half a surrogate pair in JSON", posting("/explain", '{"query":"\\ud800"}'), 400, "json"),
    ("a member too many", posting("/explain", '{"query":"tea","a":"b"}'), 400, "shape"),
    ("an operation among articles", posting("/articles", '{"op":"clear","articles":[]}'), 400, "shape"))


def refusal_in(text: bytes) -> tuple[int, str]:
    """Status and word of the first answer that came."""
    head, _, body = text.partition(b"\r\n\r\n")
    if not head.startswith(b"HTTP/1."):
        return 0, repr(text[:100])
    status = int(head.split()[1])
    if b"application/problem+json" not in head:
        return status, repr(body[:100])
    said, _ = json.JSONDecoder().raw_decode(body.decode())
    return status, said["refused"]


def hostile_requests_are_refused_by_name() -> None:
    """Each by its status and word, or by those that begin a list of its own; and all goes on behind them."""
    with folder() as name, Door(with_settings(name, QUICK)) as door:
        door.put("q1", "tea")
        wrong = []
        for what, text, status, word in HOSTILE:
            came = refusal_in(door.talk(text.encode("latin-1")))
            if came != (status, word):
                wrong.append(f"{what}: {came}, and {(status, word)} is due")
        need(not wrong, "\n".join(wrong))
        need(len(HOSTILE) >= 50, f"only {len(HOSTILE)} requests")
        need(door.match("a1", "tea")["alerts"] == [{"article": "a1", "queries": ["q1"]}], "it does not go on")
        need(not door.events("fault"), f"{door.events('fault')}")
        a_socket_stays_open(door)
        too_many_connections(door)


def a_socket_stays_open(door: Door) -> None:
    """What a WebSocket brings is no header that is late."""
    with socket.create_connection(("127.0.0.1", door.port), timeout=PATIENCE_SECONDS) as connection:
        connection.sendall(upgrading(VERSION, KEY).encode())
        heard = b""
        while not heard.endswith(b"\r\n\r\n"):
            heard += connection.recv(1)
        need(heard.startswith(b"HTTP/1.1 101 "), f"{heard!r}")
        connection.sendall(b"\x89\x80abcd")
        need(connection.recv(2) == b"\x8a\x00", "a ping is not answered")
        time.sleep(1.3)
        door.match("a1", "tea")
        frame = connection.recv(1_000)
        need(frame[0] == 0x81 and json.loads(frame[2:])["article"] == "a1", f"{frame!r}")


def too_many_connections(door: Door) -> None:
    """One connection more than is taken is refused, and once some are closed all goes on."""
    held = [socket.create_connection(("127.0.0.1", door.port)) for _ in range(40)]
    time.sleep(0.1)
    with socket.create_connection(("127.0.0.1", door.port)) as one:
        need(refusal_in(all_of(one, 3)) == (503, "connections"), "one more is taken")
    for connection in held:
        connection.close()
    need(door.ask("GET", "/healthz").status == 200, "it does not go on")


def many_requests_in_a_row_are_put_off() -> None:
    """By one client over its rate, and by one connection that does not wait for answers."""
    with folder() as name, Door(with_settings(name, "requests_a_second = 5\nburst = 10")) as door:
        answers = [door.ask("GET", "/queries") for _ in range(12)]
        need([answer.status for answer in answers[:10]] == [200] * 10, "the burst is refused")
        answers[11].refused(429, "rate")
        need(answers[11].headers["Retry-After"] == "1", f"{answers[11].headers}")
        time.sleep(0.5)
        need(door.ask("GET", "/queries").status == 200, "it is still refused")
        with socket.create_connection(("127.0.0.1", door.port)) as connection:
            connection.sendall(f"GET /healthz HTTP/1.1\r\n{HOST}\r\n".encode() * 5_000)
            text = all_of(connection, 5)
        need(text.endswith(b"}") and b'"detail": "too many requests in a row on one connection"' in text, f"{text[-300:]!r}")


def roles_may_do_what_they_may() -> None:
    """A token of each role, none, and a wrong one; addresses that are open; a file that others may read."""
    tokens = {"read": "r" * 20, "write": "w" * 20, "admin": "a" * 20}
    acts = [("GET", "/queries", None, "read"), ("POST", "/explain", {"query": "tea"}, "read"),
            ("PUT", "/queries/q1", {"query": "tea"}, "write"), ("GET", "/alerts?excerpts=x", None, "read"),
            ("POST", "/articles", {"id": "a", "fields": {}}, "write"), ("GET", "/deliveries", None, "admin"),
            ("DELETE", "/queries", None, "admin")]
    with folder() as name:
        path = Path(name) / "tokens"
        path.write_text("# who\n" + "".join(f"{role} {role}er {text}\n" for role, text in tokens.items()))
        path.chmod(0o600)
        with Door("--tokens", str(path)) as door:
            order = ["read", "write", "admin"]
            for method, address, body, needed in acts:
                door.ask(method, address, body).refused(401, "token")
                door.ask(method, address, body, {"Authorization": "Bearer " + "x" * 20}).refused(401, "token")
                door.ask(method, address, body, {"Authorization": "Basic " + tokens["admin"]}).refused(401, "token")
                for role in order:
                    answer = door.ask(method, address, body, {"Authorization": f"Bearer {tokens[role]}"})
                    if order.index(role) < order.index(needed):
                        answer.refused(403, "role")
                    else:
                        need(answer.status in (200, 201, 400), f"{method} {address} by {role}: {answer}")
            for address in ("/healthz", "/readyz", "/openapi.json"):
                need(door.ask("GET", address).status == 200, f"{address} is not open")
            need(tokens["admin"] not in door.told(), "a token is in the log")
        path.chmod(0o644)
        need("chmod 600" in refused_start("--tokens", str(path)), "others may read the tokens")
        path.chmod(0o600)
        path.write_text("admin me short\n")
        need("at least 16" in refused_start("--tokens", str(path)), "a short token is taken")


def refused_start(*options: str) -> str:
    """What a door says that does not start, with status 2."""
    done = subprocess.run([DEBIAN_PYTHON, str(DOOR), "--port", "0", *options], stdin=subprocess.DEVNULL,
                          capture_output=True, text=True, timeout=PATIENCE_SECONDS, check=False)
    need(done.returncode == 2, f"status {done.returncode}: {done.stderr}")
    return done.stderr


def settings_that_cannot_be_used_are_told() -> None:
    """With status 2, before anything is started."""
    need("tokens are needed" in refused_start("--host", "0.0.0.0"), "it listens elsewhere without tokens")
    with folder() as name:
        path = Path(name) / "door.toml"
        for text, words in (("port = 'x'", "port is of another type"), ("[limits]\nspeed = 1", "no setting speed"),
                            ("[[deliveries]]\nname='a'\nmail='x@y'\nsender='z@y'", "need a spool")):
            path.write_text(text)
            told = refused_start(str(path))
            need(words in told, f"{text}: {told}")


def systemd_is_told() -> None:
    """READY=1 once it answers, WATCHDOG=1 again and again, STOPPING=1 at the end."""
    with tempfile.TemporaryDirectory(prefix="pd-") as name, socket.socket(socket.AF_UNIX, socket.SOCK_DGRAM) as heard:
        heard.bind(f"{name}/notify")
        heard.settimeout(PATIENCE_SECONDS)
        environment = {"NOTIFY_SOCKET": f"{name}/notify", "WATCHDOG_USEC": "300000"}
        with Door(engine=without_hits(), environment=environment) as door:
            words = [heard.recv(100) for _ in range(6)]
            need(b"READY=1" in words and words.count(b"WATCHDOG=1") >= 4, f"{words}")
            door.ends()
            while (word := heard.recv(100)) != b"STOPPING=1":
                need(word == b"WATCHDOG=1", f"{word!r}")


NGINX = """
daemon off;
pid {folder}/nginx.pid;
error_log stderr;
events {{ }}
http {{
    access_log off;
    client_body_temp_path {folder}/body;
    proxy_temp_path {folder}/proxy;
    fastcgi_temp_path {folder}/fastcgi;
    uwsgi_temp_path {folder}/uwsgi;
    scgi_temp_path {folder}/scgi;
    {server}
}}
"""


def it_stands_behind_nginx() -> None:
    """With the server that is shipped: TLS, alerts and lines that stream, and a token."""
    with folder() as name:
        make_certificate(name)
        path = Path(name) / "tokens"
        path.write_text("admin me " + "t" * 20 + "\n")
        path.chmod(0o600)
        with Door("--tokens", str(path)) as door:
            port = free_port()
            server = shipped_server().replace("443", f"127.0.0.1:{port}").replace("8080", str(door.port)).replace(
                "/etc/pressclip/tls", name).replace("alerts.example", "localhost")
            (Path(name) / "nginx.conf").write_text(NGINX.format(folder=name, server=server))
            proxy = subprocess.Popen([nginx(), "-e", "stderr", "-c", f"{name}/nginx.conf"], stderr=subprocess.DEVNULL)
            try:
                curl = ["curl", "-s", "--cacert", f"{name}/door.crt", "--retry-connrefused", "--retry", "20", "-H",
                        "Authorization: Bearer " + "t" * 20]
                through(curl, f"https://localhost:{port}", name)
            finally:
                proxy.terminate()
                proxy.wait(PATIENCE_SECONDS)


def nginx() -> str:
    """The program, which Debian has off the path of users."""
    return shutil.which("nginx", path=f"/usr/sbin:{os.environ['PATH']}") or "nginx"


def shipped_server() -> str:
    """The server that is shipped for nginx."""
    return (Path(__file__).resolve().parents[1] / "units" / "nginx.conf").read_text()


def make_certificate(name: str) -> None:
    """A certificate for localhost, in a folder."""
    subprocess.run(["openssl", "req", "-x509", "-newkey", "ec", "-pkeyopt", "ec_paramgen_curve:P-256", "-nodes", "-days",
                    "2", "-subj", "/CN=localhost", "-addext", "subjectAltName=DNS:localhost", "-keyout",
                    f"{name}/door.key", "-out", f"{name}/door.crt"], stderr=subprocess.DEVNULL, check=True)


def through(curl: list[str], address: str, name: str) -> None:
    """A query, lines and an alert through the proxy."""
    ready = subprocess.run([*curl, f"{address}/readyz"], stdout=subprocess.PIPE, check=True).stdout
    need(json.loads(ready)["is_ready"], f"{ready!r}")
    heard = subprocess.Popen([*curl, "-N", f"{address}/alerts"], stdout=subprocess.PIPE)
    lines = (b'{"op":"register","queries":[{"id":"q1","query":"tea"}]}\n'
             b'{"op":"match","articles":[{"id":"a1","fields":{"text":"tea"}}]}\n')
    try:
        time.sleep(0.5)
        done = subprocess.run([*curl, "-H", f"Content-Type: {LINES}", "--data-binary", "@-", f"{address}/lines"],
                              input=lines, stdout=subprocess.PIPE, check=True).stdout
        need(done.startswith(b'{"line":1,"registered":1}\n{"alerts":[{"article":"a1"'), f"{done!r}")
        assert heard.stdout
        told = [heard.stdout.readline() for _ in range(3)]
        need(b'"article":"a1"' in told[2], f"{told}")
    finally:
        heard.kill()
        heard.wait()


TESTS: tuple[Callable[[], None], ...] = (
    hostile_requests_are_refused_by_name, many_requests_in_a_row_are_put_off, roles_may_do_what_they_may,
    settings_that_cannot_be_used_are_told, systemd_is_told, it_stands_behind_nginx)
