"""Tests of the door's page: how its files are served, and the acts of a real browser on it."""

from __future__ import annotations

import atexit
import gzip
import json
import re
import subprocess
from pathlib import Path
from typing import Callable

from .door_page_acts import SHARED_ACTS
from .door_page_own_acts import OWN_ACTS
from .door_runs import shared
from .grid_runs import DEBIAN_PYTHON
from .judge import SERVICE, need

FILES = SERVICE / "pressclip_door" / "page" / "files"
CODEMIRROR = Path("/usr/share/javascript/codemirror")
PROGRAMS = ("/usr/bin/chromium", "/usr/bin/chromedriver")
CHILD = Path(__file__).with_name("door_page_child.py")
SHOTS = Path(__file__).with_name("out") / "door_page"
MOST_LINES = 300
TYPES = {".html": "text/html; charset=utf-8", ".css": "text/css; charset=utf-8",
         ".js": "text/javascript; charset=utf-8", ".svg": "image/svg+xml"}
POLICY = ("default-src 'none'; script-src 'self'; style-src 'self'; img-src 'self'; connect-src 'self';"
          " base-uri 'none'; form-action 'none'; frame-ancestors 'none'; require-trusted-types-for 'script'")
NAMED = re.compile(r"""(?:src|href)="(page/[^"]+)"|from "\./([^"]+)"|url\("([^"]+)"\)""")
# Paths that lead out of the folder where they are taken as such.
TRICKS = ("/page/", "/page/none.js", "/page/../page/main.js", "/page/%2e%2e/__init__.py", "/page/..%2f__init__.py",
          "/page/codemirror/../main.js", "/page//etc/passwd", "/page/main.js%00", "/page/MAIN.JS", "/page/files/main.js",
          "/page/codemirror/%2e%2e/%2e%2e/%2e%2e/%2e%2e/etc/passwd")


def files_of_the_page_are_served_by_their_names_alone() -> None:
    """Each of its type, with a tag by which a browser keeps it, and nothing else of the machine."""
    door = shared()
    own = sorted(path for path in FILES.iterdir())
    for path in own:
        need(path.read_text().count("\n") < MOST_LINES, f"{path.name} has {MOST_LINES} lines or more")
        address = "/" if path.name == "index.html" else f"/page/{path.name}"
        answer = door.ask("GET", address)
        need(answer.status == 200 and answer.text == path.read_bytes(), f"{address}: {answer.status}")
        need(answer.headers["Content-Type"] == TYPES[path.suffix], f"{address}: {answer.headers['Content-Type']}")
        need(answer.headers["Content-Security-Policy"] == POLICY, f"{answer.headers['Content-Security-Policy']}")
        need(answer.headers["X-Content-Type-Options"] == "nosniff", f"{address}: types are guessed")
        again = door.ask("GET", address, headers={"If-None-Match": answer.headers["ETag"]})
        need(again.status == 304 and again.text == b"", f"{address} again: {again.status}")
        packed = door.ask("GET", address, headers={"Accept-Encoding": "gzip"})
        need(packed.headers["Content-Encoding"] == "gzip" and gzip.decompress(packed.text) == answer.text, address)
    for trick in TRICKS:
        answer = door.ask("GET", trick)
        need(answer.status == 404 and answer.value["refused"] == "path", f"{trick}: {answer.status} {answer.text[:80]!r}")
    need(door.ask("POST", "/page/main.js", {}).status == 405, "a file is posted to")


def each_file_that_the_page_names_is_served() -> None:
    """By its HTML, its modules and its styles, and CodeMirror of Debian's package."""
    door = shared()
    for path in FILES.iterdir():
        for found in NAMED.finditer(path.read_text()):
            name = found[1] or f"page/{found[2] or found[3]}"
            need(door.ask("GET", f"/{name}").status == 200, f"{path.name} names {name}, which is not served")


_CHILDREN: list[subprocess.Popen[str]] = []


def child() -> subprocess.Popen[str]:
    """The process with the browser, which does all acts."""
    if not _CHILDREN:
        begun = subprocess.Popen([DEBIAN_PYTHON, str(CHILD), str(SHOTS)], stdin=subprocess.PIPE, stdout=subprocess.PIPE,
                                 text=True)
        _CHILDREN.append(begun)
        atexit.register(end, begun)
    return _CHILDREN[0]


def end(begun: subprocess.Popen[str]) -> None:
    """Ends the process with its input, which ends its browser and its doors."""
    assert begun.stdin
    begun.stdin.close()
    begun.wait()


def in_browser(name: str, says: str | None) -> Callable[[], None]:
    """The test that does an act."""

    def test() -> None:
        process = child()
        assert process.stdin and process.stdout
        process.stdin.write(f"{name}\n")
        process.stdin.flush()
        line = process.stdout.readline()
        need(line != "", "the process with the browser ended")
        wrong = json.loads(line)
        need(wrong is None, f"{wrong}")

    test.__name__, test.__doc__ = name, says
    return test


TESTS = (files_of_the_page_are_served_by_their_names_alone, each_file_that_the_page_names_is_served,
         *(in_browser(act.__name__, act.__doc__) for act in (*SHARED_ACTS, *OWN_ACTS)))
