#!/usr/bin/python3
"""Does acts on the page, in one browser: reads their names from standard input, a line each, and answers each with a
line of JSON: null where it went well, or what went wrong. It is run by Debian's Python, which has selenium."""

from __future__ import annotations

import json
import sys
import traceback
from pathlib import Path

sys.dont_write_bytecode = True
sys.path.insert(0, str(Path(__file__).resolve().parents[1]))

from pressclip_tests.door_page_acts import SHARED_ACTS
from pressclip_tests.door_page_browser import Browser
from pressclip_tests.door_page_own_acts import OWN_ACTS
from pressclip_tests.door_runs import shared
from pressclip_tests.judge import need


def do(browser: Browser, name: str) -> None:
    """Does one act; also nothing that the console was told may be an error."""
    browser.errors()
    for own in OWN_ACTS:
        if own.__name__ == name:
            own(browser)
    for act in SHARED_ACTS:
        if act.__name__ == name:
            act(browser, shared())
    errors = browser.errors()
    need(not errors, f"the console was told: {errors}")


def main(shots: Path) -> None:
    """Does one act after another, until the input ends."""
    browser = Browser(shots)
    try:
        for line in sys.stdin:
            name, said = line.strip(), None
            try:
                do(browser, name)
            except Exception:
                said = traceback.format_exc()
                browser.shoot(f"failed-{name}")
            print(json.dumps(said), flush=True)
    finally:
        browser.close()


if __name__ == "__main__":
    main(Path(sys.argv[1]))
