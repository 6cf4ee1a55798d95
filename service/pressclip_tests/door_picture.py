#!/usr/bin/python3
"""Takes the picture of the door's page that stands in the documents, with the real programs:

    service/pressclip_tests/door_picture.py docs/door.png

It is light and 1,200 pixels wide, in 256 colours. It looks as there where Debian's fonts-inter is installed, and needs
python3-pil beside what the tests need.
"""

from __future__ import annotations

import sys
import tempfile
from pathlib import Path

from PIL import Image

sys.dont_write_bytecode = True
sys.path.insert(0, str(Path(__file__).resolve().parents[1]))

from pressclip_tests.door_page_acts import write
from pressclip_tests.door_page_browser import Browser
from pressclip_tests.door_runs import Door
from pressclip_tests.judge import need

HEIGHT = 960
COLOURS = 256
QUERIES = {
    "acme-takeover": "acme AND (merger OR takeover)",
    "board-changes": '"chief executive" AND (resign* OR appoint*)',
    "central-bank": '"central bank" "interest rates"',
    "harbour-strike": "+harbour +strike*",
    "offshore-wind": 'title:offshore "wind farm"',
    "recalls": "+recall* +(car* van*)",
    "tea-prices": "+tea +pric*",
}
ARTICLES = (
    ("Low water slows ships on the Rhine", "Barges carry half of their usual load between Cologne and Basel. Shipping"
     " firms ask for higher freight rates, and mills run short of coal. A strike at the locks, which began on Monday,"
     " adds a day to each trip."),
    ("Tea prices rise for a third month", "Tea prices rose again in March, and growers in Assam expect more of the"
     " same: the price at auction is up nine per cent since the dry winter."),
    ("Acme confirms talks with Globex", "Acme said on Monday that it talks with Globex about a merger. A takeover of"
     " the whole group is not planned, its chief executive said. He will resign in June."),
    ("Harbour strike enters its second week", "The strike at the harbour of Rotterdam goes on, and two hundred ships"
     " wait at sea. Both sides meet again on Thursday."),
    ("Central bank keeps rates where they are", "The central bank left interest rates unchanged on Thursday, as most"
     " had expected, and said that prices rise more slowly."),
)
WRITTEN = 'Rhine Shipping AND (strike* OR "low water") -cruise'


def stage(browser: Browser, door: Door) -> None:
    """Has the page show a query that is written, tried on an article, beside alerts."""
    for name, query in QUERIES.items():
        door.put(name, query)
    browser.open(door.address)
    browser.size(1_200, HEIGHT)
    for number, (title, text) in enumerate(ARTICLES):
        article = {"id": f"agency-{4_710 + number}", "fields": {"title": title, "text": text}}
        need(door.ask("POST", "/articles", article).status == 200, "an article is refused")
    browser.until(lambda: len(browser.all("#alert-list > li")) == 4, "not all alerts are shown")
    write(browser, WRITTEN)
    browser.has("#remarks", "Warning")
    browser.pick("#pick", ARTICLES[0][0])
    browser.has("#verdict", "Holds")
    browser.run("document.activeElement.blur()")


def main(target: Path) -> None:
    """Takes the picture."""
    with tempfile.TemporaryDirectory() as name, Door() as door:
        browser = Browser(Path(name))
        try:
            stage(browser, door)
            with Image.open(browser.shoot("door")) as picture:
                picture.convert("RGB").quantize(COLOURS, Image.Quantize.MAXCOVERAGE.value).save(target, optimize=True)
        finally:
            browser.close()


if __name__ == "__main__":
    main(Path(sys.argv[1]))
