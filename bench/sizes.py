"""How many queries and articles a row has, by the options of the commands that measure."""

from __future__ import annotations

import argparse

from scenarios import Size

# Queries, articles to warm up with, articles to time. Up to 100,000 queries those to warm up with pay for one segment.
FULL = (Size(1_000, 4_000, 5_000), Size(10_000, 600, 2_000), Size(100_000, 1_000, 400), Size(1_000_000, 40, 100))
QUICK = (Size(1_000, 300, 2_000), Size(10_000, 50, 300), Size(100_000, 5, 30), Size(1_000_000, 5, 20))

# The numbers of queries that are measured where none are asked for.
UNASKED = (1_000, 10_000, 100_000)


def positive(text: str) -> int:
    """A whole number from 1."""
    number = int(text)
    if number < 1:
        raise ValueError(text)
    return number


def numbers(text: str) -> list[int]:
    """Whole numbers from 1, with commas between them."""
    return [positive(part) for part in text.split(",")]


def add_options(parser: argparse.ArgumentParser) -> None:
    """The options that say what is sent."""
    parser.add_argument("--quick", action="store_true", help="fewer articles: ends within a minute")
    parser.add_argument("--seed", type=int, default=1, help="of the queries and articles (1)")
    parser.add_argument("--sizes", type=numbers, metavar="N,..", help="only rows of these numbers of queries")
    parser.add_argument("--warm", type=int, metavar="N", help="articles to warm up with, for each row")
    parser.add_argument("--articles", type=positive, metavar="N", help="articles to time, for each row")


def sizes_of(options: argparse.Namespace) -> list[Size]:
    """The sizes to measure; one that is in neither list gets the articles of the next larger one that is."""
    known = QUICK if options.quick else FULL
    sizes = []
    for queries in options.sizes or UNASKED:
        base = next((size for size in known if size.queries >= queries), known[-1])
        warm = base.warm if options.warm is None else options.warm
        sizes.append(Size(queries, warm, base.timed if options.articles is None else options.articles))
    return sizes
