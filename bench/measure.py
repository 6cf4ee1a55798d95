"""Runs a scenario on one engine, or on two in turn, and judges their replies."""

from __future__ import annotations

import json
import os
import statistics
from dataclasses import dataclass, field
from typing import Iterator, Sequence

from engine import Engine, EngineFailed, Exchange
from meaning import Presearcher, fields_of, holds
from scenarios import Scenario, Size
from workload import Workload, line_of

COUNT = line_of({"op": "count"})


@dataclass
class Result:
    """What one engine did with one scenario."""

    engine: str
    size: Size
    registering: list[Exchange] = field(default_factory=list)
    warming: list[Exchange] = field(default_factory=list)
    matching: list[Exchange] = field(default_factory=list)
    grown_bytes: int = 0

    @property
    def registered_per_second(self) -> float:
        """Queries a second by the clock."""
        return self.size.queries / sum(run.seconds for run in self.registering)

    @property
    def pass_micros(self) -> list[float]:
        """Microseconds an article by the clock, of each pass."""
        return [1e6 * run.seconds / max(1, articles_in(run)) for run in self.matching]

    @property
    def wall_micros(self) -> float:
        """Microseconds an article by the clock, the median pass."""
        return statistics.median(self.pass_micros)

    @property
    def best_micros(self) -> float:
        """Microseconds an article by the clock, the best pass."""
        return min(self.pass_micros)

    @property
    def cpu_micros(self) -> float:
        """Microseconds of processor time an article, all passes."""
        return 1e6 * sum(run.cpu_seconds for run in self.matching) / self.size.timed

    @property
    def matches(self) -> float:
        """Queries that hold, an article."""
        return sum(len(ids) for run in self.matching for _, ids in alerts_of(run.replies)) / self.size.timed

    @property
    def hits(self) -> float:
        """Hits that replies show, an article."""
        return sum(hits_in(reply) for run in self.matching for reply in run.replies) / self.size.timed

    @property
    def bytes_per_query(self) -> float:
        """Growth of the process by registering, a query."""
        return self.grown_bytes / self.size.queries


def machine() -> str:
    """What the figures were taken on, and how busy it is."""
    model = "unknown processor"
    with open("/proc/cpuinfo") as file:
        for line in file:
            if line.startswith("model name"):
                model = line.split(":", 1)[1].strip()
                break
    return f"{os.cpu_count()} cores, {model}; load {os.getloadavg()[0]:.1f}"


def alerts_of(replies: Sequence[bytes]) -> Iterator[tuple[str, list[str]]]:
    """The articles of the replies, with the ids of the queries that hold of each."""
    for reply in replies:
        for alert in json.loads(reply).get("alerts", ()):
            yield alert["article"], alert["queries"]


def hits_in(reply: bytes) -> int:
    """How many hits a reply shows."""
    return reply.count(b'"position":')


def articles_in(run: Exchange) -> int:
    """How many articles were answered."""
    return sum(reply.count(b'"article":') for reply in run.replies)


def in_turn(engines: Sequence[Engine], passes: Sequence[list[bytes]],
            in_lock_step: bool = False) -> Iterator[tuple[int, Exchange]]:
    """Each pass by each engine, the first and the last engine beginning in turn; with the place of the engine."""
    places = list(range(len(engines)))
    for lines in passes:
        for place in places:
            engine = engines[place]
            yield place, engine.exchange_in_lock_step(lines) if in_lock_step else engine.exchange(lines)
        places.reverse()


def run_scenario(engines: Sequence[Engine], scenario: Scenario) -> list[Result]:
    """Registers, warms up and matches, each engine in a process that has just started."""
    results = [Result(engine.name, scenario.size) for engine in engines]
    before = []
    for engine in engines:
        engine.exchange([COUNT])
        before.append(engine.resident_bytes())
    passes = [*scenario.register[:-1], [*scenario.register[-1], COUNT]]
    for place, run in in_turn(engines, passes):
        results[place].registering.append(run)
    for result, engine, start in zip(results, engines, before):
        check_count(result)
        result.grown_bytes = engine.resident_bytes() - start
        result.warming.append(engine.exchange(scenario.warm))
    for place, run in in_turn(engines, scenario.timed, scenario.in_lock_step):
        results[place].matching.append(run)
    for result in results:
        check_articles(result)
    return results


def check_count(result: Result) -> None:
    """Sees that every query was registered."""
    told = json.loads(result.registering[-1].replies[-1]).get("count")
    if told != result.size.queries:
        raise EngineFailed(f"{result.engine} counts {told} queries, and not {result.size.queries}")


def check_articles(result: Result) -> None:
    """Sees that every article was answered."""
    answered = sum(articles_in(run) for run in result.warming + result.matching)
    if answered != result.size.articles:
        raise EngineFailed(f"{result.engine} answers {answered} of {result.size.articles} articles")


def median_ratio(first: Result, second: Result) -> float:
    """How many times as long the second engine takes, the median over the passes."""
    return statistics.median(b / a for a, b in zip(first.pass_micros, second.pass_micros))


def differing(first: Result, second: Result) -> list[str]:
    """The articles for which two engines name other queries, or the same in another order."""
    told = zip(*((alert for run in result.warming + result.matching for alert in alerts_of(run.replies))
                 for result in (first, second)))
    return [one[0] for one, other in told if one != other]


def wrong(workload: Workload, scenario: Scenario, result: Result, articles: int) -> list[str]:
    """The articles, among so many of the first timed ones, for which the engine's ids are not those by
    `meaning.holds`, in byte order."""
    alerts = (alert for run in result.matching for alert in alerts_of(run.replies))
    found = []
    for article, (told, ids) in zip(scenario.articles[:articles], alerts):
        fields = fields_of(article)
        due = [id for (id, _), query in zip(workload.named[:result.size.queries], workload.queries)
               if holds(query, fields)]
        if told != article.id or ids != sorted(due, key=str.encode):
            found.append(article.id)
    return found


def candidates_per_article(workload: Workload, scenario: Scenario, articles: int) -> float:
    """How many queries share a key with an article, on average over so many of the first timed ones."""
    presearcher = Presearcher()
    presearcher.add(workload.queries[:scenario.size.queries])
    sample = scenario.articles[:articles]
    return sum(len(presearcher.candidates(fields_of(article))) for article in sample) / len(sample)
