"""What Prometheus is told."""

from __future__ import annotations

from prometheus_client import CollectorRegistry, Counter, Gauge, Histogram

SECONDS = (0.0005, 0.001, 0.002, 0.005, 0.01, 0.02, 0.05, 0.1, 0.5, 1, 5)


class Metrics:
    """The figures of one door."""

    def __init__(self) -> None:
        self.registry = CollectorRegistry()
        self.lines = self._counter("pressclip_lines", "Lines that the engine answered", "op")
        self.refused = self._counter("pressclip_refused", "Lines that the engine refused", "word")
        self.alerts = self._counter("pressclip_alerts", "Pairs of an article and a query that holds of it")
        self.requests = self._counter("pressclip_requests", "Requests over HTTP", "method", "status")
        self.problems = self._counter("pressclip_problems", "Requests that were refused", "word")
        self.restarts = self._counter("pressclip_engine_restarts", "Starts of the engine after the first")
        self.dropped = self._counter("pressclip_listeners_dropped", "Listeners that read too slowly")
        self.deliveries = self._counter("pressclip_deliveries", "Parcels that were taken, and carriages that failed",
                                        "route", "outcome")
        self.seconds = Histogram("pressclip_reply_seconds", "Seconds from a line to its reply", buckets=SECONDS,
                                 registry=self.registry)
        self.in_flight = Gauge("pressclip_lines_in_flight", "Lines that a reply is owed to", registry=self.registry)
        self.queries = Gauge("pressclip_queries", "Registered queries", registry=self.registry)
        self.journal_bytes = Gauge("pressclip_journal_bytes", "Size of the journal", registry=self.registry)
        self.replay_seconds = Gauge("pressclip_replay_seconds", "Seconds of the last start, with the replay of the journal",
                                    registry=self.registry)
        self.listeners = Gauge("pressclip_listeners", "Open streams of alerts", registry=self.registry)

        self.waiting = Gauge("pressclip_deliveries_waiting", "Parcels that wait", ["route"], registry=self.registry)
        self.waiting_seconds = Gauge("pressclip_deliveries_oldest_seconds", "For how long the oldest parcel waits",
                                     ["route"], registry=self.registry)

        self._requests_of: dict[tuple[str, int], Counter] = {}

    def count_request(self, method: str, status: int) -> None:
        """Counts a request that was answered."""
        found = self._requests_of.get((method, status))
        if found is None:
            found = self._requests_of[method, status] = self.requests.labels(method, str(status))
        found.inc()

    def _counter(self, name: str, says: str, *labels: str) -> Counter:
        return Counter(name, says, labels, registry=self.registry)
