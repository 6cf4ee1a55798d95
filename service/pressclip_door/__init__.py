"""One HTTP process before an engine: REST, streams, alerts, metrics, deliveries, and a page."""
