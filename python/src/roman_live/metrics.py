"""Figures for Prometheus."""

from __future__ import annotations

from collections.abc import Iterable

from prometheus_client import CollectorRegistry, Counter, Gauge, Histogram, generate_latest

STATUSES = ("ready", "frozen", "under way", "dead")


class Metrics:
    """The figures of a home since its start."""

    def __init__(self) -> None:
        registry = CollectorRegistry()
        self._registry = registry
        self.requests = Counter("roman_requests", "Requests, by their result", ["result"], registry=registry)
        self.seconds = Histogram("roman_request_seconds", "How long requests took that were served", registry=registry)
        self.asked = Counter("roman_device_asked", "How often a device was asked", ["service"], registry=registry)
        self.failures = Counter("roman_device_failures", "How often a device failed", ["service"], registry=registry)
        self.restarts = Counter("roman_program_restarts", "How often the program was started again", registry=registry)
        self.served = Gauge("roman_served", "Requests served, over all runs with this journal", registry=registry)
        self.composes = Gauge("roman_composes", "1 if there is a composition", registry=registry)
        self.status = Gauge(
            "roman_service", "1 for the status of each service", ["service", "status"], registry=registry
        )

    def show(self, served: int, composes: bool, services: Iterable[tuple[str, str]]) -> None:
        """Sets the present figures, and the status of each service."""
        self.served.set(served)
        self.composes.set(composes)
        self.status.clear()
        for service, present in services:
            for status in STATUSES:
                self.status.labels(service, status).set(status == present)

    def text(self) -> bytes:
        """All figures in the format of Prometheus."""
        text: bytes = generate_latest(self._registry)
        return text
