"""The services of a home and their states, and the state of the environment."""

from __future__ import annotations

from dataclasses import dataclass

from roman_client import Document, Done, Failure, Report

from .events import now


@dataclass
class KnownService:
    """A service. `calls` counts its calls in this run, and `failures` those that failed since it last served."""

    behaviour: str
    state: str
    loose: bool
    since: str
    frozen: bool = False
    dead: bool = False
    calls: int = 0
    failures: int = 0
    last_error: str | None = None
    next_try: str | None = None


class Registry(dict[str, KnownService]):
    """The services by name, and the state of the environment."""

    def __init__(self, document: Document, opening: Report) -> None:
        super().__init__()
        self.environment = opening.environment
        for service in document.services:
            self.learn(service.name, service.behaviour, service.state, service.loose)

    def learn(self, name: str, behaviour: str, state: str, loose: bool) -> None:
        """Adds a service."""
        self[name] = KnownService(behaviour, state, loose, now())

    def now_in(self, service: str, state: str) -> None:
        """Sets the state of a service."""
        known = self[service]
        if known.state != state:
            known.state, known.since = state, now()

    def take(self, report: Report) -> None:
        """Takes all states from a report."""
        self.environment = report.environment
        present = {each.name: each for each in report.services}
        for name, service in present.items():
            if name not in self:
                self.learn(name, service.behaviour, service.state, service.loose)
            self.now_in(name, service.state)
            known = self[name]
            known.frozen, known.behaviour, known.loose = service.frozen, service.behaviour, service.loose
        for name, known in self.items():
            known.dead = name not in present

    def served(self, done: Done) -> None:
        """Records that a request was served."""
        self.environment = done.environment
        known = self[done.service]
        known.failures, known.last_error = 0, None
        self.now_in(done.service, done.state)

    def failed(self, failure: Failure) -> None:
        """Records that a service failed and is frozen."""
        known = self[failure.service]
        known.failures += 1
        known.last_error = failure.text
        known.frozen, known.since = True, now()

    def changed(self, words: tuple[str, ...]) -> None:
        """Records a change, by hand or by itself."""
        word, *rest = words
        if word == "jumpenv":
            self.environment = rest[0]
            return
        service = rest[0]
        if word == "join":
            self.learn(service, rest[1], rest[2], len(rest) == 4)
        elif word == "jump":
            self.now_in(service, rest[1])
        known = self[service]
        if word in ("freeze", "thaw"):
            known.frozen, known.since = word == "freeze", now()
        elif word == "die":
            known.dead, known.since = True, now()

    def present(self) -> list[str]:
        """The services that weren't removed."""
        return [name for name, known in self.items() if not known.dead]
