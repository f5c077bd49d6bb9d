"""The position of a session, which a dispatcher stores."""

from __future__ import annotations

import enum
from collections.abc import Mapping
from types import MappingProxyType
from typing import NamedTuple

from .replies import Report, Service


class Frozen(enum.Enum):
    """Why a service is frozen."""

    BY_HAND = "by hand"
    FAILED = "failed"
    IN_DOUBT = "in doubt"
    GONE = "gone"
    BEGINNING = "from the beginning"


class Place(NamedTuple):
    """A service: its behaviour, its state, whether it is loose, and why it is frozen, None if it isn't."""

    behaviour: str
    state: str
    loose: bool
    frozen: Frozen | None = None


class Position(NamedTuple):
    """The states of target, environment and services, in the order of a report, with the number of requests
    served, the number of the newest call, and that of the newest change."""

    target: str
    environment: str
    places: Mapping[str, Place] = MappingProxyType({})
    served: int = 0
    calls: int = 0
    changes: int = 0

    @classmethod
    def of_report(cls, report: Report) -> Position:
        """The position of a session that begins with this report."""
        places = {
            each.name: Place(each.behaviour, each.state, each.loose, Frozen.BEGINNING if each.frozen else None)
            for each in report.services
        }
        return cls(report.target, report.environment, places)

    @property
    def services(self) -> tuple[Service, ...]:
        """The services in the form of a report."""
        return tuple(
            Service(name, each.behaviour, each.state, each.frozen is not None, each.loose)
            for name, each in self.places.items()
        )

    def frozen(self, *causes: Frozen) -> frozenset[str]:
        """The services that are frozen for one of these causes."""
        return frozenset(name for name, each in self.places.items() if each.frozen in causes)

    def with_place(self, service: str, place: Place) -> Position:
        """The position with another place of a service."""
        return self._replace(places={**self.places, service: place})

    def after(self, words: tuple[str, ...], cause: Frozen) -> Position:
        """The position after a change that the program accepted. `cause` is the reason of a freeze."""
        word, *rest = words
        position = self._replace(changes=self.changes + 1)
        if word == "jumpenv":
            return position._replace(environment=rest[0])
        service = rest[0]
        if word == "die":
            return position._replace(places={name: each for name, each in self.places.items() if name != service})
        if word == "join":
            return position.with_place(service, Place(rest[1], rest[2], len(rest) == 4))
        place = self.places[service]
        if word == "jump":
            return position.with_place(service, place._replace(state=rest[1]))
        return position.with_place(service, place._replace(frozen=cause if word == "freeze" else None))
