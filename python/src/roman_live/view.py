"""The state of a home as JSON: over HTTP, for Prometheus, and on the broker."""

from __future__ import annotations

import asyncio
import contextlib
import json
import logging
from collections.abc import Callable
from typing import TYPE_CHECKING, Any

from roman_client import Explanation, Report, RomanError, SessionOver

from .discovery import Discovery
from .errors import TEMPORARY_ERRORS
from .events import now
from .mqtt_api import GONE
from .opening import without_composition
from .remedies import Remedies
from .states import STUCK, actions_to_json, explanation_to_json, is_stuck, target_to_json

if TYPE_CHECKING:
    from .home import Home

LOG = logging.getLogger("roman_live")

BETWEEN_STATES = 0.05
"""The minimum number of seconds between two states that listeners are sent."""


class View:
    """Makes the state of a home as JSON, and publishes it."""

    def __init__(self, home: Home) -> None:
        self._home = home
        self.listener: Callable[[str], None] | None = None
        """Receives the status of the home in one line, whenever it may have changed."""
        self._report = home.session.opening
        self._explained: tuple[Report, Explanation | None] | None = None
        self._stuck = False
        self._remedies = Remedies(home.document, home.session.core.words)
        self._discovery = self._make_discovery()

    def _make_discovery(self) -> Discovery | None:
        """The messages for Home Assistant, if the home file asks for them."""
        broker = self._home.fleet.broker
        if broker is None or broker.broker.discovery is None:
            return None
        home = self._home
        return Discovery(home.file, home.document, broker, broker.broker.discovery, home.dirty.set)

    async def state(self) -> dict[str, Any]:
        """The present state as JSON."""
        report = await self._present_report()
        explanation = await self._explanation(report)
        services = [self._service_to_json(name) for name in self._home.registry]
        return {
            "document": self._home.file.document.name,
            "title": self._home.file.words.title,
            "words": {"actions": self._home.file.words.actions, "states": self._home.file.words.states},
            "time": now(),
            "simulated": self._home.simulate,
            "target": target_to_json(self._home.document, report),
            "environment": report.environment,
            "environments": list(self._home.document.environment.states),
            "composes": report.composition,
            "actions": actions_to_json(self._home.document, report),
            "services": services,
            "behaviours": {each.name: list(each.states) for each in self._home.document.behaviours.values()},
            "request": self._request_to_json(report),
            "explanation": None if explanation is None else explanation_to_json(explanation),
            "counts": {
                "served": self._home.dispatcher.served,
                "waiting": max(0, self._home.requests.open - 1),
                "frozen": sum(each["status"] == "frozen" for each in services),
                "dead": sum(each["status"] == "dead" for each in services),
            },
            "broker": None if self._home.fleet.broker is None else self._home.fleet.broker.connected,
        }

    async def figures(self) -> bytes:
        """The figures for Prometheus."""
        report = await self._present_report()
        services = [(name, self._status(name)) for name in self._home.registry]
        self._home.metrics.show(self._home.dispatcher.served, report.composition, services)
        return self._home.metrics.text()

    async def remedies(self) -> dict[str, Any]:
        """The changes that would help if there is no composition."""
        return await self._remedies.of(await self._present_report())

    async def allowed(self) -> list[str]:
        """The actions that are offered now."""
        report = await self._present_report()
        return list(report.offers)

    async def _present_report(self) -> Report:
        """The newest report, or an earlier one while the program is restarted."""
        try:
            self._report = await self._home.reply(self._home.session.report())
        except SessionOver:
            if not self._home.requests.open:
                self._report = await self._home.dispatcher.report()
        stuck = is_stuck(self._home.document, self._report)
        if stuck and not self._stuck:
            self._home.events.add("stuck", STUCK, level=logging.WARNING, target=self._report.target)
        self._stuck = stuck
        return self._report

    async def _explanation(self, report: Report) -> Explanation | None:
        """The explanation why there is no composition, if there is none and no request is open."""
        if report.composition or self._home.requests.open:
            return None
        if self._explained is None or self._explained[0] != report:
            try:
                explanation: Explanation | None = await self._home.reply(self._home.session.explain())
            except RomanError:
                return None
            self._explained = (report, explanation)
        return self._explained[1]

    def _status(self, service: str) -> str:
        known = self._home.registry[service]
        if known.dead:
            return "dead"
        if self._home.activity.call is not None and self._home.activity.call[0].service == service:
            return "under way"
        return "frozen" if known.frozen else "ready"

    def _service_to_json(self, name: str) -> dict[str, Any]:
        known = self._home.registry[name]
        device = self._home.fleet.devices.get(name)
        entry = self._home.file.devices.get(name)
        return {
            "name": name,
            "title": None if entry is None else entry.title,
            "room": None if entry is None else entry.room,
            "behaviour": known.behaviour,
            "state": known.state,
            "states": list(self._home.document.behaviours[known.behaviour].states),
            "status": self._status(name),
            "by_hand": known.frozen and name in self._home.fleet.held(),
            "loose": known.loose,
            "reached": None if device is None else device.reach.reached,
            "since": known.since,
            "last_error": known.last_error,
            "next_try": known.next_try,
        }

    def _request_to_json(self, report: Report) -> dict[str, Any] | None:
        """The open request. With simulated devices it has the possible outcomes, too."""
        if self._home.activity.call is None:
            return None
        call, since = self._home.activity.call
        shown: dict[str, Any] = {
            "id": self._home.fleet.number(call),
            "action": call.request,
            "service": call.service,
            "since": since,
        }
        if self._home.simulate:
            known = self._home.registry[call.service]
            shown["outcomes"] = [
                {"state": state, "environment": environment}
                for state, environment in self._home.document.outcomes(
                    known.behaviour, known.state, report.environment, call.request
                )
            ]
        return shown

    async def opening(self) -> str | None:
        """The message that there is no composition at the start, if there is none."""
        report = await self._present_report()
        explanation = await self._explanation(report)
        return None if explanation is None else without_composition(explanation, str(self._home.file.document))

    async def publish(self) -> None:
        """Sends listeners and the broker the state whenever it has changed."""
        while True:
            await self._home.dirty.wait()
            self._home.dirty.clear()
            try:
                if self._home.events.listeners:
                    self._home.events.show(await self.state())
                if self._home.fleet.broker is not None:
                    self._home.fleet.broker.publish_now(
                        self._home.fleet.broker.state_topic, await self._summary(), retain=True
                    )
                    if self._discovery is not None:
                        self._discovery.publish(self._home.registry)
                if self.listener is not None:
                    self.listener(self._line(await self._present_report()))
            except TEMPORARY_ERRORS as error:
                LOG.warning("the state can't be had: %s", error)
            except Exception:
                LOG.exception("the state can't be published")
            await asyncio.sleep(BETWEEN_STATES)

    def _line(self, report: Report) -> str:
        """The status of the home in one line."""
        words = ["there is a composition" if report.composition else "there is no composition"]
        if is_stuck(self._home.document, report):
            words.append(STUCK)
        frozen = [each.name for each in report.services if each.frozen]
        if frozen:
            words.append(f"frozen: {', '.join(frozen)}")
        if self._home.fleet.broker is not None and not self._home.fleet.broker.connected:
            words.append("the broker is away")
        return "; ".join(words)

    def hear_state(self, payload: bytes, retained: bool) -> None:
        """Handles the state that the broker retains. If it states that the home is gone, publishes the state again. The
        broker may have noticed a lost connection late, or another start of this home may have failed."""
        with contextlib.suppress(ValueError, RecursionError):
            if json.loads(payload) == GONE:
                self._home.dirty.set()

    async def _summary(self) -> dict[str, Any]:
        """A summary of the state, for other clients of the broker."""
        report = await self._present_report()
        return {
            "target": report.target,
            "environment": report.environment,
            "composes": report.composition,
            "offers": {action: list(services) for action, services in report.offers.items()},
            "services": {
                name: {"state": known.state, "status": self._status(name), "error": known.last_error}
                for name, known in self._home.registry.items()
            },
            "counts": {
                "served": self._home.dispatcher.served,
                "frozen": sum(each.frozen for each in report.services),
            },
        }
