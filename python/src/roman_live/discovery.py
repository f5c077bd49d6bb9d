"""MQTT discovery, by which Home Assistant makes entities for a home: https://www.home-assistant.io/integrations/mqtt/.

All entities read the topic of the home's state, and are unavailable once the home is gone.
"""

from __future__ import annotations

import contextlib
import json
import re
from collections.abc import Callable, Iterable, Iterator
from typing import Any

from roman_client import Document, __version__

from .config import HomeFile
from .mqtt_api import Connection

HERE = "{{ 'offline' if value_json.gone is defined else 'online' }}"
"""The template of the home's availability, by its state."""

Entity = dict[str, Any]


class Discovery:
    """The messages of a home at its broker. They are published when a service joins and when Home Assistant starts.
    They are also published at each new connection, because the broker may have lost them."""

    def __init__(
        self, file: HomeFile, document: Document, broker: Connection, prefix: str, changed: Callable[[], None]
    ) -> None:
        """Listens for Home Assistant, and for older messages. `changed` is called when `publish` has something to
        do."""
        self._file = file
        self._document = document
        self._broker = broker
        self._prefix = prefix
        self._node = "roman_" + re.sub(r"[^A-Za-z0-9_-]", "_", broker.broker.prefix)
        self._changed = changed
        self._published: tuple[object, ...] = ()
        self._retained: set[str] = set()
        broker.subscribe(f"{prefix}/status", self._hear_status)
        broker.subscribe_all(f"{prefix}/+/{self._node}/+/config", self._hear_retained)

    def _hear_status(self, payload: bytes, retained: bool) -> None:
        """Publishes all messages again when Home Assistant has started."""
        if payload == b"online":
            self._published = ()
            self._changed()

    def _hear_retained(self, topic: str, payload: bytes, retained: bool) -> None:
        """Notes a message of this home that the broker has retained, perhaps one of an older document."""
        with contextlib.suppress(ValueError, RecursionError):
            message = json.loads(payload)
            own = isinstance(message, dict) and message.get("availability_topic") == self._broker.state_topic
            if retained and own:
                self._retained.add(topic)
                self._changed()

    def publish(self, services: Iterable[str]) -> None:
        """Publishes all messages if they aren't published yet, and removes the retained ones of other entities."""
        present = (self._broker.connections, *services)
        if present == self._published and not self._retained:
            return
        messages = {topic: json.dumps(message) for topic, message in self.messages(services)}
        for topic in sorted(self._retained - messages.keys()):
            self._broker.send_now(topic, "", retain=True)
        self._retained.clear()
        if present != self._published:
            if all([self._broker.send_now(topic, text, retain=True) for topic, text in messages.items()]):
                self._published = present

    def messages(self, services: Iterable[str]) -> Iterator[tuple[str, Entity]]:
        """Each message with its topic."""
        for kind, name, entity in self._entities(services):
            entity.setdefault("availability_template", HERE)
            common = {
                "unique_id": f"{self._node}_{name}",
                "object_id": f"{self._node}_{name}",
                "availability_topic": self._broker.state_topic,
                "device": self._device,
                "origin": {"name": "roman-live", "sw_version": __version__},
            }
            yield f"{self._prefix}/{kind}/{self._node}/{name}/config", {**entity, **common}

    @property
    def _device(self) -> Entity:
        title = self._file.words.title or self._file.document.stem
        return {"identifiers": [self._node], "name": title, "manufacturer": "roman", "model": self._file.document.name}

    def _entities(self, services: Iterable[str]) -> Iterator[tuple[str, str, Entity]]:
        """Each entity, with its component and its own name."""
        for action in self._document.actions:
            yield "button", f"do_{action}", self._button(action)
        yield "sensor", "target", self._sensor("Target", "value_json.target")
        for service in services:
            yield "sensor", f"service_{service}", self._service(service)
        yield from self._environment()
        composes = self._sensor("There is a composition", "'ON' if value_json.composes else 'OFF'")
        yield "binary_sensor", "composes", composes
        for name, title in (("served", "Requests served"), ("frozen", "Out of order")):
            counted = {"entity_category": "diagnostic", "state_class": "measurement" if name == "frozen" else "total"}
            yield "sensor", name, {**self._sensor(title, f"(value_json.counts | default({{}})).{name}"), **counted}

    def _sensor(self, name: str, value: str) -> Entity:
        return {"name": name, "state_topic": self._broker.state_topic, "value_template": f"{{{{ {value} }}}}"}

    def _button(self, action: str) -> Entity:
        """A button is available while its request is offered."""
        offered = f"(value_json.offers | default({{}})).get({json.dumps(action)})"
        return {
            "name": self._file.words.actions.get(action, action),
            "command_topic": self._broker.topic("requests"),
            "payload_press": json.dumps({"action": action, "by": "Home Assistant"}),
            "qos": 1,
            "availability_template": f"{{{{ 'online' if {offered} else 'offline' }}}}",
        }

    def _service(self, service: str) -> Entity:
        """A sensor of a service: its state, with its status and its last error as attributes."""
        entry = self._file.devices.get(service)
        found = f"(value_json.services | default({{}}))[{json.dumps(service)}]"
        return {
            **self._sensor((entry and entry.title) or service, f"({found} | default({{}})).state"),
            "json_attributes_topic": self._broker.state_topic,
            "json_attributes_template": f"{{{{ {found} | default({{}}) | tojson }}}}",
        }

    def _environment(self) -> Iterator[tuple[str, str, Entity]]:
        """A select for the environment, or a sensor if a device reports it."""
        shown = self._sensor("Environment", "value_json.environment")
        if self._file.environment is not None:
            yield "sensor", "environment", shown
            return
        yield "select", "environment", {
            **shown,
            "command_topic": self._broker.topic("environment"),
            "command_template": '{"state": "{{ value }}"}',
            "options": list(self._document.environment.states),
        }
