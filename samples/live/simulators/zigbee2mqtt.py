"""Devices behind Zigbee2MQTT: https://www.zigbee2mqtt.io/guide/usage/mqtt_topics_and_messages.html.

`zigbee2mqtt/NAME` has the state as JSON, retained if `retain` is set; `/set` takes `{"state": "ON"}`, and `/get`
`{"state": ""}`. `/availability` is `{"state": "online"}` or offline, retained. After a command the bridge publishes
the state that the device has acknowledged, and often once more what the device reports.
"""

from __future__ import annotations

import json
from typing import Any

from .base import Settings
from .mqtt import AWAY, MqttDevice

KINDS: dict[str, dict[str, Any]] = {
    "light": {"state": "OFF", "brightness": 254, "linkquality": 96, "update": {"state": "idle"}},
    "lock": {"state": "UNLOCK", "lock_state": "unlocked", "battery": 87, "linkquality": 51},
    "sensor": {"illuminance": 5000, "battery": 92, "linkquality": 70},
    "cover": {"state": "CLOSE", "position": 0, "linkquality": 88},
}
"""The states with which the kinds of devices begin."""

WORDS = {
    "light": {"ON": {"state": "ON"}, "OFF": {"state": "OFF"}},
    "lock": {
        "LOCK": {"state": "LOCK", "lock_state": "locked"},
        "UNLOCK": {"state": "UNLOCK", "lock_state": "unlocked"},
    },
    "cover": {"OPEN": {"state": "OPEN", "position": 100}, "CLOSE": {"state": "CLOSE", "position": 0}},
    "sensor": {},
}
"""What becomes of a device of each kind by each word."""


class ZigbeeDevice(MqttDevice):
    """A device behind the bridge. Its bridge is simulated with it, so that `zigbee2mqtt/bridge/state` isn't."""

    def __init__(self, name: str, settings: Settings, kind: str, retain: bool = False) -> None:
        super().__init__(name, settings)
        self.kind = kind
        self.retain = retain
        self.topic = f"zigbee2mqtt/{name}"
        self.state = dict(KINDS[kind])
        self.will = (f"{self.topic}/availability", json.dumps({"state": "offline"}))
        self.topics = (f"{self.topic}/set", f"{self.topic}/get")

    @property
    def message(self) -> str:
        """The message that says its state."""
        return json.dumps(self.state)

    def connected(self) -> None:
        self.publish(f"{self.topic}/availability", json.dumps({"state": "online"}), retain=True)
        self.report()

    def report(self) -> None:
        """Says its state."""
        self.publish(self.topic, self.message, self.retain)

    def heard(self, topic: str, text: str) -> None:
        if topic.endswith("/get"):
            if not self.world.happens(self.world.settings.failures):  # A device that sleeps doesn't answer.
                self.report()
            return
        try:
            value = json.loads(text)
        except ValueError:
            value = {"state": text}
        word = str(value.get("state", "")).upper() if isinstance(value, dict) else ""
        changed = WORDS[self.kind].get(word)
        if changed is not None:
            self.obey(changed)

    def obey(self, changed: dict[str, Any]) -> None:
        """Acts on a command, unless something goes wrong: the bridge says nothing if the device doesn't answer."""
        fault = self.world.fault()
        if fault == "restart":
            self.world.soon(self.restart())
        elif fault != "deaf":
            delay = self.world.settings.late if fault == "late" else self.world.delay()
            self.world.soon(self.world.later(delay, lambda: self.change(changed, "command")))

    def change(self, changed: dict[str, Any], by: str) -> None:
        """Is otherwise from now on, and says so: at once, and often once more."""
        self.state.update(changed)
        self.world.note(self.message, by)
        self.report()
        if self.world.happens(0.5):
            self.world.soon(self.world.later(AWAY * self.world.chance.random(), self.report))

    def press(self) -> None:
        """It is moved by hand; a sensor sees another light."""
        if self.kind == "sensor":
            self.change({"illuminance": self.world.chance.choice((3, 8, 900, 5000))}, "hand")
            return
        words = WORDS[self.kind]
        self.change(next(each for each in words.values() if each["state"] != self.state["state"]), "hand")
