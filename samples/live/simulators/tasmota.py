"""A plug with Tasmota: https://tasmota.github.io/docs/MQTT/ and /docs/Commands/.

It obeys `cmnd/TOPIC/POWER` (ON, OFF, TOGGLE, 1, 0, 2; empty to ask), and answers on `stat/TOPIC/RESULT` with JSON and
on `stat/TOPIC/POWER` with the plain word. `tele/TOPIC/LWT` is Online or Offline, retained, and `tele/TOPIC/STATE`
has its state now and then. After a restart it is as before, as with PowerOnState 3.
"""

from __future__ import annotations

import json

from .base import Settings
from .mqtt import MqttDevice

WORDS = {"ON": True, "1": True, "TRUE": True, "OFF": False, "0": False, "FALSE": False}

TELEMETRY = 2.0
"""After how many seconds telemetry comes (TelePeriod; devices have 300)."""


class Plug(MqttDevice):
    """A plug."""

    def __init__(self, name: str, settings: Settings, topic: str) -> None:
        super().__init__(name, settings)
        self.topic = topic
        self.on = False
        self.will = (f"tele/{topic}/LWT", "Offline")
        self.topics = (f"cmnd/{topic}/#",)
        self.world.soon(self._telemetry())

    @property
    def message(self) -> str:
        """The message that says its state."""
        return json.dumps({"POWER": "ON" if self.on else "OFF"})

    def connected(self) -> None:
        self.publish(f"tele/{self.topic}/LWT", "Online", retain=True)
        self.publish(f"tele/{self.topic}/INFO1", json.dumps({"Info1": {"Module": "Generic", "Version": "14.2.0"}}))
        self.publish(f"tele/{self.topic}/INFO3", json.dumps({"Info3": {"RestartReason": "Power On"}}))
        self.report()

    def report(self) -> None:
        """Says its state, now and then twice."""
        for _ in range(2 if self.world.happens(self.world.settings.failures) else 1):
            self.publish(f"stat/{self.topic}/RESULT", self.message)
            self.publish(f"stat/{self.topic}/POWER", "ON" if self.on else "OFF")

    async def _telemetry(self) -> None:
        while True:
            await self.world.later(TELEMETRY, lambda: self.publish(f"tele/{self.topic}/STATE", self._telemetry_text()))

    def _telemetry_text(self) -> str:
        state = {"Time": "2026-01-01T00:00:00", "Uptime": "0T00:10:00", "POWER": "ON" if self.on else "OFF"}
        return json.dumps({**state, "Wifi": {"AP": 1, "RSSI": 78, "Signal": -61}})

    def heard(self, topic: str, text: str) -> None:
        command, word = topic.rpartition("/")[2].upper(), text.strip().upper()
        if command != "POWER":
            self.publish(f"stat/{self.topic}/RESULT", json.dumps({"Command": "Unknown", "Input": command}))
        elif word in ("TOGGLE", "2"):
            self.obey(not self.on)
        elif word in WORDS:
            self.obey(WORDS[word])
        else:  # It is asked, or doesn't know the word: it says how it is.
            self.report()

    def obey(self, on: bool) -> None:
        """Acts on a command, unless something goes wrong."""
        fault = self.world.fault()
        if fault == "restart":
            self.world.soon(self.restart())
        elif fault != "deaf":
            delay = self.world.settings.late if fault == "late" else self.world.delay()
            self.world.soon(self.world.later(delay, lambda: self.switch(on, "command")))

    def switch(self, on: bool, by: str) -> None:
        """Is on or off from now on, and says so."""
        self.on = on
        self.world.note(self.message, by)
        self.report()

    def press(self) -> None:
        """Its button is pressed."""
        self.switch(not self.on, "hand")
