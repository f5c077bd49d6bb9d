"""Requests that the broker kept while the home was away: their age, and whether they are served."""

from __future__ import annotations

import contextlib
import json
import logging
import math
import os
import secrets
import time
from collections.abc import Mapping
from dataclasses import dataclass, field
from pathlib import Path
from typing import Any

from .limits import Clock

LOG = logging.getLogger("roman_live.mqtt_api")

BEAT = 15.0
"""The number of seconds between two records that the home hears the broker."""

SLACK = 60.0
"""The number of seconds before the last record in which a request may have been missed. A lost broker is noticed within
that time."""

AT_ONCE = 1.0
"""The age in seconds below which a request is served, however soon it expires."""

LONGEST_DRAIN = 60.0
"""The seconds after which all kept requests have come, even if the mark hasn't."""


class LastHeard:
    """A file beside the store with the time at which the home last heard the broker, in seconds since 1970. It isn't
    synced: after a power failure the time is older, and requests count as older than they are."""

    def __init__(self, path: Path, clock: Clock = time.time) -> None:
        self._path = path
        self._clock = clock
        self.time = self._read()

    def _read(self) -> float:
        try:
            return float(self._path.read_text(encoding="ascii"))
        except (OSError, ValueError):
            return -math.inf  # The time is unknown.

    def note(self) -> None:
        """Records that the broker is heard now."""
        self.time = self._clock()
        try:
            with open(self._path, "r+b" if self._path.exists() else "wb") as file:
                os.pwrite(file.fileno(), f"{self.time:020.3f}".encode(), 0)
        except OSError as error:
            LOG.warning("%s: %s", self._path, error.strerror)


class Keeping:
    """Distinguishes requests that the broker kept from new ones. At a new connection the broker first sends the kept
    ones, and then a mark, which the home itself publishes."""

    def __init__(self, heard: LastHeard, clock: Clock = time.time) -> None:
        self._heard = heard
        self._clock = clock
        self._mark = ""
        self._since = -math.inf
        self._until = -math.inf

    @property
    def is_draining(self) -> bool:
        """Whether a request that comes now may have been kept."""
        return bool(self._mark) and time.monotonic() < self._until

    def begin(self, resumed: bool) -> Mapping[str, str] | None:
        """Handles a new connection. Returns the mark to publish on the topic of requests if the session was resumed."""
        if not self.is_draining:
            is_known = self._heard.time <= self._clock()  # Otherwise the clock was set back.
            self._since = self._heard.time - SLACK if is_known else -math.inf
        self._mark = secrets.token_hex(8) if resumed else ""
        self._until = time.monotonic() + LONGEST_DRAIN
        return {"mark": self._mark} if resumed else None

    def hear(self, value: Mapping[str, Any]) -> bool:
        """Checks a message. Returns True if it is a mark, and no request."""
        if "mark" not in value:
            return False
        if value["mark"] == self._mark:
            self._mark = ""
        return True

    def note(self) -> None:
        """Records that the broker is heard, after all kept requests have come."""
        if not self.is_draining:
            self._heard.note()

    def request(self, value: Mapping[str, Any]) -> MqttRequest:
        """The request in a message. Without `sent` its age is the greatest possible one."""
        sent = _number(value.get("sent", self._since if self.is_draining else self._clock()))
        age = None if sent is None else max(0.0, self._clock() - sent)
        return MqttRequest(value, self.is_draining, age)


@dataclass(frozen=True)
class MqttRequest:
    """A request. `kept` is whether the broker may have kept it, and `first_age` is its age in seconds when it came,
    None if its `sent` isn't a number."""

    value: Mapping[str, Any]
    kept: bool = False
    first_age: float | None = 0.0
    came: float = field(default_factory=time.monotonic)

    @property
    def age(self) -> float:
        """The present age in seconds."""
        return (self.first_age or 0.0) + time.monotonic() - self.came

    def hindrance(self, expires: float) -> str | None:
        """The reason why the request isn't served, if it is out of date."""
        if self.kept and self.value.get("key") is None:
            return "it came while the home was away, and has no key"
        if self.age >= max(expires, AT_ONCE):
            return f"it was made more than {expires:g} seconds ago, or may have been, and no device was asked"
        return None


def _number(value: Any) -> float | None:
    """A number of JSON as a float. None if the value isn't a number, or is too large."""
    if isinstance(value, (int, float)) and not isinstance(value, bool) and value == value:
        with contextlib.suppress(OverflowError):
            return float(value)
    return None


def message_of(payload: bytes) -> dict[str, Any]:
    """The JSON object in a payload, which is empty if there is none."""
    try:
        value = json.loads(payload)
    except (ValueError, RecursionError):
        return {}
    return value if isinstance(value, dict) else {}
