"""The sample of an access list for mosquitto, tested with a mosquitto."""

from __future__ import annotations

import subprocess
import threading
from collections.abc import Iterator
from pathlib import Path
from typing import Any

import pytest

from roman_live.mqtt_api import new_client

from . import TOP
from .machinery import PATIENCE, Mosquitto

EVERYBODY = "everybody"
"""A user of the test, who may do all."""

TOPICS = {"roman/requests", "roman/environment", "roman/answers", "roman/state", "other/requests", "home/window/state"}
TOPICS |= {f"home/{name}/{what}" for name in ("window", "kettle") for what in ("ask", "answer")}

WRITES: dict[str, set[str]] = {
    "roman-live": {"roman/requests", "roman/answers", "roman/state", "home/window/ask", "home/kettle/ask"},
    "panel": {"roman/requests"},
    "watcher": set(),
    "sensor": {"roman/environment"},
    "window": {"home/window/answer"},
    "kettle": {"home/kettle/answer"},
}
READS: dict[str, set[str]] = {
    "roman-live": {
        "roman/requests",
        "roman/environment",
        "roman/state",
        "home/window/answer",
        "home/kettle/answer",
    },
    "panel": {"roman/answers", "roman/state"},
    "watcher": {"roman/state"},
    "sensor": set(),
    "window": {"home/window/ask"},
    "kettle": {"home/kettle/ask"},
}


class User:
    """A user at the broker, with the messages that were received."""

    def __init__(self, name: str, port: int) -> None:
        self.name = name
        self.heard: set[tuple[str, str]] = set()
        self._event = threading.Event()
        self._client = new_client()
        self._client.username_pw_set(name, name)
        self._client.on_connect = lambda *words: self._event.set()
        self._client.on_subscribe = lambda *words: self._event.set()
        self._client.on_message = self._hear
        self._client.connect("127.0.0.1", port)
        self._client.loop_start()
        self._wait()

    def _wait(self) -> None:
        assert self._event.wait(PATIENCE)
        self._event.clear()

    def _hear(self, client: Any, data: Any, message: Any) -> None:
        self.heard.add((message.payload.decode(), message.topic))

    def subscribe(self, topic: str) -> None:
        """Subscribes. The broker's confirmation comes after its earlier messages."""
        self._client.subscribe(topic, qos=1)
        self._wait()

    def publish(self, topic: str) -> None:
        """Publishes its name, and waits until the broker has it."""
        self._client.publish(topic, self.name, qos=1).wait_for_publish(PATIENCE)

    def close(self) -> None:
        """Disconnects."""
        self._client.disconnect()
        self._client.loop_stop()


@pytest.fixture(name="users")
def make_users(tmp_path: Path) -> Iterator[dict[str, User]]:
    """A user for each part of the access list, at a broker with it."""
    acl, passwords = tmp_path / "acl", tmp_path / "passwords"
    sample = (TOP / "samples" / "live" / "mosquitto.acl").read_text(encoding="utf-8")
    acl.write_text(f"user {EVERYBODY}\ntopic readwrite #\n\n{sample}", encoding="utf-8")
    passwords.write_text("".join(f"{name}:{name}\n" for name in (EVERYBODY, *WRITES)), encoding="ascii")
    subprocess.run(["/usr/bin/mosquitto_passwd", "-U", str(passwords)], check=True)
    more = f"user root\nallow_anonymous false\npassword_file {passwords}\nacl_file {acl}\n"
    broker = Mosquitto(tmp_path, more)
    users = {name: User(name, broker.port) for name in (EVERYBODY, *WRITES)}
    yield users
    for user in users.values():
        user.close()
    broker.stop()


def test_who_may_write(users: dict[str, User]) -> None:
    users[EVERYBODY].subscribe("#")
    for name in WRITES:
        for topic in TOPICS:
            users[name].publish(topic)
    users[EVERYBODY].subscribe("the/end")
    assert users[EVERYBODY].heard == {(name, topic) for name, topics in WRITES.items() for topic in topics}


def test_who_may_read(users: dict[str, User]) -> None:
    for name in READS:
        users[name].subscribe("#")
    for topic in TOPICS:
        users[EVERYBODY].publish(topic)
    for name, topics in READS.items():
        users[name].subscribe("the/end")
        assert {topic for _, topic in users[name].heard} == topics
