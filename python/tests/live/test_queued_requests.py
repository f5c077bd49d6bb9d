"""Requests over MQTT that the broker receives while the home is away. Each with a key is served once."""

from __future__ import annotations

import json
import math
import threading
import time
from collections.abc import Callable, Iterator
from pathlib import Path
from typing import Any
from unittest import mock

import paho.mqtt.client as mqtt  # type: ignore[import]
import pytest

from roman_client import Document
from roman_live.config import Broker
from roman_live.mqtt_api import SessionConnection
from roman_live.queued_requests import BEAT, LONGEST_DRAIN, SLACK, Keeping, LastHeard, MqttRequest

from . import sample
from .machinery import PATIENCE, Live, Mosquitto, until
from .test_devices import CYCLE
from .world import HttpDevices, World

REQUESTS = 200
"""The number of requests that come while the home is away."""

HOME = """
document = "{document}"
[mqtt]
port = {broker}
{journal}
[limits]
messages = 10000
"""

DEVICE = """
[devices.{name}]
reach = "http"
url = "{url}/{name}"
seconds = {seconds}
"""


class Person:
    """Makes requests at QoS 1, and records the answers by their ids."""

    def __init__(self, port: int) -> None:
        self.answers: dict[Any, list[dict[str, Any]]] = {}
        listening = threading.Event()
        self.client = mqtt.Client()
        self.client.on_connect = lambda *words: self.client.subscribe("roman/answers", 1)
        self.client.on_subscribe = lambda *words: listening.set()
        self.client.on_message = self.hear
        self.client.connect("127.0.0.1", port)
        self.client.loop_start()
        assert listening.wait(PATIENCE)

    def hear(self, client: Any, data: Any, message: Any) -> None:
        value = json.loads(message.payload)
        self.answers.setdefault(value["id"], []).append(value)

    def ask(self, number: int, action: str, **more: Any) -> None:
        """Makes a request, and waits until the broker has it."""
        value = {"id": number, "action": action, **more}
        self.client.publish("roman/requests", json.dumps(value), qos=1).wait_for_publish(PATIENCE)

    def close(self) -> None:
        self.client.disconnect()
        self.client.loop_stop()


class House:
    """A home over HTTP devices, a broker, and a person who makes requests."""

    def __init__(self, folder: Path, journal: str = '[journal]\npath = "home.db"') -> None:
        self.world = World(Document.load(sample("home.json")))
        self.broker = Mosquitto(folder)
        self.http = HttpDevices(self.world)
        tables = [
            DEVICE.format(name=each.name, url=self.http.url, seconds=PATIENCE) for each in self.world.document.services
        ]
        home = HOME.format(document=sample("home.json"), broker=self.broker.port, journal=journal)
        self.live = Live(folder, home + "".join(tables))
        self.live.start()
        self.person = Person(self.broker.port)

    def answered(self, numbers: range) -> None:
        """Waits for the answers to these requests."""
        until(lambda: all(each in self.person.answers for each in numbers), "the answers")

    def close(self) -> None:
        self.world.release.set()
        self.person.close()
        self.live.kill()
        self.http.close()
        self.broker.stop()


@pytest.fixture
def house(tmp_path: Path) -> Iterator[House]:
    house = House(tmp_path)
    yield house
    house.close()


def test_each_is_served_once_though_the_home_is_killed(house: House) -> None:
    """It is also killed while it serves the kept requests."""
    house.live.kill()
    for number in range(REQUESTS):
        house.person.ask(number, CYCLE[number % 4], key=str(number))
    for count in (1, 30, 90):
        house.live.start(wait=False)
        until(lambda: len(house.world.played) >= count or house.live.process.poll() is not None, "some of them")
        house.live.kill()
    house.live.start()
    house.answered(range(REQUESTS))
    assert [action for _, action in house.world.played] == [CYCLE[each % 4] for each in range(REQUESTS)]
    assert house.world.wrong == []
    assert {each["status"] for answers in house.person.answers.values() for each in answers} == {200}
    house.person.ask(REQUESTS, "brighten")  # The home is connected now, so this needs no key.
    house.answered(range(REQUESTS, REQUESTS + 1))
    assert house.person.answers[REQUESTS][0]["status"] == 200


def test_what_waits_at_the_end_is_left_to_the_next_home(house: House) -> None:
    house.world.manners["window"] = "slow"
    house.person.ask(0, "brighten", key="0")
    until(lambda: house.world.asked, "the call")
    house.live.process.terminate()
    until(lambda: house.live.post("/requests", {"action": "boil"})[0] == 503, "the refusal")
    house.person.ask(1, "boil", key="1")
    house.world.release.set()
    assert house.live.process.wait(PATIENCE) == 0
    house.answered(range(1))
    assert [house.person.answers[0][0]["status"], 1 in house.person.answers] == [200, False]
    house.live.start()
    house.answered(range(2))


def test_what_is_for_another_time_is_not_served(house: House) -> None:
    house.live.kill()
    house.person.ask(0, "brighten")
    house.person.ask(1, "brighten", key="1", sent=time.time() - 60, expires=30)
    house.person.ask(2, "brighten", key="2", expires=SLACK / 2)
    house.person.ask(3, "brighten", key="3", sent="noon")
    house.person.ask(4, "brighten", key="4", sent=time.time(), expires=PATIENCE)
    house.live.start()
    house.answered(range(5))
    assert [house.person.answers[each][0]["status"] for each in range(5)] == [408, 408, 408, 400, 200]
    assert {house.person.answers[each][0]["error"] for each in range(3)} == {"expired"}
    assert "has no key" in house.person.answers[0][0]["text"]
    assert house.world.played == [("window", "brighten")]


def test_a_home_without_a_store_has_none_kept(tmp_path: Path) -> None:
    """It doesn't know the keys that it has served."""
    house = House(tmp_path, "")
    try:
        house.live.kill()
        house.person.ask(0, "brighten", key="0")
        house.live.start()
        house.person.ask(1, "brighten", key="1")
        house.answered(range(1, 2))
        assert 0 not in house.person.answers
    finally:
        house.close()


class Time:
    """A clock."""

    def __init__(self) -> None:
        self.now = 1_000_000.0

    def __call__(self) -> float:
        return self.now


def test_how_old_a_request_may_be(tmp_path: Path) -> None:
    clock = Time()
    heard = LastHeard(tmp_path / "heard", clock)
    keeping = Keeping(heard, clock)
    mark = keeping.begin(True)
    assert mark is not None
    assert keeping.request({"key": "k"}).first_age == math.inf  # It isn't known how long the home was away.
    assert keeping.request({"key": "k", "sent": clock.now - 7}).first_age == 7
    keeping.note()
    assert heard.time == -math.inf  # The kept requests haven't come yet.
    assert not keeping.hear({"action": "brighten"})
    assert keeping.hear({"mark": "of another connection"}) and keeping.is_draining
    assert keeping.hear(mark) and not keeping.is_draining
    assert keeping.request({"key": "k"}).first_age == 0
    keeping.note()
    clock.now += 100
    again = Keeping(LastHeard(tmp_path / "heard", clock), clock)
    assert again.begin(True)
    assert again.request({"key": "k"}).first_age == 100 + SLACK
    assert again.begin(False) is None  # The broker has kept nothing.
    assert again.request({"key": "k"}).first_age == 0
    clock.now -= 1000  # A clock that was set back doesn't make a request young.
    back = Keeping(LastHeard(tmp_path / "heard", clock), clock)
    assert back.begin(True)
    assert back.request({"key": "k"}).first_age == math.inf


@pytest.mark.parametrize(
    "sent", ['"noon"', "true", "null", "NaN", "1" + 400 * "0"], ids=["text", "true", "null", "NaN", "huge"]
)
def test_it_was_sent_at_no_time(tmp_path: Path, sent: str) -> None:
    keeping = Keeping(LastHeard(tmp_path / "heard"))
    assert keeping.request(json.loads(f'{{"key": "k", "sent": {sent}}}')).first_age is None


async def test_a_message_that_can_not_be_handled() -> None:
    """It is acknowledged, and the connection continues. Otherwise the broker would send it repeatedly."""
    heard: list[bytes] = []

    def hear(payload: bytes, comes_again: bool, acknowledge: Callable[[], None]) -> None:
        heard.append(payload)
        raise ZeroDivisionError

    connection = SessionConnection(Broker(), lambda connected, text: None, "roman/requests", hear)
    connection.connected = True
    message = mqtt.MQTTMessage(7, b"roman/requests")
    message.payload, message.qos = b"{}", 1
    with mock.patch.object(connection._client, "ack") as acknowledge:
        connection._client.on_message(connection._client, None, message)
    assert heard == [b"{}"]
    acknowledge.assert_called_once_with(7, 1)


def test_a_request_is_late_after_a_second_at_least() -> None:
    assert MqttRequest({"key": "k"}).hindrance(0) is None
    assert MqttRequest({"key": "k"}, False, 1.0).hindrance(0) is not None
    assert MqttRequest({"key": "k"}, True, 1.0).hindrance(2) is None
    assert MqttRequest({}, True, 1.0).hindrance(2) is not None
    assert MqttRequest({}, False, 1.0).hindrance(2) is None
    assert BEAT < SLACK <= LONGEST_DRAIN


def test_a_retained_environment_is_heard_at_the_start(house: House) -> None:
    """It is a state, and not a request. If it isn't retained, it is lost."""
    house.world.environment = "dusk"
    house.live.kill()
    for state, retain in (("dusk", True), ("day", False)):
        text = json.dumps({"state": state})
        house.person.client.publish("roman/environment", text, qos=1, retain=retain).wait_for_publish(PATIENCE)
    request = json.dumps({"id": 0, "action": "brighten", "key": "0"})
    house.person.client.publish("roman/requests", request, qos=1, retain=True).wait_for_publish(PATIENCE)
    house.live.start()
    until(lambda: house.live.state()["environment"] == "dusk", "dusk")
    house.answered(range(1))  # The broker had kept it for the session.
    house.live.stop()
    house.live.start()  # It is out of date now.
    house.person.ask(1, "boil", key="1")
    house.answered(range(2))
    assert [[each["status"] for each in house.person.answers[number]] for number in range(2)] == [[200], [200]]
