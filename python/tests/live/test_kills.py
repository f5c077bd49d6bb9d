"""roman-live and the program are killed at random moments of many requests.

ROMAN_LIVE_KILLS is the number of kills: a hundred by default, and a thousand in the nightly run. Each request has to be
served once, in its order, and none may be lost.
"""

from __future__ import annotations

import http.client
import os
import random
import signal
import sys
import threading
import time
from collections.abc import Iterator
from contextlib import suppress
from pathlib import Path

import pytest

from roman_client import Document

from . import sample
from .machinery import PATIENCE, Live, Mosquitto, until
from .test_devices import CYCLE
from .world import HttpDevices, MqttDevices, World

KILLS = int(os.environ.get("ROMAN_LIVE_KILLS", "100"))
MOST_REQUESTS = 6
"""The maximum number of requests between two kills."""

SLOW = """#!/bin/bash
# A kettle that takes up to seconds for an action.
[ "$1" = "?" ] || sleep "$(shuf -n 1 -e 0 0 0.1 0.5 2)"
exec "{python}" "{world}" "{url}/kettle" "$1"
"""

HOME = """
document = "{document}"
[mqtt]
port = {broker}
[journal]
path = "home.db"
[devices.window]
reach = "mqtt"
ask = "window/ask"
answer = "window/answer"
seconds = 60
[devices.ceiling]
reach = "http"
url = "{url}/ceiling"
seconds = 60
[devices.kettle]
reach = "command"
command = ["./slow"]
seconds = 60
"""


class Person:
    """Makes `limit` requests one after the other. Each is repeated until it is known to be served."""

    def __init__(self, live: Live) -> None:
        self.live = live
        self.asked = 0
        self.limit = 0
        self.ending = threading.Event()
        self.strange = ""
        self.thread = threading.Thread(target=self.ask_all, daemon=True)
        self.thread.start()

    def ask_all(self) -> None:
        while not self.ending.is_set() and not self.strange:
            if self.asked == self.limit:
                time.sleep(0.001)
                continue
            body = {"action": CYCLE[self.asked % 4], "key": str(self.asked)}
            try:
                status, value = self.live.post("/requests", body)
            except (OSError, http.client.HTTPException):
                time.sleep(0.02)
                continue
            if status == 200:
                self.asked += 1
            elif value["error"] == "no composition":
                time.sleep(0.1)  # A device failed, and is asked again soon.
            elif status != 503:
                self.strange = f"{self.asked}: {status} {value}"

    def reach(self, count: int) -> None:
        """Waits until so many requests are served."""
        until(lambda: self.runs() and (self.asked >= count or self.strange), f"request {count}")

    def runs(self) -> bool:
        """Checks that the home hasn't ended by itself."""
        assert self.live.process.poll() is None, self.live.text()
        return True


class Killer:
    """Kills the home, its program or both, once or twice in a row."""

    def __init__(self, live: Live, chance: random.Random) -> None:
        self.live = live
        self.chance = chance
        self.kills = 0

    def kill(self) -> None:
        """Kills the home, its program or both at a random moment."""
        time.sleep(self.chance.random() * self.chance.choice((0.002, 0.01, 0.1, 0.5)))
        {0: self.home, 1: self.program, 2: self.both, 3: self.twice, 4: self.end}[self.kills % 5]()

    def home(self) -> None:
        self.kills += 1
        self.live.kill()
        self.live.start(wait=self.chance.random() < 0.7)

    def program(self) -> None:
        self.kills += 1
        until(lambda: self.live.programs() or self.live.process.poll() is not None, "the program")
        for each in self.live.programs():
            with suppress(ProcessLookupError):
                os.kill(each, signal.SIGKILL)

    def both(self) -> None:
        for each in self.live.programs():
            with suppress(ProcessLookupError):
                os.kill(each, signal.SIGKILL)
        self.home()

    def twice(self) -> None:
        """Kills the next home, too, while it begins."""
        self.kills += 1
        self.live.kill()
        self.live.start(wait=False)
        time.sleep(self.chance.random() * 2)
        self.home()

    def end(self) -> None:
        """Kills the home, and ends the next one while it begins, as systemd does."""
        self.kills += 1
        self.live.kill()
        self.live.start(wait=False)
        time.sleep(self.chance.random() * 2)
        self.live.process.terminate()
        self.live.process.wait(PATIENCE)
        self.live.start(wait=self.chance.random() < 0.7)


@pytest.fixture
def world() -> World:
    world = World(Document.load(sample("home.json")), seed=5)
    world.failing = 0.02
    return world


@pytest.fixture
def live(tmp_path: Path, world: World) -> Iterator[Live]:
    """A home with a window over MQTT, a ceiling over HTTP, and a kettle that is a slow command."""
    broker = Mosquitto(tmp_path)
    served = HttpDevices(world)
    window = MqttDevices(world, broker.port, ["window"])
    slow = tmp_path / "slow"
    slow.write_text(
        SLOW.format(python=sys.executable, world=Path(__file__).parent / "world.py", url=served.url), encoding="utf-8"
    )
    slow.chmod(0o755)
    home = HOME.format(document=sample("home.json"), broker=broker.port, url=served.url)
    yield Live(tmp_path, home)
    window.close()
    served.close()
    broker.stop()


@pytest.mark.timeout(60 + 30 * KILLS)
def test_whatever_is_killed_each_request_is_served_once(live: Live, world: World) -> None:
    chance = random.Random(17)
    live.start()
    person, killer = Person(live), Killer(live, chance)
    try:
        while killer.kills < KILLS and not person.strange:
            count = chance.randrange(1, MOST_REQUESTS)
            person.limit += count
            person.reach(person.limit - chance.randrange(count + 1))
            killer.kill()
        person.reach(person.limit)
        until(live.answers, "its page")
    finally:
        person.ending.set()
    assert (person.strange, world.wrong) == ("", [])
    assert [action for _, action in world.played] == [CYCLE[each % 4] for each in range(person.limit)]
    until(lambda: not live.state()["counts"]["frozen"], "the frozen ones")
    state = live.state()
    assert state["counts"]["served"] == person.limit
    assert {each["name"]: each["state"] for each in state["services"]} == world.states
    assert live.stop() == 0
