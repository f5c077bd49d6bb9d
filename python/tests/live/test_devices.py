"""Devices over MQTT, HTTP and commands that serve, die, hang, or answer late, twice or wrongly."""

import http.client
import json
import sys
import threading
from contextlib import AsyncExitStack
from pathlib import Path
from typing import Any

import pytest

from roman_client import Document

from . import sample
from .machinery import PATIENCE, Live, Mosquitto, until
from .world import HttpDevices, MqttDevices, World

CYCLE = ("brighten", "boil", "pour", "dim")


class Devices:
    """A home with a window over MQTT, a ceiling over HTTP, and a kettle that is a command."""

    def __init__(
        self, folder: Path, at_end: AsyncExitStack, lines: bool = True, impatient: str = "", more: str = ""
    ) -> None:
        """The kettle is a single process if it reads `lines`. `impatient` is the service that may take only a few
        seconds. `more` is added to the home file."""
        self.folder = folder
        self.lines = lines
        self.impatient = impatient
        self.more = more
        self.world = World(Document.load(sample("home.json")))
        at_end.callback(self.world.release.set)
        self.broker = Mosquitto(self.folder)
        at_end.callback(self.broker.stop)
        self.http = HttpDevices(self.world)
        at_end.callback(self.http.close)
        self.mqtt = MqttDevices(self.world, self.broker.port, ["window"])
        self.live = Live(self.folder, self.home())
        self.live.start()
        at_end.callback(self.live.kill)

    def home(self) -> str:
        script = Path(__file__).with_name("world.py")
        words = f'["{sys.executable}", "{script}", "{self.http.url}/kettle"]'
        return f"""
document = "{sample("home.json")}"
[mqtt]
port = {self.broker.port}
[journal]
path = "journal"
[devices.window]
reach = "mqtt"
ask = "window/ask"
answer = "window/answer"
seconds = {self.seconds("window")}
[devices.ceiling]
reach = "http"
url = "{self.http.url}/ceiling"
seconds = {self.seconds("ceiling")}
[devices.kettle]
reach = "command"
command = {words}
lines = {str(self.lines).lower()}
seconds = {self.seconds("kettle")}
{self.more}"""

    def seconds(self, service: str) -> float:
        return 3.0 if service == self.impatient else PATIENCE

    def request(self, action: str) -> tuple[int, dict[str, Any]]:
        return self.live.post("/requests", {"action": action})

    def served(self, action: str) -> dict[str, Any]:
        status, value = self.request(action)
        assert status == 200, value
        return value

    def ask_in_vain(self, action: str) -> None:
        """Makes a request to a home that is killed before it answers."""
        with pytest.raises((OSError, http.client.HTTPException)):
            self.request(action)

    def back(self, service: str) -> None:
        until(lambda: self.live.service(service)["status"] == "ready", f"{service}")


@pytest.fixture
def home(tmp_path: Path, at_end: AsyncExitStack) -> Devices:
    return Devices(tmp_path, at_end)


def test_each_serves_in_its_turn(home: Devices) -> None:
    for action in CYCLE * 2:
        value = home.served(action)
        assert value["failures"] == []
    assert [action for _, action in home.world.played] == list(CYCLE * 2)
    assert {service for service, _ in home.world.played} == {"window", "kettle"}
    state = home.live.state()
    assert {each["name"]: each["state"] for each in state["services"]} == home.world.states
    assert state["environment"] == home.world.environment
    assert state["counts"]["served"] == 8
    assert home.world.wrong == []


def test_one_that_fails_or_answers_wrongly_is_frozen_and_comes_back(home: Devices) -> None:
    for manner in ("fail", "junk", "wrong"):
        home.world.manners["window"] = manner
        value = home.served("brighten")
        assert value["served_by"] == "ceiling"
        assert [each["service"] for each in value["failures"]] == ["window"]
        home.world.manners.clear()
        home.back("window")
        for action in CYCLE[1:]:
            home.served(action)
    assert home.world.wrong == []


def test_an_http_device_that_dies_is_frozen_and_comes_back(home: Devices) -> None:
    home.live.post("/services/window/freeze", {})
    home.world.manners["ceiling"] = "foreign"
    home.world.mute.add("ceiling")
    status, value = home.request("brighten")
    assert (status, value["error"]) == (409, "no composition")
    assert "answered to -5" in value["failures"][0]["error"]
    assert "ceiling" in value["frozen"]
    assert "brighten" in value["explanation"]["text"]
    assert home.live.state()["explanation"] == value["explanation"]
    home.world.manners.clear()
    home.world.release.set()
    home.back("ceiling")
    assert home.live.service("ceiling")["state"] == "on"
    assert home.live.service("window")["status"] == "frozen"
    assert home.live.service("window")["by_hand"]


def test_an_answer_that_comes_twice_counts_once(home: Devices) -> None:
    home.world.manners["window"] = "twice"
    home.served("brighten")
    for action in CYCLE[1:3]:
        home.served(action)
    assert home.served("dim")["served_by"] == "window"
    until(lambda: home.live.kinds("late"), "the second answer")
    assert home.world.wrong == []
    assert len(home.world.played) == 4


def test_one_that_moves_by_itself_jumps(home: Devices) -> None:
    home.served("brighten")
    home.world.states["window"] = "ajar"
    home.mqtt.say("window", {"state": "ajar"})
    until(lambda: home.live.service("window")["state"] == "ajar", "the jump")
    home.mqtt.say("window", {"state": "nowhere"})
    until(lambda: home.live.kinds("wrong"), "the event")
    assert home.live.service("window")["state"] == "ajar"


def test_a_last_will_freezes_and_the_next_word_thaws(home: Devices) -> None:
    home.mqtt.close(rudely=True)
    until(lambda: home.live.service("window")["status"] == "frozen", "the freeze")
    assert home.served("brighten")["served_by"] == "ceiling"
    home.world.states["window"] = "open"
    home.mqtt = MqttDevices(home.world, home.broker.port, ["window"])
    home.mqtt.say("window", {"state": "open"})
    home.back("window")
    assert home.live.service("window")["state"] == "open"


def test_a_broker_goes_down_and_up(home: Devices) -> None:
    home.broker.stop()
    until(lambda: not home.live.state()["broker"], "the end of the broker")
    value = home.served("brighten")
    assert value["served_by"] == "ceiling"
    for action in CYCLE[1:]:
        home.served(action)
    home.mqtt.subscribed.clear()
    home.broker.start()
    assert home.mqtt.subscribed.wait(PATIENCE)
    # The message stays on the broker until the home is connected.
    home.mqtt.say("window", {"state": "shut"}, retain=True)
    home.back("window")
    assert home.served("brighten")["served_by"] == "window"
    assert home.world.wrong == []
    assert home.live.state()["broker"]


def test_what_moves_while_the_broker_is_down_is_asked_for(home: Devices) -> None:
    home.broker.stop()
    until(lambda: not home.live.state()["broker"], "the end of the broker")
    home.world.states["window"] = "ajar"
    home.mqtt.subscribed.clear()
    home.broker.start()
    until(lambda: home.live.service("window")["state"] == "ajar", "where it is now")
    assert home.live.service("window")["status"] == "ready"


def test_requests_and_the_environment_over_mqtt(home: Devices) -> None:
    answers: list[Any] = []
    heard = threading.Event()

    def hear(client: Any, data: Any, message: Any) -> None:
        answers.append(message.payload)
        heard.set()

    client = home.mqtt.client
    client.message_callback_add("roman/answers", hear)
    home.mqtt.listen("roman/answers")

    def answered(patience: float) -> bool:
        """Makes the request, and waits for its answer."""
        client.publish("roman/requests", '{"id": "x", "action": "brighten", "key": "k"}', qos=1)
        return heard.wait(patience)

    until(lambda: answered(5), "the answer")  # If the home doesn't listen yet, a request may be lost.
    assert b'"served_by": "window"' in answers[0]
    assert b'"id": "x"' in answers[0]
    # A sender that doesn't know whether it has come repeats it.
    heard.clear()
    assert answered(PATIENCE)
    assert json.loads(answers[-1]) == json.loads(answers[0])
    home.world.environment = "dusk"
    client.publish("roman/environment", '{"state": "dusk"}', qos=1)
    until(lambda: home.live.state()["environment"] == "dusk", "dusk")
    assert home.live.state()["counts"]["served"] == 1


def test_it_ends_when_the_open_request_is_served(home: Devices) -> None:
    home.world.manners["window"] = "late"
    answers: list[Any] = []
    asking = threading.Thread(target=lambda: answers.append(home.request("brighten")))
    asking.start()
    until(lambda: home.world.asked, "the call")
    home.live.process.terminate()
    other = {"action": "boil", "wait": False}
    until(lambda: home.live.post("/requests", other)[0] == 503, "the refusal")
    home.world.release.set()
    asking.join(PATIENCE)
    assert answers[0][0] == 200
    assert home.live.process.wait(PATIENCE) == 0
    assert home.live.text() == "roman_live: a device is at work, and has 20 seconds to come to its end\n"
    home.live.start()
    assert home.live.state()["counts"]["served"] == 1
    assert home.live.service("window")["status"] == "ready"


def test_it_ends_while_it_still_begins(home: Devices) -> None:
    """It asks a device for the result of a call, which may take as long as an action."""
    home.world.manners["window"] = "late"
    asking = threading.Thread(target=home.ask_in_vain, args=("brighten",), daemon=True)
    asking.start()
    until(lambda: home.world.asked, "the call")
    home.live.kill()
    asking.join(PATIENCE)
    home.world.mute.add("window")
    home.live.start(wait=False)
    until(lambda: home.mqtt.heard[-1].get("about"), "the question")
    home.live.process.terminate()
    assert home.live.process.wait(PATIENCE / 2) == 0
    home.world.release.set()


def test_a_second_one_on_the_journal_is_refused(home: Devices) -> None:
    second = Live(home.folder, home.home())
    second.start(wait=False)
    assert second.process.wait(PATIENCE) == 3
    assert "another dispatcher is at work on" in second.text()
    assert "does this home run already?" in second.text()


def test_the_state_is_on_the_broker(home: Devices) -> None:
    states: list[dict[str, Any]] = []
    client = home.mqtt.client
    client.message_callback_add("roman/state", lambda client, data, message: states.append(json.loads(message.payload)))
    home.mqtt.listen("roman/state")
    until(lambda: states, "the retained state")
    home.served("brighten")
    now = {"state": "open", "status": "ready", "error": None}
    until(lambda: states[-1]["services"]["window"] == now, "the new state")
    assert states[-1]["target"] == "bright"
    assert states[-1]["offers"] == {"boil": ["kettle"]}
    home.live.kill()
    until(lambda: states[-1] == {"gone": True}, "the last will")
    home.live.start()
    until(lambda: states[-1].get("target") == "bright", "the state after a kill")
    before = len(states)
    second = Live(home.folder, home.home())
    second.start(wait=False)
    assert second.process.wait(PATIENCE) == 3
    assert home.live.stop() == 0
    until(lambda: states[-1] == {"gone": True}, "the end")
    # The second home found the lock before it connected to the broker.
    assert states[before:].count({"gone": True}) == 1


# The kettle is a command that is started for each call.


@pytest.fixture
def once(tmp_path: Path, at_end: AsyncExitStack) -> Devices:
    return Devices(tmp_path, at_end, lines=False)


def test_it_serves_and_fails(once: Devices) -> None:
    once.served("brighten")
    once.served("boil")
    once.world.manners["kettle"] = "fail"
    status, value = once.request("pour")
    assert (status, value["error"]) == (409, "no composition")
    assert value["failures"][0]["error"] == "ended with status 1: out of order"
    once.world.manners.clear()
    once.back("kettle")
    once.served("pour")
    assert once.world.wrong == []


class LeftAtWork(Devices):
    """A command that is at work when the home is killed continues. It mustn't be asked to do the same again."""

    def kill_at_work(self) -> None:
        """Kills the home while the kettle boils."""
        self.served("brighten")
        self.world.manners["kettle"] = "slow"
        asking = threading.Thread(target=self.ask_in_vain, args=("boil",))
        asking.start()
        until(lambda: ("kettle", "boil") in self.world.asked, "the call")
        self.live.kill()
        asking.join(PATIENCE)


@pytest.fixture(params=[True, False], ids=["one process", "a process for each call"])
def left(tmp_path: Path, at_end: AsyncExitStack, request: pytest.FixtureRequest) -> LeftAtWork:
    return LeftAtWork(tmp_path, at_end, lines=request.param)


def test_it_is_waited_for(left: LeftAtWork) -> None:
    left.kill_at_work()
    threading.Timer(2.0, left.world.release.set).start()
    left.live.start()
    assert left.live.state()["counts"]["served"] == 2
    assert left.world.played.count(("kettle", "boil")) == 1
    left.served("pour")
    assert left.world.wrong == []


# A device that may be asked twice for one call, but not twice at once.


@pytest.fixture
def repeated(tmp_path: Path, at_end: AsyncExitStack) -> LeftAtWork:
    return LeftAtWork(tmp_path, at_end, lines=False, more="repeat = true\n")


def test_one_that_may_be_repeated_is_waited_for(repeated: LeftAtWork) -> None:
    repeated.kill_at_work()
    repeated.live.start(wait=False)
    until(lambda: "is waited for" in repeated.live.text(), "that it waits")
    assert repeated.world.asked.count(("kettle", "boil")) == 1
    repeated.world.release.set()
    until(repeated.live.answers, "its page")
    assert repeated.world.asked.count(("kettle", "boil")) == 2
    assert repeated.world.played.count(("kettle", "boil")) == 1
    assert repeated.live.state()["counts"]["served"] == 2


# A device over MQTT that takes too long.


@pytest.fixture
def window(tmp_path: Path, at_end: AsyncExitStack) -> Devices:
    return Devices(tmp_path, at_end, impatient="window")


def test_one_that_hangs_is_passed_over(window: Devices) -> None:
    window.world.manners["window"] = "hang"
    value = window.served("brighten")
    assert value["served_by"] == "ceiling"
    assert "no answer within 3.0 seconds" in value["failures"][0]["error"]
    shown = until(lambda: window.live.service("window")["next_try"], "the next try")
    assert shown > window.live.service("window")["since"]


def test_a_late_answer_is_taken_for_no_other(window: Devices) -> None:
    window.world.manners["window"] = "late"
    assert window.served("brighten")["served_by"] == "ceiling"
    window.world.manners.clear()
    window.world.release.set()
    until(lambda: window.live.kinds("late"), "the late answer")
    window.back("window")
    assert window.live.service("window")["state"] == "open"
    assert window.live.state()["counts"]["served"] == 1


def test_what_could_not_be_delivered_is_not_done_later(window: Devices) -> None:
    window.broker.pause()
    assert window.served("brighten")["served_by"] == "ceiling"
    window.broker.stop()
    window.mqtt.subscribed.clear()
    window.broker.start()
    assert window.mqtt.subscribed.wait(PATIENCE)
    window.back("window")
    assert window.world.played == [("ceiling", "brighten")]


def test_what_is_kept_for_a_device_that_is_away_is_not_done_later(window: Devices) -> None:
    """The broker sends a device with a persistent session the messages that it has missed."""
    window.mqtt.close()
    window.mqtt = MqttDevices(window.world, window.broker.port, ["window"], name="window")
    window.mqtt.close()
    assert window.served("brighten")["served_by"] == "ceiling"
    window.mqtt = MqttDevices(window.world, window.broker.port, ["window"], name="window")
    window.back("window")
    assert window.world.played == [("ceiling", "brighten")]


# A device over HTTP that takes too long.


@pytest.fixture
def ceiling(tmp_path: Path, at_end: AsyncExitStack) -> Devices:
    return Devices(tmp_path, at_end, impatient="ceiling")


def test_one_over_http_that_hangs_is_passed_over(ceiling: Devices) -> None:
    ceiling.live.post("/services/window/freeze", {})
    ceiling.world.manners["ceiling"] = "hang"
    status, value = ceiling.request("brighten")
    assert (status, value["error"]) == (409, "no composition")
    assert "no answer within 3.0 seconds" in value["failures"][0]["error"]
    ceiling.world.manners.clear()
    ceiling.world.release.set()
    ceiling.back("ceiling")
    assert ceiling.served("brighten")["served_by"] == "ceiling"
