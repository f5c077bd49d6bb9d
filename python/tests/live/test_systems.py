"""The configurations of Home Assistant and Node-RED in the guide's chapter, simulated as the ceiling lamp of a home."""

from __future__ import annotations

import json
from collections.abc import Callable
from contextlib import AsyncExitStack
from typing import Any

import jinja2
import paho.mqtt.client as mqtt  # type: ignore[import]
import yaml  # type: ignore[import]

from roman_live.config import HomeFile

from . import DEMO, ROMAN_LIVE
from .browser import Running, browser
from .machinery import PATIENCE, Mosquitto, free_port, until
from .test_chapter import block

REACH: Any = HomeFile.read(DEMO / "home.toml").devices["ceiling"].reach
"""The reach of the ceiling lamp in the demo home."""

NODE = """
window.kept ??= {};
const flow = {get: name => window.kept[name], set: (name, value) => { window.kept[name] = value; }};
const msg = {payload: JSON.parse(arguments[0])};
return JSON.stringify(new Function("msg", "flow", arguments[1])(msg, flow).payload);
"""
"""Node-RED's result for a message, with a function between two MQTT nodes that read and write objects."""


class Automation:
    """An automation of Home Assistant, with the lights that it switches."""

    def __init__(self, text: str) -> None:
        (self.written,) = yaml.safe_load(text)
        self.topic: str = self.written["trigger"]["topic"]
        self.lights = {"light.ceiling": "off"}
        self.published: dict[str, str] = {}

    def run(self, message: str) -> dict[str, str]:
        """The messages that it publishes when a message comes on its topic."""
        self.published = {}
        self.steps(self.written["action"], {"payload_json": json.loads(message)})
        return self.published

    def steps(self, steps: list[Any], trigger: Any) -> None:
        for step in steps:
            if "if" in step:
                if self.render(step["if"], trigger) == "True":
                    self.steps(step["then"], trigger)
            elif "wait_template" in step:
                assert self.render(step["wait_template"], trigger) == "True", step
            else:
                self.serve(self.render(step["service"], trigger), step, trigger)

    def serve(self, service: str, step: Any, trigger: Any) -> None:
        if service == "mqtt.publish":
            self.published[step["data"]["topic"]] = self.render(step["data"]["payload"], trigger)
        else:
            word = {"light.turn_on": "on", "light.turn_off": "off"}[service]
            self.lights[step["target"]["entity_id"]] = word

    def render(self, template: str, trigger: Any) -> str:
        environment = jinja2.Environment(undefined=jinja2.StrictUndefined)
        return environment.from_string(template).render(
            trigger=trigger,
            states=self.lights.__getitem__,
            is_state=lambda entity, state: self.lights[entity] == state,
        )


class Ceiling:
    """The ceiling lamp at a broker. `answer` makes its answer to a message."""

    def __init__(self, port: int, answer: Callable[[str], str]) -> None:
        self.heard: list[Any] = []
        self._answer = answer
        subscribed: list[bool] = []
        self._client = mqtt.Client()
        self._client.on_message = self._asked
        self._client.on_subscribe = lambda *words: subscribed.append(True)
        self._client.connect("127.0.0.1", port)
        self._client.loop_start()
        self._client.subscribe(REACH.ask, qos=1)
        until(lambda: subscribed, "the broker's word")

    def _asked(self, client: Any, data: Any, message: Any) -> None:
        text = message.payload.decode()
        self.heard.append(json.loads(text)["action"])
        client.publish(REACH.answer, self._answer(text))

    def close(self) -> None:
        self._client.disconnect()
        self._client.loop_stop()


class Lit(Running):
    """A home with the ceiling lamp at a broker, and a kettle."""

    def __init__(self) -> None:
        self._port = free_port()
        super().__init__(self._port)
        self.broker = Mosquitto(self.folder)

    def begin(self) -> None:
        document = json.loads((DEMO / "home.json").read_text(encoding="utf-8"))
        kept = ("ceiling", "kettle")
        document["services"] = [each for each in document["services"] if each["name"] in kept]
        (self.folder / "home.json").write_text(json.dumps(document), encoding="utf-8")
        (self.folder / "pots.py").write_text(
            "def kettle(action):\n    return 'hot' if action == 'boil' else 'empty'\n", encoding="utf-8"
        )
        (self.folder / "home.toml").write_text(
            f'document = "home.json"\n[page]\nport = {self._port}\n[mqtt]\nport = {self.broker.port}\n'
            f'[devices.ceiling]\nreach = "mqtt"\nask = "{REACH.ask}"\nanswer = "{REACH.answer}"\n'
            f'seconds = {PATIENCE}\n[devices.kettle]\nreach = "python"\ncall = "pots:kettle"\n',
            encoding="utf-8",
        )
        self.start(str(ROMAN_LIVE), "home.toml")

    def close(self) -> None:
        super().close()
        self.broker.stop()


def serves(at_end: AsyncExitStack, answer: Callable[[str], str]) -> None:
    """Checks that a lamp with this function is asked for its state, and serves twice."""
    home = Lit()
    at_end.callback(home.close)
    ceiling = Ceiling(home.broker.port, answer)
    at_end.callback(ceiling.close)
    home.begin()
    done = [home.post("requests", {"action": each}) for each in ("brighten", "boil", "pour", "dim")]
    assert [(each["served_by"], each["state"]) for each in done] == [
        ("ceiling", "on"),
        ("kettle", "hot"),
        ("kettle", "empty"),
        ("ceiling", "off"),
    ]
    assert ceiling.heard == [None, "brighten", "dim"]
    shown = {each["name"]: each for each in home.state()["services"]}["ceiling"]
    assert (shown["status"], shown["last_error"]) == ("ready", None)


def test_home_assistant(at_end: AsyncExitStack) -> None:
    automation = Automation(block("yaml"))
    assert automation.topic == REACH.ask

    def answer(message: str) -> str:
        ((topic, text),) = automation.run(message).items()
        assert topic == REACH.answer
        return text

    serves(at_end, answer)
    assert automation.lights == {"light.ceiling": "off"}


def test_node_red(at_end: AsyncExitStack) -> None:
    driver = browser()
    at_end.callback(driver.quit)
    serves(at_end, lambda message: str(driver.execute_script(NODE, message, block("js"))))
