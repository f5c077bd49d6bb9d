"""Home Assistant's discovery: its messages, the values of their templates, and the effects of its entities. Also the
flow for Node-RED."""

from __future__ import annotations

import json
import threading
from collections.abc import Iterator
from pathlib import Path
from typing import Any

import jinja2
import paho.mqtt.client as mqtt  # type: ignore[import]
import pytest
from jsonschema import Draft202012Validator  # type: ignore[import]

from . import TOP, sample
from .machinery import PATIENCE, Live, Mosquitto, until
from .test_server import DEVICES, WORLD

SCHEMA = Draft202012Validator(json.loads((Path(__file__).parent / "discovery.schema.json").read_text(encoding="utf-8")))


class Assistant:
    """A simulated Home Assistant at a broker: it has the newest message on each topic."""

    def __init__(self, port: int) -> None:
        self.seen: dict[str, str] = {}
        listening = threading.Event()
        paho2 = getattr(mqtt, "CallbackAPIVersion", None)
        self.client = mqtt.Client(paho2.VERSION1) if paho2 else mqtt.Client()
        self.client.on_connect = lambda client, *_: client.subscribe("#", qos=1)
        self.client.on_subscribe = lambda *_: listening.set()
        self.client.on_message = lambda _client, _data, message: self.seen.update(
            {message.topic: message.payload.decode()}
        )
        self.client.connect("127.0.0.1", port)
        self.client.loop_start()
        assert listening.wait(PATIENCE)

    def stop(self) -> None:
        self.client.disconnect()
        self.client.loop_stop()

    def entities(self) -> dict[str, dict[str, Any]]:
        """The messages of discovery, by component and name."""
        found = {}
        for topic, text in list(self.seen.items()):
            words = topic.split("/")
            if words[0] == "homeassistant" and words[-1] == "config":
                found[f"{words[1]} {words[3]}"] = json.loads(text)
        return found

    def rendered(self, entity: dict[str, Any], key: str) -> str:
        """The value of a template for the newest message on its topic."""
        topics = {"availability_template": "availability_topic", "json_attributes_template": "json_attributes_topic"}
        text = self.seen.get(entity[topics.get(key, "state_topic")], "{}")
        return jinja2.Template(entity[key]).render(value=text, value_json=json.loads(text))

    def value(self, name: str, key: str = "value_template") -> str:
        """The value of a template of an entity."""
        return self.rendered(self.entities()[name], key)

    def there(self, name: str) -> bool:
        """Whether an entity is available."""
        return self.value(name, "availability_template") == "online"

    def press(self, name: str) -> None:
        """Presses a button."""
        entity = self.entities()[name]
        self.client.publish(entity["command_topic"], entity["payload_press"], qos=entity["qos"])

    def choose(self, name: str, option: str) -> None:
        """Chooses an option of a select."""
        entity = self.entities()[name]
        text = jinja2.Template(entity["command_template"]).render(value=option)
        self.client.publish(entity["command_topic"], text)


HOME = """
title = "Our kitchen"
[mqtt]
port = {port}
prefix = "kitchen"
discovery = "homeassistant"
[words.actions]
brighten = "Make it bright"
"""


@pytest.fixture
def broker(tmp_path: Path) -> Iterator[Mosquitto]:
    running = Mosquitto(tmp_path)
    yield running
    running.stop()


@pytest.fixture
def live(tmp_path: Path, broker: Mosquitto) -> Iterator[Live]:
    """A home with devices in Python, and with discovery."""
    (tmp_path / "things.py").write_text(WORLD, encoding="utf-8")
    devices = DEVICES.replace("[devices.kettle]\n", '[devices.kettle]\ntitle = "The kettle"\n')
    text = f'document = "{sample("home.json")}"\n{HOME.format(port=broker.port)}{devices}'
    running = Live(tmp_path, text)
    running.start()
    yield running
    running.kill()


@pytest.fixture
def assistant(broker: Mosquitto) -> Iterator[Assistant]:
    seeing = Assistant(broker.port)
    yield seeing
    seeing.stop()


def test_the_messages_are_as_the_integration_wants_them(live: Live, assistant: Assistant) -> None:
    until(lambda: len(assistant.entities()) == 12, "the entities")
    for name, config in assistant.entities().items():
        faults = [each.message for each in SCHEMA.iter_errors({"component": name.split()[0], "config": config})]
        assert faults == [], name
        assert config["device"]["name"] == "Our kitchen"
    assert len({each["unique_id"] for each in assistant.entities().values()}) == 12
    assert assistant.entities()["button do_brighten"]["name"] == "Make it bright"
    assert assistant.entities()["sensor service_kettle"]["name"] == "The kettle"


def test_its_entities_show_the_home_and_run_it(live: Live, assistant: Assistant) -> None:
    until(lambda: assistant.there("button do_brighten"), "the button", (KeyError,))
    assert not assistant.there("button do_boil")
    assert assistant.value("sensor target") == "quiet"
    assistant.press("button do_brighten")
    until(lambda: assistant.value("sensor target") == "bright", "the target")
    until(lambda: assistant.there("button do_boil"), "the next button")
    assert assistant.value("sensor service_window") == "open"
    assert any("for Home Assistant" in text for text in live.kinds("asked"))
    assistant.choose("select environment", "dusk")
    until(lambda: assistant.value("select environment") == "dusk", "the environment")
    assert assistant.value("sensor served") == "1"
    live.post("/services/kettle/freeze", {})
    until(lambda: assistant.value("binary_sensor composes") == "OFF", "that there is no composition")
    attributes = json.loads(assistant.value("sensor service_kettle", "json_attributes_template"))
    assert attributes["status"] == "frozen" and assistant.value("sensor frozen") == "1"
    assert not assistant.there("button do_boil")


def test_all_are_unavailable_once_the_home_is_gone(live: Live, assistant: Assistant) -> None:
    until(lambda: assistant.there("sensor target"), "the entities", (KeyError,))
    live.kill()
    until(lambda: not any(map(assistant.there, assistant.entities())), "that all are gone")
    for name, entity in assistant.entities().items():
        for key in entity:
            if key.endswith("_template") and key != "command_template":
                assistant.rendered(entity, key)  # It mustn't fail for any message.


def test_the_messages_come_again_when_home_assistant_starts(live: Live, assistant: Assistant) -> None:
    until(lambda: len(assistant.entities()) == 12, "the entities")
    assistant.seen.clear()
    assistant.client.publish("homeassistant/status", "online")
    until(lambda: len(assistant.entities()) == 12, "the entities again")


def config_of(topic: str) -> str:
    return f"homeassistant/{topic}/config"


def test_entities_that_are_no_more_are_removed(
    live: Live, assistant: Assistant, broker: Mosquitto, tmp_path: Path
) -> None:
    """They belong to a service that the document no longer has, and to an environment that now has a sensor. Messages
    of others stay."""
    until(lambda: len(assistant.entities()) == 12, "the entities")
    live.stop()
    texts = ('{"availability_topic": "cellar/state"}', "no JSON", "[" * 50_000, '["kitchen/state"]')
    strangers = {config_of(f"sensor/roman_kitchen/other{number}"): text for number, text in enumerate(texts)}
    for topic, text in strangers.items():
        assistant.client.publish(topic, text, qos=1, retain=True).wait_for_publish(PATIENCE)
    document = json.loads(Path(sample("home.json")).read_text(encoding="utf-8"))
    document["services"] = [each for each in document["services"] if each["name"] != "kettle"]
    (tmp_path / "home.json").write_text(json.dumps(document), encoding="utf-8")
    text = live.file.read_text(encoding="utf-8").replace(sample("home.json"), "home.json")
    live.file.write_text(f'{text}[environment]\nreach = "mqtt"\nstate_topic = "light"\n', encoding="utf-8")
    live.start()
    removed = {config_of("sensor/roman_kitchen/service_kettle"), config_of("select/roman_kitchen/environment")}
    until(lambda: all(assistant.seen[topic] == "" for topic in removed), "the removal")
    until(lambda: config_of("sensor/roman_kitchen/environment") in assistant.seen, "the sensor")
    newcomer = Assistant(broker.port)
    retained = {*strangers, *assistant.seen} - removed
    until(lambda: retained <= set(newcomer.seen), "what is retained")
    newcomer.stop()
    assert removed.isdisjoint(newcomer.seen)


FLOW = TOP / "samples" / "live" / "node-red" / "flow.json"

NEEDED = {
    "inject": {"props", "payload", "payloadType"},
    "change": {"rules"},
    "mqtt out": {"topic", "qos", "broker"},
    "mqtt in": {"topic", "qos", "broker", "datatype"},
    "switch": {"property", "rules", "outputs"},
    "debug": {"complete", "tosidebar"},
    "mqtt-broker": {"broker", "port"},
    "tab": {"label"},
}
"""The properties that an imported node of each type has to have."""


def test_the_flow_of_node_red_can_be_imported() -> None:
    flow = json.loads(FLOW.read_text(encoding="utf-8"))
    nodes = {node["id"]: node for node in flow}
    assert len(nodes) == len(flow)
    shown = [node for node in flow if node["type"] not in ("tab", "mqtt-broker")]
    assert len(shown) == 6
    for node in flow:
        assert NEEDED[node["type"]] <= set(node), node
    for node in shown:
        assert nodes[node["z"]]["type"] == "tab" and {"x", "y", "wires"} <= set(node)
        assert all(to in nodes for wire in node["wires"] for to in wire), node
        if "broker" in node:
            assert nodes[node["broker"]]["type"] == "mqtt-broker"


def test_the_flow_requests_and_hears_the_answer(live: Live, assistant: Assistant) -> None:
    """The requests of its nodes are served, and the nodes receive the answers."""
    flow = json.loads(FLOW.read_text(encoding="utf-8").replace("demo/", "kitchen/"))
    (inject,) = (node for node in flow if node["type"] == "inject")
    (change,) = (node for node in flow if node["type"] == "change")
    (out,) = (node for node in flow if node["type"] == "mqtt out")
    (hears,) = (node for node in flow if node["type"] == "mqtt in")
    assert inject["wires"] == [[change["id"]]] and change["wires"] == [[out["id"]]]
    (rule,) = change["rules"]
    assert (rule["t"], rule["p"], rule["tot"]) == ("set", "payload", "json")
    assistant.client.publish(out["topic"], json.dumps(json.loads(rule["to"])), qos=int(out["qos"]))
    until(lambda: hears["topic"] in assistant.seen, "the answer")
    answer = json.loads(assistant.seen[hears["topic"]])
    assert (answer["status"], answer["served_by"]) == (200, "window")
    (switch,) = (node for node in flow if node["type"] == "switch")
    assert switch["property"] == "payload.status" and len(switch["rules"]) == switch["outputs"] == len(switch["wires"])
