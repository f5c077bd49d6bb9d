"""Maps: mistakes in their tables, the meanings of messages, and devices that no sample has."""

from __future__ import annotations

import asyncio
import contextlib
import errno
import json
import socket
import threading
from collections.abc import AsyncIterator, Callable, Coroutine
from contextlib import AsyncExitStack
from functools import partial
from pathlib import Path
from typing import Any, TypeVar
from unittest import mock

import pytest
from aiohttp import web
from pymodbus.datastore import ModbusSequentialDataBlock, ModbusServerContext, ModbusSlaveContext

from roman_client import Call, DeviceFailed, Document
from roman_live.config import HomeFile, HomeFileError
from roman_live.devices import Answer, modbus
from roman_live.devices.factory import make_mapped
from roman_live.devices.mapped import MappedReach
from roman_live.devices.maps import HttpMap, Map, Reading, check_map
from roman_live.environment import EnvironmentSensor
from roman_live.errors import NoSpace
from roman_live.polling import poll

from . import sample
from .machinery import PATIENCE, free_port

try:
    from pymodbus.server import ModbusTcpServer
except ImportError:  # Debian 12 has version 3.0.
    from pymodbus.server.async_io import ModbusTcpServer

Value = TypeVar("Value")

MQTT = """
document = "home.json"
[mqtt]
[devices.ceiling]
reach = "mqtt"
state_topic = "stat/plug/RESULT"
value_template = "{{ value_json.POWER }}"
states = {ON = "on", OFF = "off"}
ask_topic = "cmnd/plug/POWER"
availability_topic = "tele/plug/LWT"
payload_available = "Online"
payload_not_available = "Offline"
[devices.ceiling.actions]
brighten = {topic = "cmnd/plug/POWER", payload = "ON"}
dim = {topic = "cmnd/plug/POWER", payload = "OFF"}
"""

HTTP = """
document = "home.json"
[devices.ceiling]
reach = "http"
state_url = "http://127.0.0.1:80/relay/0"
value_template = "{{ value_json.ison }}"
states = {True = "on", False = "off"}
[devices.ceiling.actions]
brighten = {url = "?turn=on"}
dim = {url = "?turn=off"}
"""

MODBUS = """
document = "home.json"
[devices.ceiling]
reach = "modbus"
host = "127.0.0.1"
state = {input = 0}
states = {0 = "off", 2 = "on"}
[devices.ceiling.actions]
brighten = {coil = 0, value = true}
dim = {coil = 0, value = false}
"""

WHERE = "devices.ceiling"

MISTAKES = [
    (
        MQTT,
        'state_topic = "stat/plug/RESULT"\n',
        "",
        "state_topic is missing, on which the device answers to ask_topic",
    ),
    (
        MQTT,
        '"{{ value_json.POWER }}"',
        '"{{ value_json.POWER"',
        "value_template is '{{ value_json.POWER', and not a template: ",
    ),
    (MQTT, "value_json.POWER", "states('x')", "and not a template of value and value_json: it uses states"),
    (
        MQTT,
        "value_json.POWER",
        "value_json.POWER | celsius",
        "value_template is '{{ value_json.POWER | celsius }}', and not",
    ),
    (MQTT, 'ON = "on"', "ON = true", "states.ON is True, and not the name of a state"),
    (MQTT, 'ON = "on"', 'ON = "onn"', "states.ON is 'onn', and no state of lamp; known are off, on"),
    (MQTT, 'ON = "on", ', "", "states has no value for on, to which brighten leads"),
    (MQTT, "dim = {", "dimm = {", "actions.dimm is no action of lamp; known are brighten, dim"),
    (MQTT, 'dim = {topic = "cmnd/plug/POWER", payload = "OFF"}\n', "", "actions.dim is missing, an action of lamp"),
    (MQTT, 'topic = "cmnd/plug/POWER", payload = "OFF"', 'payload = "OFF"', "actions.dim.topic is missing"),
    (MQTT, 'payload = "OFF"', 'load = "OFF"', "actions.dim.payload is missing"),
    (
        MQTT,
        'payload = "OFF"',
        'payload = "{{ value }}"',
        "actions.dim.payload is '{{ value }}', and not a template of action",
    ),
    (MQTT, 'payload = "OFF"', 'payload = "OFF", qos = 1', "actions.dim.qos isn't known"),
    (MQTT, 'payload = "OFF"', 'payload = "OFF", state = "of"', "actions.dim.state is 'of', and no state of lamp"),
    (MQTT, '{topic = "cmnd/plug/POWER", payload = "OFF"}', '"OFF"', "actions.dim isn't a table"),
    (
        MQTT,
        '"cmnd/plug/POWER", payload = "OFF"',
        '"stat/plug/RESULT", payload = "OFF"',
        "actions.dim.topic is 'stat/plug/RESULT', and so is",
    ),
    (MQTT, '"tele/plug/LWT"', '"tele/+/LWT"', "availability_topic is 'tele/+/LWT', and not a topic without"),
    (MQTT, '"tele/plug/LWT"', '"roman/state"', "availability_topic is 'roman/state', and so is one of mqtt.prefix"),
    (MQTT, "[mqtt]\n", "", "reach is 'mqtt', and there is no table [mqtt]"),
    (MQTT, "ask_topic", "askk_topic", "askk_topic isn't known; did you mean ask_topic?"),
    (
        MQTT,
        "ask_topic =",
        'environments = {wet = "dawn"}\nask_topic =',
        "environments.wet is 'dawn', and no state of the environment; known are day, dusk",
    ),
    (HTTP, 'state_url = "http://127.0.0.1:80/relay/0"\n', "", "actions.brighten.url is '?turn=on', and not a URL"),
    (HTTP, '"?turn=off"', '"?turn=off", payload = "x", json = {}', "actions.dim.json is there, and so is payload"),
    (HTTP, '"?turn=off"', '"?turn=off", json = {a = 1979-05-27}', "actions.dim.json is "),
    (HTTP, '"?turn=off"', '"?turn=off", method = "TURN"', "actions.dim.method is 'TURN', and not one of"),
    (
        HTTP,
        "[devices.ceiling.actions]",
        'headers = {A = {file = "gone"}}\n[devices.ceiling.actions]',
        "headers.A.file is 'gone', which can't be read",
    ),
    (
        HTTP,
        "[devices.ceiling.actions]",
        "headers = {A = 1}\n[devices.ceiling.actions]",
        "headers.A is neither a text nor a file",
    ),
    (
        HTTP,
        "[devices.ceiling.actions]",
        'headers = {"A: B" = "x"}\n[devices.ceiling.actions]',
        "headers.A: B isn't the name of a header",
    ),
    (
        HTTP,
        "[devices.ceiling.actions]",
        "poll = 0\n[devices.ceiling.actions]",
        "poll is 0, and not a number of seconds",
    ),
    (MODBUS, "{input = 0}", "{holding = 0}", "state has to name one of coil, discrete, register, input"),
    (MODBUS, "{input = 0}", "{input = 0, coil = 1}", "state has to name one of coil, discrete, register, input"),
    (MODBUS, "state = {input = 0}\n", "", "state is missing, as in state = {register = 10}"),
    (MODBUS, "value = false", "value = 7", "actions.dim.value is 7, and not true or false"),
    (
        MODBUS,
        "coil = 0, value = false",
        "register = 0, value = 70000",
        "actions.dim.value is 70000, and not a whole number",
    ),
    (MODBUS, "coil = 0, value = false", "input = 0, value = 7", "actions.dim has to name one of coil, register"),
    (
        MODBUS,
        "[devices.ceiling.actions]\n",
        "[devices.ceiling.acts]\n",
        "actions is missing, as in a table [devices.ceiling.actions]",
    ),
]


def read(folder: Path, text: str) -> HomeFile:
    file = folder / "home.toml"
    file.write_text(text, encoding="utf-8")
    return HomeFile.read(file)


def map_of(folder: Path, text: str) -> Map:
    reach = read(folder, text).devices["ceiling"].reach
    assert isinstance(reach, Map)
    return reach


@pytest.mark.parametrize("text, old, new, said", MISTAKES)
def test_a_mistake_is_found_with_table_and_key(tmp_path: Path, text: str, old: str, new: str, said: str) -> None:
    assert old in text
    with pytest.raises(HomeFileError) as raised:
        found = map_of(tmp_path, text.replace(old, new))
        check_map(WHERE, found, Document.load(sample("home.json")), "lamp")
    assert f"{WHERE}.{said}" in str(raised.value) or (said.startswith("and not") and said in str(raised.value))


@pytest.mark.parametrize("text", [MQTT, HTTP, MODBUS])
def test_these_maps_are_right(tmp_path: Path, text: str) -> None:
    check_map(WHERE, map_of(tmp_path, text), Document.load(sample("home.json")), "lamp")


def test_an_action_has_its_own_headers(tmp_path: Path) -> None:
    """Names of headers are case-insensitive."""
    text = HTTP.replace("[devices.ceiling.actions]", 'headers = {A = "1", B = "2"}\n[devices.ceiling.actions]')
    found = map_of(tmp_path, text.replace('"?turn=on"', '"?turn=on", headers = {a = "3"}'))
    assert isinstance(found, HttpMap)
    assert {name.lower(): value for name, value in found.actions["brighten"].headers.items()} == {"a": "3", "b": "2"}
    assert len(found.actions["brighten"].headers) == 2


def test_what_messages_stand_for(tmp_path: Path) -> None:
    states = map_of(tmp_path, MQTT).states
    assert states.read('{"POWER": "ON"}') == Reading("ON", "on")
    assert states.read('{"POWER": "JAMMED"}') == Reading("JAMMED", None)
    for other in ('{"Dimmer": 50}', "ON", "[1]", '{"POWER": ""}', '"POWER"', "{" * 100_000):
        assert states.read(other) is None, other[:20]
    bare = map_of(tmp_path, MQTT.replace('value_template = "{{ value_json.POWER }}"\n', "")).states
    assert bare.read(" ON\n") == Reading("ON", "on")
    free = map_of(tmp_path, MQTT.replace('states = {ON = "on", OFF = "off"}\n', "")).states
    assert free.read('{"POWER": "anything"}') == Reading("anything", "anything")


def test_a_template_is_in_a_sandbox(tmp_path: Path) -> None:
    evil = "{{ ''.__class__.__mro__[1].__subclasses__() }}"
    states = map_of(tmp_path, MQTT.replace("{{ value_json.POWER }}", evil)).states
    assert states.read("x") is None


@pytest.mark.parametrize(
    "template, said",
    [
        ("{{ value_json.POWER | is_defined }}", "ON"),
        ("{{ iif(value_json.POWER == 'ON', 'ON', 'OFF') }}", "ON"),
        ("{{ (value | from_json).POWER }}", "ON"),
        ("{{ value_json.level | float(7) | round | int }}", "7"),
        ("{% if value_json.POWER %}{{ value_json.POWER }}{% endif %}", "ON"),
        ("{{ value_json.a.b.c }}", None),
        ("{{ value_json.gone | is_defined }}", None),
        ("{{ 1 // 0 }}", None),
        ("{{ '1e999' | int(7) }}", "7"),
        ("{{ value | dictsort }}", None),
        ("{{ ('[' * 100000) | from_json }}", None),
    ],
)
def test_templates_of_home_assistant(tmp_path: Path, template: str, said: str | None) -> None:
    reading = map_of(tmp_path, MQTT.replace("{{ value_json.POWER }}", template)).states.read('{"POWER": "ON"}')
    assert (reading.said if reading is not None else None) == said


class Heard:
    """A listener that records the reports."""

    def __init__(self) -> None:
        self.told: list[tuple[Any, ...]] = []

    def moved(self, service: str, answer: Answer) -> None:
        self.told.append(("moved", answer.state))

    def answered(self, service: str) -> None:
        self.told.append(("answered",))

    def gone(self, service: str) -> None:
        self.told.append(("gone",))

    def late(self, service: str, text: str) -> None:
        self.told.append(("late", text))


class Broker:
    """A broker that records the messages that are sent, and passes a device's messages to listeners."""

    def __init__(self) -> None:
        self.connected = True
        self.sent: list[tuple[str, str]] = []
        self._topics: dict[str, Callable[[bytes, bool], None]] = {}

    def subscribe(self, topic: str, listener: Callable[[bytes, bool], None]) -> None:
        self._topics[topic] = listener

    def send_now(self, topic: str, text: str) -> bool:
        self.sent.append((topic, text))
        return self.connected

    def say(self, topic: str, text: str, retained: bool = False) -> None:
        self._topics[topic](text.encode(), retained)


BRIGHTEN = Call("ceiling", "brighten", "brighten", 1)


def outcomes(call: Call) -> set[tuple[str, str]]:
    return {("on" if call.action == "brighten" else "off", "day")}


class Plug:
    """The plug of the map above, at a broker of its own."""

    def __init__(self, found: Map) -> None:
        self.heard = Heard()
        self.broker: Any = Broker()
        self.reach = make_mapped("ceiling", found, self.heard, self.broker, outcomes)

    @classmethod
    async def opened(cls, folder: Path, text: str) -> Plug:
        """Opens the plug of this home file."""
        plug = cls(map_of(folder, text))
        await plug.reach.open()
        return plug

    def result(self, power: str, retained: bool = False) -> None:
        self.broker.say("stat/plug/RESULT", json.dumps({"POWER": power}), retained)

    async def asked(self, work: Coroutine[None, None, Value]) -> asyncio.Task[Value]:
        """Begins a call, and waits until its command has been sent."""
        task = asyncio.create_task(work)
        sent = len(self.broker.sent)
        while len(self.broker.sent) == sent and not task.done():
            await asyncio.sleep(0)
        return task


async def test_the_first_state_that_is_allowed_answers(tmp_path: Path) -> None:
    plug = await Plug.opened(tmp_path, MQTT)
    call = await plug.asked(plug.reach.ask(1, BRIGHTEN))
    assert plug.broker.sent == [("cmnd/plug/POWER", "ON")]
    plug.result("OFF")
    plug.result("ON", retained=True)
    plug.broker.say("stat/plug/RESULT", '{"Dimmer": 5}')
    await asyncio.sleep(0)
    assert not call.done() and plug.heard.told == []
    plug.result("ON")
    plug.result("OFF")
    assert (await call).state == "on"
    assert plug.heard.told == [("answered",), ("moved", "off")]


async def test_the_environment_belongs_to_the_outcome(tmp_path: Path) -> None:
    more = 'environment_template = "{{ value_json.Light }}"\nenvironments = {1 = "day", 0 = "dusk"}\nask_topic'
    plug = await Plug.opened(tmp_path, MQTT.replace("ask_topic", more, 1))
    call = await plug.asked(plug.reach.ask(1, BRIGHTEN))
    plug.broker.say("stat/plug/RESULT", '{"POWER": "ON", "Light": 0}')
    await asyncio.sleep(0)
    assert not call.done()
    plug.broker.say("stat/plug/RESULT", '{"POWER": "ON", "Light": 1}')
    assert await call == Answer("on", "day")


async def test_a_state_without_a_command_is_a_move_by_hand(tmp_path: Path) -> None:
    plug = await Plug.opened(tmp_path, MQTT)
    plug.result("ON", retained=True)
    plug.result("OFF")
    plug.result("JAMMED")
    assert plug.heard.told == [("moved", "on"), ("moved", "off")]


async def test_it_is_asked_for_its_state(tmp_path: Path) -> None:
    plug = await Plug.opened(tmp_path, MQTT)
    first, second = await plug.asked(plug.reach.tell(None)), await plug.asked(plug.reach.tell(None))
    assert plug.broker.sent == [("cmnd/plug/POWER", "")] * 2
    plug.result("ON")
    assert await first == await second == Answer("on")
    told = await plug.asked(plug.reach.tell(None))
    plug.result("JAMMED")
    with pytest.raises(DeviceFailed, match="^says 'JAMMED', which is in none of its states$"):
        await told
    plug.broker.connected = False
    with pytest.raises(DeviceFailed, match="the broker can't be reached"):
        await plug.reach.tell(None)
    with pytest.raises(DeviceFailed, match="the broker can't be reached"):
        await plug.reach.ask(2, BRIGHTEN)


async def test_one_that_can_not_be_asked_has_said_its_state(tmp_path: Path) -> None:
    plug = await Plug.opened(tmp_path, MQTT.replace('ask_topic = "cmnd/plug/POWER"\n', ""))
    plug.result("ON", retained=True)
    assert await plug.reach.tell(None) == Answer("on")
    call = await plug.asked(plug.reach.ask(1, BRIGHTEN))
    call.cancel()
    with pytest.raises(asyncio.CancelledError):
        await call
    told = asyncio.ensure_future(plug.reach.tell(None))
    await asyncio.sleep(0.01)
    assert not told.done()  # Its message before the failure doesn't count.
    plug.result("OFF")
    assert await told == Answer("off")


async def test_its_last_will(tmp_path: Path) -> None:
    plug = await Plug.opened(tmp_path, MQTT)
    plug.broker.say("tele/plug/LWT", "Online", retained=True)
    assert plug.heard.told == []
    call = await plug.asked(plug.reach.ask(1, BRIGHTEN))
    plug.broker.say("tele/plug/LWT", "Offline")
    with pytest.raises(DeviceFailed, match="^isn't available$"):
        await call
    with pytest.raises(DeviceFailed, match="^isn't available$"):
        await plug.reach.ask(2, BRIGHTEN)
    plug.broker.say("tele/plug/LWT", "what")
    plug.broker.say("tele/plug/LWT", "Online")
    assert plug.heard.told == [("gone",), ("late", "is available again")]


async def test_what_it_said_before_it_was_gone_is_no_state(tmp_path: Path) -> None:
    """Only a newer message has its state. One that the broker retains may be older than its absence."""
    plug = await Plug.opened(tmp_path, MQTT.replace('ask_topic = "cmnd/plug/POWER"\n', ""))
    plug.result("ON")
    plug.broker.say("tele/plug/LWT", "Offline")
    plug.result("ON", retained=True)
    plug.broker.say("tele/plug/LWT", "Online")
    told = asyncio.ensure_future(plug.reach.tell(None))
    for _ in range(3):
        await asyncio.sleep(0)
    assert not told.done()
    plug.result("OFF")
    assert await told == await plug.reach.tell(None) == Answer("off")
    assert plug.heard.told == [("moved", "on"), ("gone",), ("late", "is available again"), ("moved", "off")]


async def test_what_it_says_before_it_is_available_again_is_its_state(tmp_path: Path) -> None:
    plug = await Plug.opened(tmp_path, MQTT.replace('ask_topic = "cmnd/plug/POWER"\n', ""))
    plug.broker.say("tele/plug/LWT", "Offline")
    plug.result("ON")
    plug.broker.say("tele/plug/LWT", "Online")
    assert await plug.reach.tell(None) == Answer("on")


async def test_what_the_broker_retains_counts_with_the_availability_that_it_retains(tmp_path: Path) -> None:
    """As after the broker was gone. The state may come before the availability."""
    plug = await Plug.opened(tmp_path, MQTT.replace('ask_topic = "cmnd/plug/POWER"\n', ""))
    plug.broker.say("tele/plug/LWT", "Offline")
    for there in ("Offline", "Online"):
        plug.result("ON", retained=True)
        plug.broker.say("tele/plug/LWT", there, retained=True)
    assert plug.heard.told == [("gone",), ("late", "is available again"), ("moved", "on")]
    assert await plug.reach.tell(None) == Answer("on")


async def test_what_it_said_before_a_command_is_no_state(tmp_path: Path) -> None:
    """Also if the map names the state after the command."""
    text = MQTT.replace('ask_topic = "cmnd/plug/POWER"\n', "").replace('payload = "ON"', 'payload = "ON", state = "on"')
    plug = await Plug.opened(tmp_path, text)
    plug.result("OFF")
    assert await plug.reach.ask(1, BRIGHTEN) == Answer("on")
    told = asyncio.ensure_future(plug.reach.tell(None))
    for _ in range(3):
        await asyncio.sleep(0)
    assert not told.done()
    plug.result("ON")
    assert await told == Answer("on")


MQTT_SENSOR = """
document = "home.json"
[mqtt]
[environment]
reach = "mqtt"
state_topic = "light"
availability_topic = "light/there"
"""

HTTP_SENSOR = """
document = "home.json"
[environment]
reach = "http"
state_url = "http://127.0.0.1:PORT/"
"""


@pytest.mark.parametrize("text", [MQTT_SENSOR, HTTP_SENSOR])
async def test_a_sensor_that_is_gone_has_no_state(tmp_path: Path, text: str) -> None:
    """Its earlier report doesn't undo the moves of the document."""
    broker: Any = Broker()
    said: list[bool] = []
    found = read(tmp_path, text.replace("PORT", str(free_port()))).environment
    assert found is not None
    sensor = EnvironmentSensor(found, broker, lambda state: None, lambda text, well: said.append(well))
    await sensor.reach.open()
    sensor.moved("", Answer("dusk"))
    assert sensor.state == "dusk"
    if text == MQTT_SENSOR:
        broker.say("light/there", "offline")
    else:
        await sensor.ask()
    assert sensor.state is None and said == [False]
    await sensor.reach.close()


async def test_one_that_says_no_state_is_believed(tmp_path: Path) -> None:
    """A plug behind a radio gateway that only sends."""
    text = """
    document = "home.json"
    [mqtt]
    [devices.ceiling]
    reach = "mqtt"
    command_topic = "home/OpenMQTTGateway/commands/MQTTtoRF"
    [devices.ceiling.actions]
    brighten = {payload = '{"value": 1381719, "id": {{ id }}}', state = "on"}
    dim = {payload = '{"value": 1381716}', state = "off"}
    """
    plug = await Plug.opened(tmp_path, text)
    assert await plug.reach.ask(7, BRIGHTEN) == Answer("on")
    assert plug.broker.sent == [("home/OpenMQTTGateway/commands/MQTTtoRF", '{"value": 1381719, "id": 7}')]
    assert await plug.reach.tell(None) is None


HUE = """
document = "home.json"
[devices.ceiling]
reach = "http"
state_url = "http://127.0.0.1:PORT/clip/v2/resource/light/1"
value_template = "{{ value_json.data[0].on.on }}"
states = {True = "on", False = "off"}
headers = {hue-application-key = {file = "key"}}
poll = 0.05
[devices.ceiling.actions]
brighten = {method = "PUT", url = "1", json = {on = {on = true}}}
dim = {method = "PUT", url = "1", json = {on = {on = false}}}
"""


class Hue:
    """A bridge of Philips Hue with one light."""

    def __init__(self) -> None:
        self.on = False
        self.port = free_port()
        self.broken = False
        self.heard = Heard()
        self.answers = asyncio.Event()
        self.answers.set()

    @classmethod
    async def begin(cls, folder: Path, at_end: AsyncExitStack, poll: str = "poll = 0.05") -> tuple[Hue, MappedReach]:
        """Starts a bridge with its light."""
        bridge, app, where = cls(), web.Application(), "/clip/v2/resource/light/1"
        app.add_routes([web.get(where, bridge._get), web.put(where, bridge._put)])
        runner = web.AppRunner(app)
        at_end.push_async_callback(runner.cleanup)
        await runner.setup()
        await web.TCPSite(runner, "127.0.0.1", bridge.port).start()
        (folder / "key").write_text("secret\n", encoding="utf-8")
        found = map_of(folder, HUE.replace("PORT", str(bridge.port)).replace("poll = 0.05", poll))
        reach = make_mapped("ceiling", found, bridge.heard, None, outcomes)
        at_end.push_async_callback(reach.close)
        await reach.open()
        return bridge, reach

    def _check(self, request: web.Request) -> None:
        if request.headers.get("hue-application-key") != "secret":
            raise web.HTTPForbidden()
        if self.broken:
            raise web.HTTPServiceUnavailable()

    async def _get(self, request: web.Request) -> web.Response:
        self._check(request)
        await self.answers.wait()
        return web.json_response({"errors": [], "data": [{"id": "1", "on": {"on": self.on}}]})

    async def _put(self, request: web.Request) -> web.Response:
        self._check(request)
        self.on = (await request.json())["on"]["on"]
        return web.json_response({"data": [{"rid": "1", "rtype": "light"}], "errors": []})


@contextlib.asynccontextmanager
async def polled(
    reach: MappedReach, heard: Heard, seconds: Callable[[], float] = lambda: PATIENCE
) -> AsyncIterator[None]:
    """Polls a device for a listener. Each poll waits for `seconds()`."""
    assert reach.poll is not None
    moved = partial(heard.moved, "ceiling")

    async def told() -> Answer | None:
        return await reach.present(seconds())

    polling = asyncio.create_task(poll(reach.poll, told, lambda: 0, moved, lambda error: heard.gone("ceiling")))
    yield
    polling.cancel()


async def until_told(heard: Heard, what: tuple[Any, ...]) -> None:
    """Waits until the listener has received a report."""
    async with asyncio.timeout(PATIENCE):
        while what not in heard.told:
            await asyncio.sleep(0.01)


async def test_a_light_of_hue(tmp_path: Path, at_end: AsyncExitStack) -> None:
    bridge, reach = await Hue.begin(tmp_path, at_end)
    heard = bridge.heard
    async with polled(reach, heard):
        assert await reach.tell(None) == Answer("off")
        assert await reach.ask(1, BRIGHTEN) == Answer("on")
        assert bridge.on
        heard.told.clear()
        bridge.on = False
        await until_told(heard, ("moved", "off"))
        bridge.broken = True
        await until_told(heard, ("gone",))
        with pytest.raises(DeviceFailed, match=r"/light/1: status 503"):
            await reach.ask(2, BRIGHTEN)
        bridge.broken = False
        heard.told.clear()
        await until_told(heard, ("moved", "off"))


async def test_one_that_hangs_is_gone_until_it_answers(tmp_path: Path, at_end: AsyncExitStack) -> None:
    """A device that can't be asked because no file is left isn't gone."""
    bridge, reach = await Hue.begin(tmp_path, at_end)
    heard, seconds = bridge.heard, PATIENCE
    async with polled(reach, heard, lambda: seconds):
        await until_told(heard, ("moved", "off"))
        with mock.patch.object(socket, "socket", side_effect=OSError(errno.EMFILE, "Too many open files")) as refused:
            async with asyncio.timeout(PATIENCE):
                while refused.call_count < 2:
                    await asyncio.sleep(0.01)
        assert ("gone",) not in heard.told
        seconds = 0.2
        bridge.answers.clear()
        await until_told(heard, ("gone",))
        seconds = PATIENCE
        heard.told.clear()
        bridge.answers.set()
        await until_told(heard, ("moved", "off"))
        assert ("gone",) not in heard.told


async def test_want_of_files_after_a_command(tmp_path: Path, at_end: AsyncExitStack) -> None:
    """The device has received the command, so it isn't sent again."""
    _, reach = await Hue.begin(tmp_path, at_end, "poll = 3600")
    there = json.dumps({"data": [{"on": {"on": True}}]})
    with mock.patch.object(reach, "fetch", side_effect=[NoSpace("too many open files"), there]):
        assert await reach.ask(1, BRIGHTEN) == Answer("on")


VALVE = """
document = "home.json"
[devices.ceiling]
reach = "modbus"
host = "127.0.0.1"
port = PORT
unit = 3
state = {register = 4, count = 2}
value_template = "{{ value_json[1] }}"
states = {0 = "off", 1000 = "on"}
poll = 0.05
[devices.ceiling.actions]
brighten = {register = 5, value = 1000}
dim = {register = 5, value = 0}
"""


async def test_machines_that_hang_delay_nothing_else(tmp_path: Path) -> None:
    patient = mock.patch.object(modbus, "SECONDS", PATIENCE)
    with patient, socket.create_server(("127.0.0.1", 0), backlog=64) as server:
        found = map_of(tmp_path, VALVE.replace("PORT", str(server.getsockname()[1])))
        reaches = [make_mapped("ceiling", found, Heard(), None, outcomes) for _ in range(40)]
        asked = [asyncio.create_task(each.tell(None)) for each in reaches]
        await asyncio.sleep(0)
        assert await asyncio.to_thread(lambda: "written") == "written"
        assert not any(each.done() for each in asked)
    await asyncio.wait(asked)
    for each in reaches:
        await each.close()


class SlowMachine:
    """A client of a machine that accepts a connection only when the test allows it."""

    def __init__(self) -> None:
        self.connects, self.closed, self.free = threading.Event(), threading.Event(), threading.Event()
        self.written: list[tuple[int, int]] = []

    def __call__(self, host: str, **words: Any) -> SlowMachine:
        assert words["retries"] == 0
        return self

    def connect(self) -> bool:
        self.connects.set()
        return self.free.wait(PATIENCE)

    def read_holding_registers(self, address: int, **words: int) -> mock.Mock:
        return mock.Mock(**{"isError.return_value": False, "registers": [0, 1000]})

    def write_register(self, address: int, value: int, **unit: int) -> mock.Mock:
        self.written.append((address, value))
        return mock.Mock(**{"isError.return_value": False})

    def close(self) -> None:
        self.closed.set()


@pytest.mark.parametrize("given_up", [True, False])
async def test_a_call_that_is_given_up_writes_nothing(tmp_path: Path, given_up: bool) -> None:
    machine = SlowMachine()
    with mock.patch("roman_live.devices.modbus.ModbusTcpClient", machine):
        valve = map_of(tmp_path, VALVE.replace("PORT", "1"))
        reach = make_mapped("ceiling", valve, Heard(), None, outcomes)
        call = asyncio.create_task(reach.ask(1, BRIGHTEN))
        assert await asyncio.to_thread(machine.connects.wait, PATIENCE)
        if given_up:
            call.cancel()
            await asyncio.wait([call])
        machine.free.set()
        if not given_up:
            assert await call == Answer("on")
        assert await asyncio.to_thread(machine.closed.wait, PATIENCE)
        assert machine.written == ([] if given_up else [(5, 1000)])
        await reach.close()


async def test_a_valve_with_registers(tmp_path: Path) -> None:
    """The state of the valve is a holding register, at the second of two units of one server."""
    port, heard = free_port(), Heard()
    registers = ModbusSequentialDataBlock(0, [0] * 16)
    units = {1: ModbusSlaveContext(zero_mode=True), 3: ModbusSlaveContext(hr=registers, zero_mode=True)}
    server = ModbusTcpServer(ModbusServerContext(slaves=units, single=False), address=("127.0.0.1", port))
    serving = asyncio.ensure_future(server.serve_forever())
    await asyncio.wait_for(server.serving, PATIENCE)
    reach = make_mapped("ceiling", map_of(tmp_path, VALVE.replace("PORT", str(port))), heard, None, outcomes)
    assert await reach.tell(None) == Answer("off")
    assert await reach.ask(1, BRIGHTEN) == Answer("on")
    assert registers.getValues(5, 1) == [1000]
    registers.setValues(5, [500])
    with pytest.raises(DeviceFailed, match="^says '500', which is in none of its states$"):
        await reach.tell(None)
    other = make_mapped(
        "ceiling",
        map_of(tmp_path, VALVE.replace("PORT", str(port)).replace("= 4", "= 64000")),
        heard,
        None,
        outcomes,
    )
    with pytest.raises(DeviceFailed, match="^refuses: "):
        await other.tell(None)
    serving.cancel()
    await server.server_close()
    with pytest.raises(DeviceFailed, match=f"^127.0.0.1:{port} can't be reached$"):
        await reach.tell(None)
    await reach.close()
    await other.close()
