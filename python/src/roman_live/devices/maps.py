"""Maps: tables of the home file that translate the messages of a device of any make.

The keys are those of Home Assistant's MQTT integration, if it has one for the purpose: `state_topic`, `value_template`,
`availability_topic`, `payload_available`.
"""

from __future__ import annotations

import re
from collections.abc import Collection, Mapping
from dataclasses import dataclass, field
from pathlib import Path
from typing import Any
from urllib.parse import urljoin

from multidict import CIMultiDict

from roman_client import Document
from roman_client.documents import Machine

from ..limits import one_line
from ..tables import HomeFileError, Table, UnusableValue, one_of, seconds, secret, text, topic, url, whole
from ..templates import Template, TemplateFailed, command_template, json_template, message_template, message_values

POLL = 10.0
"""The default number of seconds between two questions to a device that reports nothing by itself."""

Headers = Mapping[str, str]


@dataclass(frozen=True)
class Reading:
    """The content of a message: the value of its template, and the states that the value stands for. `state` is None
    if the map has no state for the value."""

    said: str
    state: str | None
    environment: str | None = None

    @property
    def unknown(self) -> str:
        """The error for a value that stands for no state."""
        return f"says {one_line(repr(self.said))}, which is in none of its states"


@dataclass(frozen=True)
class States:
    """The states that a device's messages stand for: a template, and the states by its values. `environment` and
    `environments` are the same for the environment, if the device reports it."""

    template: Template | None = None
    names: Mapping[str, str] | None = None
    environment: Template | None = None
    environments: Mapping[str, str] | None = None

    def read(self, message: str) -> Reading | None:
        """The reading of a message. None if its template has no value: the message is about something else."""
        values = message_values(message)
        said = message.strip() if self.template is None else _value(self.template, values)
        if not said:
            return None
        environment = None if self.environment is None else _value(self.environment, values) or None
        if environment is not None and self.environments is not None:
            environment = self.environments.get(environment)
        return Reading(said, said if self.names is None else self.names.get(said), environment)


def _value(template: Template, values: Mapping[str, Any]) -> str:
    try:
        return template.render(values)
    except TemplateFailed:
        return ""


@dataclass(frozen=True)
class Action:
    """A command to a device. `state` is the state after it, if the device doesn't report one."""

    state: str | None = field(default=None, kw_only=True)


@dataclass(frozen=True)
class MqttAction(Action):
    """A message on a topic."""

    topic: str
    payload: Template


@dataclass(frozen=True)
class HttpAction(Action):
    """A request. `json` is JSON with templates in it."""

    method: str
    url: str
    headers: Headers
    payload: Template | None = None
    json: Any = None


@dataclass(frozen=True)
class ModbusPlace:
    """Coils or registers: their kind, as in `PLACES`, the address of the first one, and their number."""

    kind: str
    address: int
    count: int = 1


@dataclass(frozen=True)
class ModbusAction(Action):
    """A value to write."""

    place: ModbusPlace
    value: bool | int


@dataclass(frozen=True)
class Availability:
    """The topic on which a device, or its last will, reports whether it is available."""

    topic: str
    template: Template | None
    available: str
    not_available: str

    def read(self, message: str) -> bool | None:
        """Whether the device is available. None if the message states neither."""
        said = message.strip() if self.template is None else _value(self.template, message_values(message))
        return {self.available: True, self.not_available: False}.get(said)


@dataclass(frozen=True)
class Map:
    """The common part of all maps."""

    states: States
    actions: Mapping[str, Action]


@dataclass(frozen=True)
class MqttMap(Map):
    """A device behind a broker. It answers `ask_payload` on `ask_topic` with its state."""

    actions: Mapping[str, MqttAction]
    state_topic: str | None
    ask_topic: str | None
    ask_payload: str
    availability: Availability | None

    def topics(self) -> Mapping[str, str]:
        """Its topics, by their keys in the home file."""
        availability = None if self.availability is None else self.availability.topic
        given = {"state_topic": self.state_topic, "ask_topic": self.ask_topic, "availability_topic": availability}
        actions = {f"actions.{name}.topic": action.topic for name, action in self.actions.items()}
        return {key: topic for key, topic in {**given, **actions}.items() if topic is not None}


@dataclass(frozen=True)
class HttpMap(Map):
    """A device with an HTTP API."""

    actions: Mapping[str, HttpAction]
    state: HttpAction | None
    poll: float


@dataclass(frozen=True)
class ModbusMap(Map):
    """A machine with coils and registers, reached over TCP."""

    actions: Mapping[str, ModbusAction]
    host: str
    port: int
    unit: int
    state: ModbusPlace
    poll: float


# Reading the tables.


def is_map(table: Table) -> bool:
    """Whether a table has one of the keys that only maps have."""
    return any(table.has(key) for key in ("state_topic", "state_url", "actions"))


def read_mqtt(table: Table, folder: Path, acts: bool = True) -> MqttMap:
    """The map of a device behind a broker. If `acts` is false, it only reports a state, as a sensor does."""
    states = _states(table)
    command = table.take("command_topic", topic, None) if acts else None
    state_topic = table.take("state_topic", topic, None)
    tables = _actions(table, command is not None) if acts else {}
    actions = {name: _mqtt_action(each, command, state_topic) for name, each in tables.items()}
    ask_topic = table.take("ask_topic", topic, None)
    ask_payload = table.take("ask_payload", any_text, "")
    if ask_topic is not None and state_topic is None:
        raise table.wrong("state_topic", "is missing, on which the device answers to ask_topic")
    _need_state(table, "state_topic", 'state_topic = "stat/plug/RESULT"', state_topic, actions, acts)
    return MqttMap(states, actions, state_topic, ask_topic, ask_payload, _availability(table))


def _mqtt_action(table: Table, command: str | None, state_topic: str | None) -> MqttAction:
    to = table.take("topic", topic, command)
    if to is None and table.is_wrong:
        raise UnusableValue()
    if to is None:
        raise table.wrong("topic", 'is missing, as in topic = "cmnd/plug/POWER"')
    if to == state_topic:
        raise table.wrong("topic", f"is {to!r}, and so is state_topic")
    payload = table.need("payload", command_template, 'payload = "ON"')
    action = MqttAction(to, payload, state=table.take("state", text, None))
    table.end()
    return action


def _availability(table: Table) -> Availability | None:
    where = table.take("availability_topic", topic, None)
    availability = Availability(
        where or "",
        table.take("availability_template", message_template, None),
        table.take("payload_available", text, "online"),
        table.take("payload_not_available", text, "offline"),
    )
    return availability if where is not None else None


def read_http(table: Table, folder: Path, acts: bool = True) -> HttpMap:
    """The map of a device with an HTTP API. If `acts` is false, it only reports a state, as a sensor does."""
    states, headers = _states(table), _headers(table, folder)
    state_url = table.take("state_url", url, None)
    state = None if state_url is None else HttpAction("GET", state_url, headers)
    tables = _actions(table, False) if acts else {}
    actions = {name: _http_action(each, state_url, headers, folder) for name, each in tables.items()}
    _need_state(table, "state_url", 'state_url = "http://192.168.1.20/relay/0"', state_url, actions, acts)
    return HttpMap(states, actions, state, table.take("poll", seconds, POLL))


METHODS = ("GET", "POST", "PUT", "PATCH", "DELETE")


def _http_action(table: Table, base: str | None, headers: Headers, folder: Path) -> HttpAction:
    def place(value: Any) -> str:
        return url(urljoin(base, text(value)) if base is not None else value)

    where = table.need("url", place, 'url = "http://192.168.1.20/relay/0?turn=on"')
    payload, json = table.take("payload", command_template, None), table.take("json", json_template, None)
    if payload is not None and json is not None:
        raise table.wrong("json", "is there, and so is payload")
    method = table.take("method", one_of(METHODS), "GET" if payload is None and json is None else "POST")
    all_headers = CIMultiDict(headers)
    all_headers.update(_headers(table, folder))
    action = HttpAction(method, where, all_headers, payload, json, state=table.take("state", text, None))
    table.end()
    return action


HEADER = re.compile(r"[!#$%&'*+.^`|~\w-]+", re.ASCII)
"""The name of a header."""


def _headers(table: Table, folder: Path) -> Headers:
    """Headers. Each value is a text, or is read from a file."""
    inner = table.table("headers")
    headers = {}
    for name, value in inner.items() if inner is not None else ():
        assert inner is not None
        if isinstance(value, dict):
            given = Table(inner.key(name), value, inner.errors)
            prefix = given.take("prefix", any_text, "")
            value = secret(given, "file", folder)
            if value is None:
                raise given.wrong("file", 'is missing, as in {file = "token", prefix = "Bearer "}')
            given.end()
            value = prefix + value
        if HEADER.fullmatch(name) is None:
            raise inner.wrong(name, "isn't the name of a header")
        if not isinstance(value, str) or any(ord(letter) < 32 or letter == "\x7f" for letter in value):
            raise inner.wrong(name, 'is neither a text nor a file, as {file = "token", prefix = "Bearer "}')
        headers[name] = value
    return headers


PLACES = ("coil", "discrete", "register", "input")
"""The kinds of places of Modbus: coils and discrete inputs have bits, (holding) registers and input registers
numbers. Coils and registers can be written."""


def read_modbus(table: Table, folder: Path, acts: bool = True) -> ModbusMap:
    """The map of a machine behind Modbus. If `acts` is false, it only reports a state, as a sensor does."""
    states = _states(table)
    host = table.need("host", text, 'host = "192.168.1.30"')
    port, unit = table.take("port", whole(1, 65535), 502), table.take("unit", whole(0, 255), 1)
    inner = table.table("state")
    if inner is None:
        raise table.wrong("state", "is missing, as in state = {register = 10}")
    state = _place(inner, PLACES)
    inner.end()
    tables = _actions(table, False) if acts else {}
    actions = {name: _modbus_action(each) for name, each in tables.items()}
    return ModbusMap(states, actions, host, port, unit, state, table.take("poll", seconds, POLL))


def _place(table: Table, kinds: tuple[str, ...]) -> ModbusPlace:
    given = {kind: table.take(kind, whole(0, 65535), None) for kind in kinds}
    places = [(kind, address) for kind, address in given.items() if address is not None]
    if table.is_wrong:
        raise UnusableValue()
    if len(places) != 1:
        raise HomeFileError(f"{table.name} has to name one of {', '.join(kinds)}, as in {{coil = 0}}")
    count = table.take("count", whole(1, 100), 1) if kinds == PLACES else 1
    return ModbusPlace(*places[0], count)


def _modbus_action(table: Table) -> ModbusAction:
    place = _place(table, ("coil", "register"))

    def value(given: Any) -> bool | int:
        if place.kind == "coil" and isinstance(given, bool):
            return given
        if place.kind == "register" and type(given) is int and 0 <= given <= 65535:
            return given
        raise ValueError("true or false" if place.kind == "coil" else "a whole number from 0 to 65535")

    action = ModbusAction(place, table.need("value", value, "value = true"))
    table.end()
    return action


def any_text(value: Any) -> str:
    """A text, which may be empty."""
    if not isinstance(value, str):
        raise ValueError("a text")
    return value


def _states(table: Table) -> States:
    return States(
        table.take("value_template", message_template, None),
        _names(table, "states"),
        table.take("environment_template", message_template, None),
        _names(table, "environments"),
    )


def _names(table: Table, key: str) -> Mapping[str, str] | None:
    """The states by the values that stand for them."""
    inner = table.table(key)
    if inner is None:
        return None
    names = dict(inner.items())
    for value, state in names.items():
        if not isinstance(state, str) or not state:
            raise inner.wrong(value, f"is {state!r}, and not the name of a state")
    return names


def _actions(table: Table, plain: bool) -> dict[str, Table]:
    """The tables of the actions. If `plain`, an action may be its payload alone."""
    inner = table.table("actions")
    if inner is None:
        raise table.wrong("actions", f"is missing, as in a table [{table.name}.actions]")
    given = dict(inner.items())
    if plain:
        given = {name: {"payload": value} if isinstance(value, str) else value for name, value in given.items()}
    return {name: Table(inner.key(name), value, inner.errors) for name, value in given.items()}


def _need_state(
    table: Table, key: str, example: str, given: str | None, actions: Mapping[str, Action], acts: bool
) -> None:
    """Raises HomeFileError if a device doesn't report its state, and the map lacks the state after some action."""
    if given is not None or table.is_wrong:
        return
    silent = [name for name, action in actions.items() if action.state is None]
    if not acts or silent:
        least = f"; or {table.key('actions')}.{silent[0]}.state, if the device says none" if silent else ""
        raise table.wrong(key, f"is missing, as in {example}{least}")


# Checks against the document.


def check_map(where: str, found: Map, document: Document, behaviour: str | None) -> None:
    """Raises HomeFileError for a name that this behaviour doesn't have, or that the map lacks for it. If `behaviour` is
    None, the names of all behaviours are allowed. `where` is the name of the map's table."""
    machines = [document.behaviours[behaviour]] if behaviour is not None else list(document.behaviours.values())
    kind = behaviour or "any behaviour"
    known = {step.action: None for machine in machines for step in machine.steps}
    states = {state: None for machine in machines for state in machine.states}
    for name, action in found.actions.items():
        _look_up(f"{where}.actions", name, known, f"no action of {kind}")
        if action.state is not None:
            _look_up(f"{where}.actions.{name}.state", action.state, states, f"no state of {kind}", value=True)
    check_states(where, found.states, states, f"no state of {kind}", document.environment.states)
    if behaviour is not None:
        _check_actions(where, found, machines[0])


def check_states(where: str, found: States, states: Collection[str], none: str, environments: Collection[str]) -> None:
    """Raises HomeFileError for an unknown state."""
    for value, state in (found.names or {}).items():
        _look_up(f"{where}.states.{value}", state, states, none, value=True)
    for value, state in (found.environments or {}).items():
        _look_up(f"{where}.environments.{value}", state, environments, "no state of the environment", value=True)


def check_words(actions: Collection[str], states: Collection[str], document: Document) -> None:
    """Raises HomeFileError if there are words for an unknown action or state."""
    machines = (*document.behaviours.values(), *document.targets)
    known = dict.fromkeys((*document.environment.states, *(state for each in machines for state in each.states)))
    for name in actions:
        _look_up("words.actions", name, document.actions, "no action that may be requested")
    for name in states:
        _look_up("words.states", name, known, "no state of the document")


def _look_up(key: str, name: str, known: Collection[str], none: str, value: bool = False) -> None:
    if name not in known:
        which = f"{key} is {name!r}" if value else f"{key}.{name}"
        raise HomeFileError(f"{which}{', and' if value else ' is'} {none}; known are {', '.join(known)}")


def _check_actions(where: str, found: Map, machine: Machine) -> None:
    """Raises HomeFileError for an action that the map lacks, or if it has no value for any state after an action."""
    for action in dict.fromkeys(step.action for step in machine.steps):
        if action not in found.actions:
            raise HomeFileError(f"{where}.actions.{action} is missing, an action of {machine.name}")
        after = dict.fromkeys(step.to for step in machine.steps if step.action == action)
        names = found.states.names
        if names is not None and not set(after) & set(names.values()) and found.actions[action].state is None:
            words = " or ".join(after)
            raise HomeFileError(f"{where}.states has no value for {words}, to which {action} leads")
