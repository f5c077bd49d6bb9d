"""The file of a home: its document, its devices, and its other settings."""

from __future__ import annotations

import ipaddress
import os
import ssl
import stat
from collections.abc import Callable, Mapping
from dataclasses import dataclass, field, replace
from enum import Enum
from functools import partial
from pathlib import Path
from typing import Any, Union

import tomllib

from .access import LONGEST_TOKEN, TOKEN_BITS, bits
from .devices.maps import HttpMap, Map, ModbusMap, MqttMap, is_map, read_http, read_modbus, read_mqtt
from .limits import Limits
from .tables import HomeFileError as HomeFileError
from .tables import (
    Table,
    UnusableValue,
    first_line,
    flag,
    function,
    one_of,
    origins,
    seconds,
    secret,
    text,
    topic,
    url,
    whole,
    words,
)
from .toml_lines import located

LONGEST_HORIZON = 64
"""The maximum number of requests that `advise` looks ahead."""


IN_PROCESS = "in process"
"""The program of a home whose session runs within its own process."""

LATE = ("failure", "doubt")
"""The meanings of a late device: it has failed, or its call is in doubt."""


class PolicyName(Enum):
    """The names of the policies, which choose one of the offered services."""

    FIRST = "first"
    LEAST_COST = "least cost"
    LEAST_WORST = "least worst"
    ROUND_ROBIN = "round robin"


@dataclass(frozen=True)
class Policy:
    """The policy. `costs` is a file, and `requests` the number of requests that `least worst` looks ahead."""

    choose: PolicyName = PolicyName.FIRST
    costs: Path | None = None
    requests: int = 8


@dataclass(frozen=True)
class Page:
    """The address of the page and the HTTP API. `token` allows to operate them, and `watch_token` to watch. If `token`
    is None, no token is needed."""

    host: str = "127.0.0.1"
    port: int = 8080
    token: str | None = None
    frame_ancestors: tuple[str, ...] = ()
    watch_token: str | None = None


@dataclass(frozen=True)
class Tls:
    """The encryption of a connection: the certificates that are trusted, None for those that this machine trusts, and
    the certificate of this home with its key, if the broker requires one."""

    ca: Path | None = None
    certificate: Path | None = None
    key: Path | None = None

    def context(self) -> ssl.SSLContext:
        """The TLS context of a connection. Raises OSError if a file is missing or can't be read."""
        context = ssl.create_default_context(cafile=self.ca)
        if self.certificate is not None:
            context.load_cert_chain(self.certificate, self.key, password="")
        return context


@dataclass(frozen=True)
class Broker:
    """The MQTT broker, and the prefix of the topics of this home."""

    host: str = "127.0.0.1"
    port: int = 1883
    username: str | None = None
    password: str | None = None
    prefix: str = "roman"
    tls: Tls | None = None
    discovery: str | None = None


@dataclass(frozen=True)
class MqttReach:
    """A device that is asked on one topic, and answers on another."""

    ask: str
    answer: str

    def topics(self) -> Mapping[str, str]:
        """Its topics, by their keys in the home file."""
        return {"ask": self.ask, "answer": self.answer}


@dataclass(frozen=True)
class HttpReach:
    """A device that is asked by POST to a URL. GET of this URL returns the present state."""

    url: str


@dataclass(frozen=True)
class CommandReach:
    """A device that is asked by a command: one for each action, or with `lines` one that keeps running and reads lines.
    If it is `numbered`, the lines have numbers."""

    command: tuple[str, ...]
    lines: bool
    folder: Path
    numbered: bool = False


@dataclass(frozen=True)
class PythonReach:
    """A function or a device of a Python module. If it is `quick`, it is called in the thread of the home, and has no
    deadline."""

    module: str
    name: str
    folder: Path
    quick: bool = False


Reach = Union[MqttReach, HttpReach, CommandReach, PythonReach, Map]

REACHED: Mapping[type, str] = {
    MqttReach: "mqtt",
    HttpReach: "http",
    CommandReach: "command",
    PythonReach: "python",
    MqttMap: "mqtt",
    HttpMap: "http",
    ModbusMap: "modbus",
}


@dataclass(frozen=True)
class DeviceEntry:
    """The device of a service: its reach, and the seconds of its deadline if the home file has one. It may `repeat` a
    call, and a late call may be in doubt. `poll` is the number of seconds between two questions for its state."""

    reach: Reach
    seconds: float | None = None
    repeat: bool = False
    late_is_doubt: bool = False
    poll: float | None = None
    title: str | None = None
    room: str | None = None

    @property
    def reached(self) -> str:
        """The word for its kind of reach."""
        return REACHED[type(self.reach)]


@dataclass(frozen=True)
class Words:
    """Words for the inhabitants: the title of the home, and words for actions and states."""

    title: str | None = None
    actions: Mapping[str, str] = field(default_factory=dict)
    states: Mapping[str, str] = field(default_factory=dict)


@dataclass(frozen=True)
class Sensor:
    """The sensor of the environment: a map without actions, and its deadline in seconds."""

    map: Map
    seconds: float


@dataclass(frozen=True)
class HomeFile:
    """The content of a home file, with absolute paths. A reply of the program may take `program_seconds`. If
    `in_process`, the session runs by libroman, and the program only finds remedies and advice."""

    path: Path
    document: Path
    program: str
    policy: Policy = field(default_factory=Policy)
    journal: Path | None = None
    page: Page = field(default_factory=Page)
    mqtt: Broker | None = None
    devices: Mapping[str, DeviceEntry] = field(default_factory=dict)
    program_seconds: float = 120.0
    environment: Sensor | None = None
    words: Words = field(default_factory=Words)
    limits: Limits = field(default_factory=Limits)
    in_process: bool = False

    @classmethod
    def read(cls, path: Union[str, os.PathLike[str]]) -> HomeFile:
        """Reads a home file. Raises HomeFileError with a line for each mistake."""
        place = Path(os.path.abspath(path))
        try:
            content = place.read_text(encoding="utf-8")
            value = tomllib.loads(content)
        except OSError as error:
            raise HomeFileError(f"{path}: {error.strerror}") from None
        except (tomllib.TOMLDecodeError, UnicodeDecodeError, RecursionError) as error:
            raise HomeFileError(f"{path}: {error}") from None
        table = Table("", value, [])
        home = table.attempt(lambda: _home_file(place, table), None)
        if home is None or table.errors:
            raise HomeFileError("\n".join(f"{path}: {located(content, each)}" for each in table.errors))
        return home


def is_loopback(host: str) -> bool:
    """Whether only this machine reaches an address."""
    if host == "localhost":
        return True
    try:
        return ipaddress.ip_address(host).is_loopback
    except ValueError:
        return False


def _home_file(path: Path, table: Table) -> HomeFile:
    """The home that the file describes, with default values in place of wrong ones."""
    folder = path.parent
    usual: Broker | None = Broker()
    usual_program = os.environ.get("ROMAN", "roman")
    home = HomeFile(
        path,
        table.attempt(lambda: folder / table.need("document", text, 'document = "home.json"'), folder),
        table.take("program", text, usual_program),
        table.attempt(lambda: _policy(table.table("policy"), folder), Policy()),
        table.attempt(lambda: _journal(table.table("journal"), folder), None),
        table.attempt(lambda: _page(table.table("page"), folder), Page()),
        table.attempt(lambda: _broker(table.table("mqtt"), folder), usual),
        table.attempt(lambda: _devices(table.table("devices"), folder), {}),
        table.take("program_seconds", seconds, 120.0),
        table.attempt(lambda: _environment(table.table("environment"), folder), None),
        table.attempt(lambda: _words(table.take("title", text, None), table.table("words")), Words()),
        _limits(table.table("limits")),
    )
    table.end()
    table.attempt(lambda: _check_topics(home), None)
    return replace(home, program=usual_program, in_process=True) if home.program == IN_PROCESS else home


def _check_topics(home: HomeFile) -> None:
    """Raises HomeFileError if a topic is named without a broker, or has two uses, because their messages couldn't be
    distinguished."""
    own = ("requests", "answers", "environment", "state")
    taken = {} if home.mqtt is None else {f"{home.mqtt.prefix}/{each}": "one of mqtt.prefix" for each in own}
    reaches: dict[str, Reach] = {f"devices.{name}": entry.reach for name, entry in home.devices.items()}
    if home.environment is not None:
        reaches["environment"] = home.environment.map
    for where, reach in reaches.items():
        if not isinstance(reach, (MqttReach, MqttMap)):
            continue
        if home.mqtt is None:
            raise HomeFileError(f"{where}.reach is 'mqtt', and there is no table [mqtt]")
        for key, place in reach.topics().items():
            if place in taken:
                raise HomeFileError(f"{where}.{key} is {place!r}, and so is {taken[place]}")
            if isinstance(reach, MqttReach):  # Topics of maps belong to the devices, and may be shared.
                taken[place] = f"{where}.{key}"


def _policy(table: Table | None, folder: Path) -> Policy:
    if table is None:
        return Policy()
    names = [each.value for each in PolicyName]
    choose = PolicyName(table.take("choose", one_of(names), PolicyName.FIRST.value))
    costs = table.take("costs", text, None)
    requests = table.take("requests", whole(1, LONGEST_HORIZON), None)
    table.end()
    if table.is_wrong:
        raise UnusableValue()
    if choose in (PolicyName.LEAST_COST, PolicyName.LEAST_WORST):
        if costs is None:
            raise table.wrong("costs", f"is missing, which {choose.value!r} needs: a file of costs")
    elif costs is not None:
        raise table.wrong("costs", f"is there, and policy.choose is {choose.value!r}, which takes none")
    if requests is not None and choose is not PolicyName.LEAST_WORST:
        raise table.wrong("requests", f"is there, and policy.choose is {choose.value!r}, which doesn't look ahead")
    return Policy(choose, None if costs is None else folder / costs, 8 if requests is None else requests)


def _journal(table: Table | None, folder: Path) -> Path | None:
    if table is None:
        return None
    path = table.need("path", text, 'path = "home.db"')
    table.end()
    return folder / path


def _page(table: Table | None, folder: Path) -> Page:
    if table is None:
        return Page()
    host = table.take("host", text, "127.0.0.1")
    port = table.take("port", whole(0, 65535), 8080)
    token, watch_token = (_token(table, key, folder) for key in ("token_file", "watch_token_file"))
    frames: tuple[str, ...] = table.take("frame_ancestors", origins, ())
    table.end()
    if watch_token is not None and token is None:
        raise table.wrong("watch_token_file", "is there, and token_file isn't: a token to operate the home")
    if watch_token is not None and watch_token == token:
        raise table.wrong("watch_token_file", "has the same token as token_file")
    if token is None and not is_loopback(host):
        raise table.wrong("token_file", f"is missing, which the address {host} needs: a file with a secret word")
    return Page(host, port, token, frames, watch_token)


def _limits(table: Table | None) -> Limits:
    if table is None:
        return Limits()
    usual = Limits()
    limits = Limits(
        table.take("connections", whole(8, 100_000), usual.connections),
        table.take("listeners", whole(1, 100_000), usual.listeners),
        table.take("waiting", whole(1, 100_000), usual.waiting),
        table.take("messages", whole(1, 100_000), usual.messages),
        table.take("silence", seconds, usual.silence),
        table.take("unread", seconds, usual.unread),
    )
    table.end()
    return limits


def _broker(table: Table | None, folder: Path) -> Broker | None:
    if table is None:
        return None
    tls = _tls(table.table("tls"), folder)
    broker = Broker(
        table.take("host", text, "127.0.0.1"),
        table.take("port", whole(1, 65535), 1883 if tls is None else 8883),
        table.take("username", text, None),
        secret(table, "password_file", folder),
        table.take("prefix", topic, "roman"),
        tls,
        table.take("discovery", topic, None),
    )
    table.end()
    if broker.password is not None and broker.username is None and not table.is_wrong:
        raise table.wrong("username", "is missing, whose password password_file has")
    return broker


def _tls(table: Table | None, folder: Path) -> Tls | None:
    if table is None:
        return None
    names = ("ca_file", "certificate_file", "key_file")
    given = {name: table.take(name, text, None) for name in names}
    table.end()
    if given["key_file"] is not None and given["certificate_file"] is None:
        raise table.wrong("certificate_file", "is missing, whose key key_file is")
    tls = Tls(*(None if file is None else folder / file for file in given.values()))
    for name, part in (("ca_file", Tls(tls.ca)), ("certificate_file", tls)):
        try:
            part.context()
        except OSError as error:
            raise table.wrong(name, f"is {given[name]!r}, which can't be used: {error}") from None
    return tls


def _token(table: Table, key: str, folder: Path) -> str | None:
    """A token that can't be guessed, in a file that others can't read."""
    file = table.take(key, text, None)
    if file is None:
        return None
    token = first_line(table, key, folder, file)
    if (folder / file).stat().st_mode & stat.S_IRWXO:
        raise table.wrong(key, f"is {file!r}, which every user of this machine can read; see chmod o= {file}")
    if not TOKEN_BITS <= bits(token) or len(token) > LONGEST_TOKEN:
        make = f"(umask 77; openssl rand -hex 32 > {file})"
        raise table.wrong(key, f"is {file!r}, whose token could be guessed; this makes another one: {make}")
    return token


def _devices(table: Table | None, folder: Path) -> dict[str, DeviceEntry]:
    if table is None:
        return {}
    found: dict[str, DeviceEntry] = {}
    for name, value in table.items():
        entry = table.attempt(partial(_device, table, name, value, folder), None)
        if entry is not None:
            found[name] = entry
    return found


def _device(devices: Table, name: str, value: Any, folder: Path) -> DeviceEntry:
    table = Table(devices.key(name), value, devices.errors)
    kind = table.need("reach", one_of(KINDS), "reach = " + " or ".join(f'"{each}"' for each in KINDS))
    limit = table.take("seconds", seconds, None)
    repeat = table.take("repeat", flag, False)
    late = table.take("late", one_of(LATE), LATE[0])
    # Devices over MQTT report their moves; maps have a pause of their own.
    poll = None if kind in ("mqtt", "modbus") or is_map(table) else table.take("poll", seconds, None)
    title, room = table.take("title", text, None), table.take("room", text, None)
    reach = _READERS[kind](table, folder)
    table.end()
    if limit is not None and isinstance(reach, PythonReach) and reach.quick:
        raise table.wrong("seconds", "is there, and quick is true: a quick device has no deadline")
    return DeviceEntry(reach, limit, repeat, late == "doubt", poll, title, room)


def _words(title: str | None, table: Table | None) -> Words:
    if table is None:
        return Words(title)
    given = {}
    for kind in ("actions", "states"):
        inner = table.table(kind)
        given[kind] = {} if inner is None else {name: inner.need(name, text, "") for name in inner.names()}
    table.end()
    return Words(title, given["actions"], given["states"])


def _environment(table: Table | None, folder: Path) -> Sensor | None:
    if table is None:
        return None
    kind = table.need("reach", one_of(tuple(_SENSORS)), "reach = " + " or ".join(f'"{each}"' for each in _SENSORS))
    limit = table.take("seconds", seconds, 10.0)
    found = _SENSORS[kind](table, folder, False)
    table.end()
    return Sensor(found, limit)


_SENSORS: Mapping[str, Callable[[Table, Path, bool], Map]] = {
    "mqtt": read_mqtt,
    "http": read_http,
    "modbus": read_modbus,
}


def _mqtt(table: Table, folder: Path) -> Reach:
    if is_map(table):
        return read_mqtt(table, folder)
    return MqttReach(
        table.need("ask", topic, 'ask = "home/window/ask"'),
        table.need("answer", topic, 'answer = "home/window/answer"'),
    )


def _http(table: Table, folder: Path) -> Reach:
    if is_map(table):
        return read_http(table, folder)
    return HttpReach(table.need("url", url, 'url = "http://192.168.1.20/blind"'))


def _command(table: Table, folder: Path) -> Reach:
    command = table.need("command", words, 'command = ["./lamp"]')
    lines, numbered = table.take("lines", flag, False), table.take("numbered", flag, False)
    if numbered and not lines:
        raise table.wrong("numbered", "is true, and lines isn't: only lines have numbers")
    return CommandReach(command, lines, folder, numbered)


def _python(table: Table, folder: Path) -> Reach:
    module, name = table.need("call", function, 'call = "lamps:ceiling"')
    return PythonReach(module, name, folder, table.take("quick", flag, False))


_READERS: Mapping[str, Callable[[Table, Path], Reach]] = {
    "mqtt": _mqtt,
    "http": _http,
    "command": _command,
    "python": _python,
    "modbus": read_modbus,
}

KINDS = tuple(_READERS)
"""The ways in which a device is reached."""
