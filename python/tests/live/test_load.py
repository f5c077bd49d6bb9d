"""Load from outside: connections, listeners, messages, drawings and warnings, each beyond its limit."""

from __future__ import annotations

import asyncio
import contextlib
import http.client
import itertools
import json
import logging
import os
import resource
from collections.abc import AsyncIterator
from pathlib import Path
from typing import Any
from unittest import mock
from urllib.parse import urlsplit

import pytest

from roman_client import DeviceFailed
from roman_client.store import Store
from roman_live import events, fleet, limits, moves, pictures, recovery, requests
from roman_live.config import Broker, HomeFile
from roman_live.devices import Answer
from roman_live.errors import NoSpace, TooManyRequests
from roman_live.home import Home
from roman_live.http_api import Server
from roman_live.log import OnceAMinute
from roman_live.mqtt_api import Connection
from roman_live.mqtt_requests import MqttRequests
from roman_live.pictures import Picture

from . import sample
from .machinery import PATIENCE, Live
from .played import START, Played, Playhouse

EMPTY_PAGE = "[page]\nport = 0\n"


class Client:
    """A connection to a page."""

    def __init__(self, reader: asyncio.StreamReader, writer: asyncio.StreamWriter) -> None:
        self.reader = reader
        self.writer = writer

    @classmethod
    async def connect(cls, server: Server) -> Client:
        """A new connection."""
        return cls(*await asyncio.open_connection("127.0.0.1", urlsplit(server.url).port))

    def send(self, text: str) -> None:
        """Sends a text, which may be a part of a request."""
        self.writer.write(text.encode())

    async def get(self, path: str, method: str = "GET", head: str = "") -> tuple[int, str]:
        """The status and the body of an answer."""
        self.send(f"{method} {path} HTTP/1.1\r\nHost: localhost\r\n{head}\r\n")
        status, head = await self.head()
        length = int(head.partition("Content-Length: ")[2].partition("\r\n")[0] or 0)
        return status, "" if method == "HEAD" else (await self.reader.readexactly(length)).decode()

    async def head(self) -> tuple[int, str]:
        """The status and the head of an answer."""
        head = (await self.reader.readuntil(b"\r\n\r\n")).decode()
        return int(head.split()[1]), head

    async def ended(self) -> None:
        """Waits until the server has closed it."""
        with contextlib.suppress(ConnectionError):
            while await self.reader.read(65_536):
                pass


class Served:
    """A home of simulated devices, with its page."""

    def __init__(self, playhouse: Playhouse, home: Home, server: Server) -> None:
        self.devices = playhouse.devices
        self.home = home
        self.server = server

    @classmethod
    @contextlib.asynccontextmanager
    async def begin(cls, folder: Path, more: str = "") -> AsyncIterator[Served]:
        """Runs a home with these tables in its file."""
        playhouse = Playhouse(folder, EMPTY_PAGE + more)
        async with playhouse.home() as home:
            server = Server(home, HomeFile.read(playhouse.file).page)
            await server.begin()
            try:
                yield cls(playhouse, home, server)
            finally:
                await server.close()

    async def client(self) -> Client:
        """A connection to the page."""
        return await Client.connect(self.server)


async def test_silent_connections_make_room(tmp_path: Path) -> None:
    async with Served.begin(tmp_path, "[limits]\nconnections = 8\n") as served:
        used = await served.client()
        assert (await used.get("/state"))[0] == 200
        silent = [await served.client() for _ in range(20)]
        for each in silent[:12]:
            await each.ended()
        # Neither a connection that has made a request nor a new one is refused.
        assert (await used.get("/state"))[0] == 200
        assert (await (await served.client()).get("/state"))[0] == 200


async def test_connections_that_wait_for_an_answer_stay(tmp_path: Path) -> None:
    async with Served.begin(tmp_path, "[limits]\nconnections = 8\n") as served:
        window = served.devices["window"]
        window.gate.clear()
        clients = [await served.client() for _ in range(8)]
        body = json.dumps({"action": "brighten", "key": "k"})
        head = "Host: localhost\r\nContent-Type: application/json\r\nContent-Length"
        for each in clients:
            each.send(f"POST /requests HTTP/1.1\r\n{head}: {len(body)}\r\n\r\n{body}")
        while served.home.requests.open < len(clients):
            await asyncio.sleep(0)
        await (await served.client()).ended()
        window.gate.set()
        assert [(await each.head())[0] for each in clients] == [200] * 8


@pytest.mark.parametrize(
    "part",
    [
        "",
        "GET /state HTT",
        "GET /state HTTP/1.1\r\nHost: localhost\r\nX: ",
        "POST /requests HTTP/1.1\r\nHost: localhost\r\nContent-Type: application/json\r\nContent-Length: 9\r\n\r\n{",
    ],
)
async def test_a_part_of_a_request_is_not_waited_for(tmp_path: Path, part: str) -> None:
    async with Served.begin(tmp_path, "[limits]\nsilence = 0.05\n") as served:
        client = await served.client()
        client.send(part)
        await client.ended()


async def test_a_head_without_end(tmp_path: Path) -> None:
    async with Served.begin(tmp_path) as served:
        client = await served.client()
        client.send("GET /state HTTP/1.1\r\n")
        with contextlib.suppress(ConnectionError):
            while not client.reader.at_eof():
                client.send("X: y\r\n" * 1000)
                await client.writer.drain()
        await client.ended()


async def test_too_many_requests_wait(tmp_path: Path) -> None:
    async with Served.begin(tmp_path, "[limits]\nwaiting = 2\n") as served:
        window = served.devices["window"]
        window.gate.clear()
        open_ones = [asyncio.ensure_future(served.home.requests.serve("brighten", "k")) for _ in range(2)]
        await window.asked.wait()
        with pytest.raises(TooManyRequests, match="2 requests wait already"):
            await served.home.requests.serve("brighten", "k")
        window.gate.set()
        assert [(await each)["served_by"] for each in open_ones] == ["window"] * 2


DEVICE = """#!/bin/sh
case $2 in brighten) echo open > $1;; boil) echo hot > $1;; esac
cat $1
"""


def test_want_of_files_is_no_failure_of_a_device(tmp_path: Path) -> None:
    command = tmp_path / "device"
    command.write_text(DEVICE, encoding="ascii")
    command.chmod(0o755)
    for name, state in START.items():
        (tmp_path / name).write_text(f"{state}\n", encoding="ascii")
    tables = (f'[devices.{name}]\nreach = "command"\ncommand = ["./device", "{name}"]\n' for name in START)
    live = Live(tmp_path, f'document = "{sample("home.json")}"\n' + "".join(tables))
    live.start()
    try:
        page = http.client.HTTPConnection("127.0.0.1", live.port, timeout=PATIENCE)

        def ask(action: str) -> tuple[int, Any]:
            page.request("POST", "/requests", json.dumps({"action": action}), {"Content-Type": "application/json"})
            answer = page.getresponse()
            return answer.status, json.loads(answer.read())

        assert ask("brighten")[0] == 200
        used = max(int(each) for each in os.listdir(f"/proc/{live.process.pid}/fd"))
        limits = resource.prlimit(live.process.pid, resource.RLIMIT_NOFILE)
        resource.prlimit(live.process.pid, resource.RLIMIT_NOFILE, (used + 2, limits[1]))
        assert ask("boil") == (503, {"error": "Too many open files"})
        resource.prlimit(live.process.pid, resource.RLIMIT_NOFILE, limits)
        assert {each["status"] for each in live.state()["services"]} == {"ready"}
        assert ask("boil")[0] == 200
    finally:
        live.kill()


async def test_a_device_is_asked_when_there_are_files_again(tmp_path: Path) -> None:
    async with Served.begin(tmp_path) as served:
        ask, wants = Played.ask, [NoSpace("too many open files")] * 2

        async def short(device: Played, *words: Any) -> Any:
            if wants:
                raise wants.pop()
            return await ask(device, *words)

        with mock.patch.object(Played, "ask", short), mock.patch.object(fleet, "NO_FILES_PAUSE", 0):
            assert (await served.home.requests.serve("brighten"))["served_by"] == "window"
        assert len(served.devices["window"].calls) == 1


async def listen(served: Served) -> Client:
    """A listener that has heard the state."""
    client = await served.client()
    client.send("GET /events HTTP/1.1\r\nHost: localhost\r\n\r\n")
    assert (await client.head())[0] == 200
    await client.reader.readuntil(b"event: state\n")
    return client


async def test_an_event_is_written_once_for_all_listeners(tmp_path: Path) -> None:
    async with Served.begin(tmp_path) as served:
        listeners = [await listen(served) for _ in range(5)]
        with mock.patch("json.dumps", wraps=json.dumps) as dumps:
            await served.home.requests.serve("brighten")
            for each in listeners:
                await each.reader.readuntil(b'"kind": "served"')
        told = [call.args[0] for call in dumps.call_args_list]
        assert len([each for each in told if isinstance(each, dict) and each.get("kind") == "served"]) == 1


async def test_too_many_listeners(tmp_path: Path) -> None:
    async with Served.begin(tmp_path, "[limits]\nlisteners = 2\n") as served:
        first, _ = await listen(served), await listen(served)
        status, body = await (await served.client()).get("/events")
        assert (status, json.loads(body)) == (503, {"error": "2 listen already"})
        assert (await (await served.client()).get("/state"))[0] == 200
        first.writer.close()
        while served.home.events.listeners > 1:
            served.home.events.add("begun", "something happens")
            await asyncio.sleep(0.01)
        await listen(served)


async def test_a_listener_that_does_not_read_is_let_go(tmp_path: Path) -> None:
    async with Served.begin(tmp_path, "[limits]\nunread = 0.05\n") as served:
        client = await listen(served)
        client.writer.transport.pause_reading()  # type: ignore[attr-defined]
        while served.home.events.listeners:
            served.home.events.add("begun", "begun", more="x" * 100_000)
            await asyncio.sleep(0.01)
        client.writer.transport.resume_reading()  # type: ignore[attr-defined]
        await client.ended()


async def test_what_a_listener_does_not_read_takes_little_memory(tmp_path: Path) -> None:
    async with Served.begin(tmp_path, "[limits]\nunread = 3600\n") as served:
        client = await listen(served)
        client.writer.transport.pause_reading()  # type: ignore[attr-defined]
        assert served.server._gate is not None
        (connection,) = served.server._gate._open.values()
        assert connection._transport is not None
        unread = 0
        with mock.patch.multiple(events, BETWEEN_WRITES=0.0, EACH_LISTENER=0.0):
            for _ in range(900):
                served.home.events.add("begun", "begun", more="x" * 10_000)
                for _ in range(5):
                    await asyncio.sleep(0)
                unread = max(unread, connection._transport.get_write_buffer_size())
        assert 0 < unread < events.MOST_UNREAD + 20_000
        client.writer.transport.abort()


async def test_of_states_a_listener_is_sent_the_newest() -> None:
    log = events.EventLog()
    log.show(0)
    listener = log.listen()
    log.show(1)
    log.add("begun", "first")
    log.show(2)
    assert [each.value if each.name == "state" else each.value["text"] for each in await listener.heard(1.0)] == [
        "first",
        2,
    ]
    assert await listener.heard(0.0) == []


async def test_a_listener_that_is_behind_is_sent_the_newest_events() -> None:
    log = events.EventLog()
    listener = log.listen()
    for number in range(events.KEPT + 100):
        log.add("begun", f"event {number}")
    sent: list[int] = []
    while messages := listener.take():
        assert sum(len(each.encoded) for each in messages) < events.MOST_UNREAD + 1000
        sent += [each.value["id"] for each in messages]
    assert sent == [*range(101, events.KEPT + 101)]
    log.add("begun", "one more")
    assert [each.value["text"] for each in listener.take()] == ["one more"]


async def test_many_listeners_are_written_to_less_often() -> None:
    log = events.EventLog()
    listeners = [log.listen() for _ in range(2000)]
    with mock.patch.object(asyncio, "sleep") as slept:
        for left in (2000, 200, 1):
            while log.listeners > left:
                log.leave(listeners.pop())
            await listeners[0].pause()
    assert [each.args for each in slept.await_args_list] == [(events.LONGEST_PAUSE,), (0.8,), (events.BETWEEN_WRITES,)]


async def test_the_head_of_events_ends(tmp_path: Path) -> None:
    async with Served.begin(tmp_path) as served:
        client = await served.client()
        for _ in range(2):
            assert (await client.get("/events", "HEAD"))[0] == 200


async def test_listeners_are_told_the_end(tmp_path: Path) -> None:
    async with Served.begin(tmp_path) as served:
        client = await listen(served)
    await client.ended()


@pytest.mark.parametrize("status", [0, 1])
async def test_a_document_is_drawn_once(tmp_path: Path, status: int) -> None:
    tool = tmp_path / "draw"
    tool.write_text(f"#!/bin/sh\necho begun >> runs\necho '<svg/>'\nexit {status}\n", encoding="ascii")
    tool.chmod(0o755)
    document = tmp_path / "home.json"
    document.touch()

    picture = Picture(document)
    with mock.patch.object(pictures, "_tool", lambda: (str(tool),)):
        drawn = await asyncio.gather(*(picture.get() for _ in range(20)))
        assert set(drawn) == {None if status else b"<svg/>\n"}
        assert len((tmp_path / "runs").read_text(encoding="ascii").splitlines()) == 1
        os.utime(document, (1, 1))
        await picture.get()
        assert len((tmp_path / "runs").read_text(encoding="ascii").splitlines()) == 2


async def test_a_drawing_that_is_given_up_leaves_nothing_running(tmp_path: Path) -> None:
    """This includes the processes that the drawing has started."""
    document, child = tmp_path / "home.json", tmp_path / "child"
    document.touch()
    tool = ("sh", "-c", f"sleep 1000 & echo $! > {child}; wait")
    with mock.patch.object(pictures, "_tool", lambda: tool), mock.patch.object(pictures, "LONGEST_DRAWING", 1.0):
        assert await Picture(document).get() is None
    with contextlib.suppress(FileNotFoundError, ProcessLookupError, ValueError):  # It has ended, or it never began.
        stat = Path(f"/proc/{int(child.read_text(encoding='ascii'))}/stat")
        async with asyncio.timeout(PATIENCE):
            while stat.read_text(encoding="ascii").split()[2] != "Z":
                await asyncio.sleep(0.01)


def changes(home: Home) -> list[str]:
    """The events of changes."""
    return [each.text for each in home.events.after(0) if each.kind == "changed"]


async def test_of_many_moves_the_newest_counts(tmp_path: Path) -> None:
    async with Served.begin(tmp_path) as served:
        home = served.home
        for number in range(1000):
            home.fleet.environment_moved("day" if number % 2 else "dusk")
            home.fleet.moved("window", Answer("ajar" if number % 2 else "open"))
        while home.fleet.moves.is_open:
            await asyncio.sleep(0)
        assert (home.registry.environment, home.registry["window"].state) == ("day", "ajar")
        assert changes(home) == [
            "the environment is dusk now",
            "jump window open",
            "the environment is day now",
            "jump window ajar",
        ]


async def test_a_request_gets_its_turn_though_sensors_never_stop(tmp_path: Path) -> None:
    async with Served.begin(tmp_path) as served:
        home, ask = served.home, Played.ask

        async def act(device: Played, *words: Any) -> Answer:
            return Answer((await ask(device, *words)).state)

        async def report() -> None:
            for number in itertools.count():
                home.fleet.environment_moved(("day", "dusk")[number % 2])
                home.fleet.moved("window", Answer(("ajar", "shut")[number // 2 % 2]))
                await asyncio.sleep(0)

        with mock.patch.object(moves, "PAUSE", 0.0), mock.patch.object(Played, "ask", act):
            reporting = asyncio.ensure_future(report())
            assert (await home.requests.serve("brighten"))["action"] == "brighten"
            reporting.cancel()


async def test_requests_go_on_though_the_environment_moves_before_each(tmp_path: Path) -> None:
    """A move and a request that need no turn of the loop don't wait for each other."""
    async with Served.begin(tmp_path) as served:
        home = served.home
        with mock.patch.object(Store, "pace", 0.0):
            for action in ("brighten", "boil", "pour", "dim") * 10:
                home.fleet.environment_moved("dusk")
                home.fleet.environment_moved("day")
                assert (await home.requests.serve(action))["action"] == action


def test_of_messages_in_a_row_the_newest_is_heard() -> None:
    heard: list[bytes] = []
    connection = Connection(Broker(), lambda connected, text: None)
    connection.subscribe("day", lambda payload, retained: heard.append(payload), newest=True)
    connection.subscribe("lamp", lambda payload, retained: heard.append(payload))
    for topic, payload in (("day", b"1"), ("day", b"2"), ("lamp", b"3"), ("lamp", b"4"), ("day", b"5"), ("day", b"6")):
        connection._on_message(None, None, mock.Mock(topic=topic, payload=payload))
    assert heard == [b"2", b"3", b"4"]
    connection._deliver()
    assert heard[3:] == [b"6"]


async def test_what_waits_is_older_than_an_answer(tmp_path: Path) -> None:
    """A request that has waited for moves often enough is served. Earlier reports of its device no longer count."""
    async with Served.begin(tmp_path) as served:
        home = served.home
        policy, choices = home.chooser.policy, []

        async def choose(choice: Any) -> str:
            choices.append(choice)
            home.fleet.moved("window", Answer(("shut", "ajar")[len(choices) % 2]))
            return await policy(choice)

        home.chooser.policy = choose
        with mock.patch.object(moves, "PAUSE", 0.0):
            assert (await home.requests.serve("brighten"))["state"] == "open"
        assert len(choices) == requests.MOVES + 1
        while home.fleet.moves.is_open:
            await asyncio.sleep(0)
        assert home.registry["window"].state == "open"


async def test_a_move_right_after_an_answer_counts(tmp_path: Path) -> None:
    """The registry then still has the states before the answer, which the device has again."""
    async with Served.begin(tmp_path) as served:
        home = served.home

        async def act(device: Played, *words: Any) -> Answer:
            device.listener.answered(device.service)
            device.listener.moved(device.service, Answer("empty", "day"))
            return Answer("hot", "dusk")

        await home.requests.serve("brighten")
        with mock.patch.object(Played, "ask", act):
            done = await home.requests.serve("boil")
        assert (done["state"], done["environment"]) == ("hot", "dusk")
        while home.fleet.moves.is_open:
            await asyncio.sleep(0)
        assert (home.registry["kettle"].state, home.registry.environment) == ("empty", "day")


async def test_a_frozen_device_that_reports_without_end(tmp_path: Path) -> None:
    async with Served.begin(tmp_path) as served:
        home, window = served.home, served.devices["window"]
        window.error = DeviceFailed("broken")
        assert (await home.requests.serve("brighten"))["served_by"] == "ceiling"
        no_retry = mock.patch.object(recovery, "FIRST_PAUSE", 3600.0)
        with no_retry, mock.patch.object(home.fleet, "back", wraps=home.fleet.back) as back:
            for _ in range(1000):
                home.fleet.moved("window", Answer("nowhere"))
            home.fleet.moved("window", Answer("ajar"))
            while home.registry["window"].frozen:
                await asyncio.sleep(0)
        assert home.registry["window"].state == "ajar"
        assert back.call_count == 2


async def test_too_many_requests_over_mqtt(tmp_path: Path) -> None:
    async with Served.begin(tmp_path, "[limits]\nmessages = 5\n") as served:
        published: asyncio.Queue[Any] = asyncio.Queue()
        served.home.fleet.broker = Fake(published)  # type: ignore[assignment]
        heard: dict[str, Any] = {}
        with mock.patch("time.monotonic", lambda: 0.0):
            intake = MqttRequests(served.home)
        with mock.patch.object(
            Fake, "subscribe", lambda fake, topic, listener, **words: heard.update({topic: listener})
        ):
            await intake.begin()
        with mock.patch("time.monotonic", lambda: 0.0):
            for number in range(100):
                heard["requests"](json.dumps({"id": number, "action": "sing"}).encode(), False)
        assert [(await published.get())["id"] for _ in range(5)] == list(range(5))
        assert published.empty()
        texts = [each.text for each in served.home.events.after(0) if each.kind == "wrong"]
        assert texts == ["requests over MQTT are ignored: too many come"] * len(texts)
        assert len(texts) == 20
        served.home.fleet.broker = None


async def test_a_request_that_is_held_back_can_be_cancelled(tmp_path: Path) -> None:
    """One request waits for room, and another one waits for its turn behind it."""
    async with Served.begin(tmp_path, "[limits]\nwaiting = 1\n") as served:
        published: asyncio.Queue[Any] = asyncio.Queue()
        acknowledged: list[str] = []
        served.home.fleet.broker = Fake(published)  # type: ignore[assignment]
        intake, window = MqttRequests(served.home), served.devices["window"]

        def hear(comes_again: bool, **value: Any) -> None:
            intake._hear(json.dumps(value).encode(), comes_again, lambda: acknowledged.append(value["key"]))

        window.gate.clear()
        first = asyncio.ensure_future(served.home.requests.serve("brighten"))
        await window.asked.wait()
        for key in ("a", "b", "c"):
            hear(True, id=key, action="boil", key=key)
        await asyncio.sleep(0)
        hear(False, cancel="b", key="")
        hear(False, cancel="a", key="")
        assert [await published.get() for _ in "ab"] == [
            {"id": key, "status": 409, "error": "cancelled", "text": "boil was cancelled before a device was asked"}
            for key in ("b", "a")
        ]
        assert acknowledged == ["", "", "b", "a"]
        window.gate.set()
        assert (await first)["served_by"] == "window"
        answer = await published.get()
        assert (answer["id"], answer["status"], len(served.devices["kettle"].calls)) == ("c", 200, 1)
        served.home.fleet.broker = None


class Fake:
    """A broker that records the published messages."""

    connected = True
    state_topic = "state"

    def __init__(self, published: asyncio.Queue[Any]) -> None:
        self.published = published

    def topic(self, name: str) -> str:
        """A topic."""
        return name

    def subscribe(self, topic: str, listener: Any, *, newest: bool = False) -> None:
        """Ignores it."""

    def publish_now(self, topic: str, value: Any, retain: bool = False) -> bool:
        """Ignores it."""
        return True

    def publish(self, topic: str, value: Any) -> None:
        """Records it."""
        self.published.put_nowait(value)

    async def agreed(self) -> None:
        """Returns at once."""


def test_a_bucket_is_filled_again() -> None:
    time = [0.0]
    bucket = limits.Bucket(3, 0.5, lambda: time[0])
    assert [bucket.take() for _ in range(5)] == [True] * 3 + [False] * 2
    time[0] = 2.0
    assert [bucket.take() for _ in range(2)] == [True, False]
    time[0] = 100.0
    assert [bucket.take() for _ in range(5)] == [True] * 3 + [False] * 2


def test_a_message_that_is_too_long(caplog: pytest.LogCaptureFixture) -> None:
    heard = []
    connection = Connection(Broker(), lambda connected, text: None)
    connection.subscribe("lamp", lambda payload, retained: heard.append(payload))
    for length in (65_536, 65_537):
        connection._on_message(None, None, mock.Mock(topic="lamp", payload=b" " * length))
    assert [len(each) for each in heard] == [65_536]
    assert "a message on lamp is ignored" in caplog.text


def test_a_repeated_warning_is_one_line_a_minute() -> None:
    time = [0.0]
    seldom = OnceAMinute(lambda: time[0])

    def passes(text: str, level: int = logging.WARNING) -> str | None:
        record = logging.LogRecord("live", level, "", 0, "%s", (text,), None)
        return record.getMessage() if seldom.filter(record) else None

    assert [passes("no files") for _ in range(3)] == ["no files", None, None]
    assert passes("no disk") == "no disk"
    assert [passes("served", logging.INFO) for _ in range(2)] == ["served"] * 2
    time[0] = 61.0
    assert passes("no files") == "no files (2 times more in a minute)"
    assert passes("no disk") == "no disk"
    lines = [passes(str(number)) for number in range(1000)]
    assert len(lines) - lines.count(None) == 598
