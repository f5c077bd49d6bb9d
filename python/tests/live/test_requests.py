"""Requests that wait, their keys, and late devices, in a home in this process."""

from __future__ import annotations

import asyncio
import json
import socket
import threading
from collections.abc import Coroutine
from http import HTTPStatus
from http.server import BaseHTTPRequestHandler, HTTPServer
from pathlib import Path
from typing import Any

import pytest

import roman_client
from roman_client import DeviceFailed, DeviceLost, Frozen
from roman_client.store import open_read_only
from roman_live.config import HomeFile, HttpReach, PythonReach
from roman_live.devices import Answer
from roman_live.devices.http import Http
from roman_live.devices.python import PythonDevice
from roman_live.errors import Cancelled, Expired
from roman_live.home import Home
from roman_live.http_api import result

from .machinery import PATIENCE
from .played import START, Playhouse, until
from .test_commands import Heard


def run(work: Coroutine[Any, Any, None]) -> None:
    """Runs a test in an event loop of its own."""

    async def in_time() -> None:
        async with asyncio.timeout(PATIENCE):
            await work

    asyncio.run(in_time())


def test_a_request_that_waits_expires(tmp_path: Path) -> None:
    async def test() -> None:
        playhouse = Playhouse(tmp_path)
        async with playhouse.home() as home:
            window = playhouse.devices["window"]
            window.gate.clear()
            first = asyncio.ensure_future(home.requests.serve("brighten", expires=0.0))
            await window.asked.wait()
            with pytest.raises(Expired, match="boil waited 0.01 seconds"):
                await home.requests.serve("boil", "k", expires=0.01)
            assert (await result(home, "boil", "k", True, expires=0.01))[0] == HTTPStatus.REQUEST_TIMEOUT
            window.gate.set()
            # A request whose turn has come no longer expires.
            assert (await first)["served_by"] == "window"
            assert playhouse.devices["kettle"].calls == []
            assert (await home.requests.serve("boil", "k"))["served_by"] == "kettle"

    run(test())


def test_a_request_that_waits_can_be_cancelled(tmp_path: Path) -> None:
    async def test() -> None:
        playhouse = Playhouse(tmp_path)
        async with playhouse.home() as home:
            window = playhouse.devices["window"]
            window.gate.clear()
            first = asyncio.ensure_future(home.requests.serve("brighten", "first"))
            await window.asked.wait()
            waiting = [asyncio.ensure_future(home.requests.serve("boil", key)) for key in ("a", "b", "a")]
            await until(lambda: len(home.requests._waiting) == 3)
            assert home.requests.cancel("none") == 0
            assert home.requests.cancel("first") == 0  # Its device is at work.
            assert home.requests.cancel("a") == 2
            for each in (waiting[0], waiting[2]):
                with pytest.raises(Cancelled, match="before a device was asked"):
                    await each
            window.gate.set()
            assert [(await each)["served_by"] for each in (first, waiting[1])] == ["window", "kettle"]
            assert (home.requests.open, len(playhouse.devices["kettle"].calls)) == (0, 1)

    run(test())


def test_one_that_comes_between_two_turns_can_be_cancelled(tmp_path: Path) -> None:
    """The turn is given to the waiting request, which hasn't taken it yet."""

    async def test() -> None:
        playhouse = Playhouse(tmp_path)
        async with playhouse.home() as home:
            turn = home.requests._turn
            await turn.acquire()
            first = asyncio.ensure_future(home.requests.serve("brighten"))
            await until(lambda: len(home.requests._waiting) == 1)
            window = playhouse.devices["window"]
            window.gate.clear()
            second = asyncio.ensure_future(home.requests._in_turn("boil", "k", PATIENCE, None))
            turn.release()
            await window.asked.wait()
            assert home.requests.cancel("k") == 1
            with pytest.raises(Cancelled):
                await second
            window.gate.set()
            assert (await first)["served_by"] == "window"

    run(test())


def test_one_that_has_not_begun_ends_with_the_home(tmp_path: Path) -> None:
    async def test() -> None:
        async with Playhouse(tmp_path).home() as home:
            asking = asyncio.ensure_future(home.requests.serve("brighten"))
            await asyncio.sleep(0)
            await home.requests.background.close()
            with pytest.raises(asyncio.CancelledError):
                await asking

    run(test())


def test_what_is_wrong_with_a_key(tmp_path: Path) -> None:
    async def test() -> None:
        playhouse = Playhouse(tmp_path)
        async with playhouse.home() as home:
            assert (await result(home, "brighten", "k" * 257, True))[0] == HTTPStatus.BAD_REQUEST
            assert (await result(home, "brighten", "k", True))[0] == HTTPStatus.OK
            status, value = await result(home, "boil", "k", True)
            assert (status, value["error"]) == (HTTPStatus.CONFLICT, "key taken")
            assert playhouse.devices["kettle"].calls == []

    run(test())


@pytest.mark.parametrize("told", [Answer("open", "day", True), Answer("shut", "day", False)])
def test_a_late_device_is_asked_before_another_one(tmp_path: Path, told: Answer) -> None:
    """If the device has done it, the request is served. If it hasn't, another device is asked."""

    async def test() -> None:
        playhouse = Playhouse(tmp_path, device='late = "doubt"')
        async with playhouse.home() as home:
            window = playhouse.devices["window"]
            window.error, window.told = DeviceLost("gone"), lambda: told
            done = await home.requests.serve("brighten")
            assert done["served_by"] == ("window" if told.done else "ceiling")
            assert len(playhouse.devices["ceiling"].calls) == (not told.done)

    run(test())


def test_a_late_device_that_does_not_tell_is_in_doubt(tmp_path: Path) -> None:
    async def test() -> None:
        playhouse = Playhouse(tmp_path, device='late = "doubt"\nseconds = 0.2')
        async with playhouse.home() as home:
            window = playhouse.devices["window"]
            window.gate.clear()
            window.told = lambda: None
            status, value = await result(home, "brighten", "k", True)
            assert (status, value["error"]) == (HTTPStatus.CONFLICT, "in doubt")
            assert playhouse.devices["ceiling"].calls == []
            assert home.dispatcher.core.position.places["window"].frozen is Frozen.IN_DOUBT

    run(test())


def test_a_device_that_failed_hands_the_request_on(tmp_path: Path) -> None:
    """Without the key `late`, and for an error that the device reported, no request is in doubt."""

    async def test() -> None:
        for name, device, error in (("a", "", DeviceLost("gone")), ("b", 'late = "doubt"', DeviceFailed("stuck"))):
            (tmp_path / name).mkdir()
            playhouse = Playhouse(tmp_path / name, device=device)
            async with playhouse.home() as home:
                playhouse.devices["window"].error = error
                assert (await home.requests.serve("brighten"))["served_by"] == "ceiling"

    run(test())


@pytest.mark.parametrize(
    "reach", ['"http"\nurl = "http://x"', '"command"\ncommand = ["true"]', '"python"\ncall = "os:getcwd"']
)
def test_moves_by_hand_are_noticed(tmp_path: Path, reach: str) -> None:
    async def test() -> None:
        playhouse = Playhouse(tmp_path, device="poll = 0.02")
        text = playhouse.file.read_text(encoding="utf-8")
        playhouse.file.write_text(text.replace('"http"\nurl = "http://x"', reach), encoding="utf-8")
        async with playhouse.home() as home:
            for state in ("ajar", "open", "shut"):
                playhouse.devices["window"].state = state
                await until(lambda: home.registry["window"].state == state)
            with open_read_only(tmp_path / "home.db") as database:
                changes = database.execute("SELECT words, source FROM changes").fetchall()
            assert changes.count(("jump window shut", "the device")) == 1

    run(test())


def test_nothing_is_asked_again_and_again_unless_the_home_file_says_so(tmp_path: Path) -> None:
    async def test() -> None:
        playhouse = Playhouse(tmp_path)
        async with playhouse.home() as home:
            playhouse.devices["window"].state = "ajar"
            await asyncio.sleep(0.1)
            assert home.registry["window"].state == "shut"

    run(test())


def test_who_asked_and_why_this_service(tmp_path: Path) -> None:
    async def test() -> None:
        playhouse = Playhouse(tmp_path)
        async with playhouse.home() as home:
            await home.requests.serve("brighten", source="http 192.168.1.7")
            await home.fleet.freeze("window", "the cleaner")
        with open_read_only(tmp_path / "home.db") as database:
            calls = database.execute("SELECT service, source, reason, result FROM calls").fetchall()
            changes = database.execute("SELECT words, cause, source FROM changes").fetchall()
        assert calls == [("window", "http 192.168.1.7", "first, of window, ceiling", "served")]
        assert changes == [("freeze window", "by hand", "the cleaner")]

    run(test())


def test_a_service_frozen_by_hand_is_not_asked_back_after_a_start(tmp_path: Path) -> None:
    """This also holds if it had failed before. A service that only failed is asked, and is back."""

    async def test() -> None:
        playhouse = Playhouse(tmp_path)
        async with playhouse.home() as home:
            playhouse.devices["window"].error = playhouse.devices["ceiling"].error = DeviceFailed("stuck")
            assert (await result(home, "brighten", None, True))[0] == HTTPStatus.CONFLICT
            await home.fleet.freeze("ceiling")
        async with playhouse.home() as home:
            await until(lambda: not home.registry["window"].frozen)
            assert home.registry["ceiling"].frozen
            assert home.fleet.held() == {"ceiling"}

    run(test())


def test_no_lock_is_kept_for_an_unknown_service(tmp_path: Path) -> None:
    async def test() -> None:
        playhouse = Playhouse(tmp_path)
        async with playhouse.home() as home:
            for number in range(50):
                with pytest.raises(Exception, match="error name"):
                    await home.fleet.freeze(f"ghost{number}")
            assert len(home.fleet._turns) == 0

    run(test())


def test_each_run_has_a_mark_of_its_own(tmp_path: Path) -> None:
    """So a listener of an earlier run is sent all events, whatever the clock shows."""

    async def test() -> None:
        playhouse = Playhouse(tmp_path)
        marks = []
        for _ in range(2):
            async with playhouse.home() as home:
                marks.append(home.events.message(home.events.after(0)[-1]).mark or "")
                assert home.events.listen(marks[-1]).take() == []
                told = [each.value["id"] for each in home.events.listen(marks[0]).take() if each.name == "event"]
                assert told == ([] if len(marks) == 1 else [1])
        assert marks[0] != marks[1]

    run(test())


MODULE = """
import roman_client

class Lamp(roman_client.Device):
    timeout = 60
    late_is_doubt = True
    told = roman_client.NOT_DONE

    def serve(self, call):
        return call.action, "e"

    def state(self, call):
        return self.told

lamp = Lamp()
"""


@pytest.mark.parametrize(
    ("told", "answer"),
    [
        (roman_client.NOT_DONE, Answer("", None, False)),
        (roman_client.Did(("on", "day")), Answer("on", "day", True)),
        (("on", "day"), Answer("on", "day")),
        (None, None),
    ],
)
def test_what_a_device_of_the_client_says_counts(tmp_path: Path, told: Any, answer: Answer | None) -> None:
    """This holds for its deadline, the meaning of a late call, and its answer about a call."""
    module = f"things_{abs(hash(str(tmp_path)))}"
    (tmp_path / f"{module}.py").write_text(MODULE, encoding="utf-8")

    async def test() -> None:
        device = PythonDevice("lamp", Heard(), PythonReach(module, "lamp", tmp_path))
        assert (device.timeout, device.late_is_doubt, device.repeatable) == (60, True, False)
        device._device.told = told
        assert await device.tell(7, roman_client.Call("lamp", "on", "on", 7)) == answer
        assert await device.tell(None) is None

    run(test())


def test_the_home_file_has_the_last_word_on_a_deadline(tmp_path: Path) -> None:
    playhouse = Playhouse(tmp_path)
    (tmp_path / "mine.py").write_text(MODULE, encoding="utf-8")
    head = playhouse.file.read_text(encoding="utf-8").partition("[devices.window]")[0]
    for more, seconds in (("", 60), ("seconds = 5", 5)):
        tables = (f'[devices.{name}]\nreach = "python"\ncall = "mine:lamp"\n{more}\n' for name in START)
        playhouse.file.write_text(head + "".join(tables), encoding="utf-8")

        async def test(seconds: int = seconds) -> None:
            home = await Home.start(HomeFile.read(playhouse.file))
            window = home.fleet.devices["window"]
            await home.close()
            assert (window.timeout, window.late_is_doubt) == (seconds, True)

        run(test())


class Statuses(BaseHTTPRequestHandler):
    """A lamp that answers with the status in its path, or breaks the connection."""

    def do_POST(self) -> None:
        self.rfile.read(int(self.headers["Content-Length"]))
        status = int(self.path[1:])
        if not status:
            self.connection.shutdown(socket.SHUT_RDWR)
            return
        data = json.dumps({"state": "on"}).encode()
        self.send_response(status)
        self.send_header("Content-Length", str(len(data)))
        self.end_headers()
        self.wfile.write(data)

    def log_message(self, *words: Any) -> None:
        pass


@pytest.mark.parametrize("status", [200, 201, 202, 299, 300, 404, 500, 0])
def test_the_status_of_an_http_device(status: int) -> None:
    """Each status from 200 to 299 is an answer. If the connection breaks, the result is unknown."""
    server = HTTPServer(("127.0.0.1", 0), Statuses)
    threading.Thread(target=server.serve_forever, daemon=True).start()

    async def test() -> None:
        device = Http("lamp", Heard(), HttpReach(f"http://127.0.0.1:{server.server_address[1]}/{status}"))
        await device.open()
        call = roman_client.Call("lamp", "on", "on", 1)
        try:
            if 200 <= status < 300:
                assert await device.ask(1, call) == Answer("on")
                return
            with pytest.raises(DeviceFailed) as failure:
                await device.ask(1, call)
            assert isinstance(failure.value, DeviceLost) == (status == 0)
        finally:
            await device.close()

    try:
        run(test())
    finally:
        server.shutdown()
        server.server_close()
