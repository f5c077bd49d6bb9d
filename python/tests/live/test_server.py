"""The HTTP API: access, refusals, events, figures, and a full disk."""

import contextlib
import http.client
import json
import re
import resource
import signal
import socket
import subprocess
import threading
import time
import urllib.request
from collections.abc import Iterator
from contextlib import AsyncExitStack
from email.utils import parsedate_to_datetime
from http.server import BaseHTTPRequestHandler, HTTPServer
from pathlib import Path
from typing import Any

import pytest

from . import ROMAN_LIVE, sample
from .machinery import OPENER, PATIENCE, Live, call, until
from .test_config import TOKEN

WORLD = """
import os
states = {"window": "shut", "ceiling": "off", "kettle": "empty"}
after = {("window", "brighten"): "open", ("window", "dim"): "shut", ("ceiling", "brighten"): "on",
         ("ceiling", "dim"): "off", ("kettle", "boil"): "hot", ("kettle", "pour"): "empty"}

class Thing:
    def __init__(self, name):
        self.name = name
    def __call__(self, action):
        states[self.name] = after[self.name, action]
        return states[self.name], "day"
    def present(self):
        return states[self.name]

window, ceiling, kettle, spare = map(Thing, ("window", "ceiling", "kettle", "spare"))
states["spare"] = "off"
after["spare", "brighten"] = "on"
after["spare", "dim"] = "off"
"""

DEVICES = "".join(
    f'[devices.{name}]\nreach = "python"\ncall = "things:{name}"\n' for name in ("window", "ceiling", "kettle", "spare")
)


class Stranger(BaseHTTPRequestHandler):
    """A server that isn't a home."""

    def log_message(self, *words: Any) -> None:
        pass


class Served:
    """A home with devices in Python."""

    page = ""
    words: list[str] = []
    journal = ""

    def __init__(self, folder: Path, at_end: AsyncExitStack) -> None:
        self.folder = folder
        self.at_end = at_end
        (self.folder / "things.py").write_text(WORLD, encoding="utf-8")
        (self.folder / "token").write_text(f"{TOKEN}\n", encoding="utf-8")
        (self.folder / "token").chmod(0o600)
        home = f'document = "{sample("home.json")}"\n{self.journal}{DEVICES}'
        self.live = Live(self.folder, home, *self.words)
        with self.live.file.open("a", encoding="utf-8") as file:
            file.write(self.page)
        self.begin()
        self.at_end.callback(self.live.kill)

    def begin(self) -> None:
        self.live.start()


class Api(Served):
    def events(self, headers: dict[str, str]) -> list[dict[str, Any]]:
        """The events before the first state."""
        request = urllib.request.Request(f"{self.live.url}/events", headers=headers)
        events: list[dict[str, Any]] = []
        with OPENER.open(request, timeout=PATIENCE) as response:
            for line in response:
                if line == b"event: state\n":
                    state = json.loads(next(response)[6:])
                    assert state["document"] == "home.json"
                    return events
                if line.startswith(b"data: "):
                    events.append(json.loads(line[6:]))
        raise AssertionError("no state came")


@pytest.fixture(autouse=True)
def at_a_hangup() -> Iterator[None]:
    """Lets a home end at a hangup, also if the tests run under nohup."""
    before = signal.signal(signal.SIGHUP, signal.SIG_DFL)
    yield
    signal.signal(signal.SIGHUP, before)


@pytest.fixture
def home(tmp_path: Path, at_end: AsyncExitStack) -> Api:
    return Api(tmp_path, at_end)


def test_remedies(home: Api) -> None:
    assert home.live.get("/remedies")[1] == {"composes": True, "complete": True, "remedies": []}
    home.live.post("/services/kettle/freeze", {})
    status, value = home.live.get("/remedies")
    assert (status, value["composes"], value["complete"]) == (200, False, True)
    assert value["remedies"] == [
        {"text": "kettle is back", "changes": [["thaw", "kettle"]]},
        {"text": "another kettle joins, empty", "changes": [["join", "kettle2", "kettle", "empty"]]},
    ]
    for each in ("window", "ceiling"):
        home.live.post(f"/services/{each}/freeze", {})
    value = home.live.get("/remedies")[1]
    assert value["remedies"][0]["text"] == "window is back and kettle is back"
    for each in value["remedies"][0]["changes"]:
        home.live.post(f"/services/{each[1]}/thaw", {})
    assert home.live.state()["composes"]


def test_requests(home: Api) -> None:
    post = home.live.post
    status, value = post("/requests", {"action": "brighten", "wait": False})
    assert (status, value["served_by"], value["state"]) == (200, "window", "open")
    assert (value["target"], value["environment"]) == ("bright", "day")
    status, value = post("/requests", {"action": "brighten"})
    assert (status, value["error"], value["allowed"]) == (409, "not allowed", ["boil"])
    status, value = post("/requests", {"action": "sing"})
    assert (status, value["actions"][0]) == (404, "brighten")


def test_a_key_is_served_once(home: Api) -> None:
    first = home.live.post("/requests", {"action": "brighten", "key": "a"})
    again = home.live.post("/requests", {"action": "brighten", "key": "a"})
    assert first == again
    assert home.live.state()["counts"]["served"] == 1


def test_changes(home: Api) -> None:
    post = home.live.post
    assert post("/services/window/freeze", {})[0] == 200
    assert post("/services/window/freeze", {}) == (409, {"error": "error frozen"})
    assert home.live.service("window")["status"] == "frozen"
    assert post("/services/window/thaw", {})[0] == 200
    assert post("/services/window/thaw", {}) == (409, {"error": "error ready"})
    assert post("/services/window/jump", {"state": "ajar"})[0] == 200
    assert post("/services/window/jump", {"state": "up"})[0] == 409
    assert home.live.service("window")["state"] == "ajar"
    joined = {"service": "spare", "behaviour": "lamp", "state": "off", "loose": True}
    assert post("/join", joined)[0] == 200
    assert home.live.service("spare")["loose"]
    status, value = post("/join", {**joined, "service": "other"})
    assert status == 409
    assert "[devices.other]" in value["error"]
    assert post("/services/window/die", {})[0] == 200
    assert home.live.service("window")["status"] == "dead"
    assert post("/environment/jump", {"state": "dusk"})[1]["environment"] == "dusk"
    assert post("/services/ghost/freeze", {})[0] == 409


def test_a_request_that_was_served_otherwise(home: Api) -> None:
    post = home.live.post
    told = {"action": "brighten", "service": "window", "state": "open", "environment": "day", "key": "a"}
    assert post("/record", {**told, "service": "kettle"}) == (409, {"error": "not offered"})
    assert post("/record", {**told, "state": "ajar"}) == (409, {"error": "impossible"})
    assert post("/record", {**told, "state": None})[0] == 400
    status, state = post("/record", told)
    assert (status, state["target"]["state"], state["counts"]["served"]) == (200, "bright", 1)
    assert post("/requests", {"action": "brighten", "key": "a"})[1]["served_by"] == "window"


def test_bodies(home: Api) -> None:
    url = f"{home.live.url}/requests"
    for body, status in (
        (b"x" * 10_000_000, 413),
        (b" " * 65_537, 413),
        (b"{", 400),
        (b"[]", 400),
        (b"[" * 60_000, 400),
        (b'{"action": 5}', 400),
        (b'{"action": "brighten", "wait": "no"}', 400),
    ):
        try:
            assert call(url, body)[0] == status
        except (BrokenPipeError, ConnectionResetError, urllib.error.URLError):
            assert status == 413
    form = {"Content-Type": "application/x-www-form-urlencoded"}
    assert call(url, b"action=brighten", form)[0] == 415
    assert home.live.state()["counts"]["served"] == 0


def test_a_body_without_its_length(home: Api) -> None:
    def status(pieces: int) -> int:
        with contextlib.closing(http.client.HTTPConnection("127.0.0.1", home.live.port, timeout=PATIENCE)) as client:
            body = [b'{"action": "brighten"', *[b" " * 4096] * pieces, b"}"]
            client.request("POST", "/requests", iter(body), {"Content-Type": "application/json"}, encode_chunked=True)
            return client.getresponse().status

    assert (status(16), status(15)) == (413, 200)


def test_what_is_not_there(home: Api) -> None:
    def answer(method: str, path: str) -> tuple[int, str]:
        with contextlib.closing(http.client.HTTPConnection("127.0.0.1", home.live.port, timeout=PATIENCE)) as client:
            client.request(method, path)
            response = client.getresponse()
            return response.status, response.read().decode()

    assert answer("HEAD", "/state") == (200, "")
    for method, path in (
        ("GET", "/nowhere"),
        ("POST", "/services/window/dance"),
        ("POST", "/services//freeze"),
        ("POST", "/services/window"),
        ("GET", "/services/window/freeze"),
        ("DELETE", "/requests/"),
        ("DELETE", "/requests/a/b"),
    ):
        assert answer(method, path) == (404, '{"error": "404: Not Found"}')
    for method, path in (("GET", "/requests"), ("POST", "/state"), ("PUT", "/"), ("DELETE", "/events")):
        assert answer(method, path) == (405, '{"error": "405: Method Not Allowed"}')
    assert answer("DELETE", "/requests/a%2Fb") == (404, '{"error": "no request with this key waits"}')
    assert answer("GET", "/st%61te")[0] == 200


def test_answers_to_requests_have_the_head_of_all_others(home: Api) -> None:
    with contextlib.closing(http.client.HTTPConnection("127.0.0.1", home.live.port, timeout=PATIENCE)) as client:

        def answer(method: str, path: str, action: str | None, **headers: str) -> tuple[int, dict[str, str], Any]:
            body = None if action is None else json.dumps({"action": action})
            client.request(method, path, body, {"Content-Type": "application/json", **headers})
            response = client.getresponse()
            text = response.read()
            assert int(response.headers["Content-Length"]) == len(text)
            heads = {name: value for name, value in response.headers.items() if name != "Content-Length"}
            heads.pop("Server", None)
            assert abs(parsedate_to_datetime(heads.pop("Date")).timestamp() - time.time()) < PATIENCE
            return response.status, heads, json.loads(text)

        status, usual, _ = answer("GET", "/state", None)
        assert status == 200
        before = client.sock
        assert answer("POST", "/requests", "brighten")[:2] == (200, usual)
        assert answer("POST", "/requests", "boil")[2]["served_by"] == "kettle"
        assert answer("POST", "/requests", "sing")[:2] == (404, usual)
        assert client.sock is before
        status, heads, value = answer("POST", "/requests", "pour", Connection="close")
        assert (status, heads, value["served_by"]) == (200, {**usual, "Connection": "close"}, "kettle")
        assert client.sock is None


def test_a_body_that_waits_for_its_turn(home: Api) -> None:
    """It is asked for only if the request is allowed."""
    body = b'{"action": "brighten"}'
    for host, first in (("evil.example", b"HTTP/1.1 403 Forbidden"), ("localhost", b"HTTP/1.1 100 Continue")):
        head = (
            f"POST /requests HTTP/1.1\r\nHost: {host}\r\nContent-Type: application/json\r\nContent-Length: {len(body)}"
        )
        with socket.create_connection(("127.0.0.1", home.live.port), PATIENCE) as client, client.makefile(
            "rb"
        ) as answer:
            client.sendall(head.encode() + b"\r\nExpect: 100-continue\r\n\r\n")
            assert answer.readline().rstrip() == first
            if first.endswith(b"Continue"):
                assert answer.readline() == b"\r\n"
                client.sendall(body)
                assert answer.readline() == b"HTTP/1.1 200 OK\r\n"


def test_a_request_by_http_1_0(home: Api) -> None:
    body = b'{"action": "brighten"}'
    head = (
        f"POST /requests HTTP/1.0\r\nHost: localhost\r\nContent-Type: application/json\r\nContent-Length: {len(body)}"
    )
    with socket.create_connection(("127.0.0.1", home.live.port), PATIENCE) as client:
        client.sendall(head.encode() + b"\r\n\r\n" + body)
        answer = b"".join(iter(lambda: client.recv(4096), b""))
    assert answer.startswith(b"HTTP/1.0 200 OK\r\n")
    assert b'"served_by": "window"' in answer


def test_foreign_pages(home: Api) -> None:
    url, body = f"{home.live.url}/requests", {"action": "brighten"}
    for headers in (
        {"Origin": "http://evil.example"},
        {"Origin": "null"},
        {"Sec-Fetch-Site": "cross-site"},
        {"Sec-Fetch-Site": "same-site"},
        {"Host": "evil.example"},
        {"Host": "["},
        {"Origin": "http://["},
    ):
        assert call(url, body, headers)[0] == 403
    for site in ("cross-site", "same-site"):
        image = {"Sec-Fetch-Site": site, "Sec-Fetch-Mode": "no-cors"}
        assert call(f"{home.live.url}/picture.svg", None, image)[0] == 403
        link = {"Sec-Fetch-Site": site, "Sec-Fetch-Mode": "navigate"}
        assert call(f"{home.live.url}/", None, link)[0] == 200
    assert home.live.state()["counts"]["served"] == 0
    own = {"Origin": home.live.url, "Sec-Fetch-Site": "same-origin"}
    assert call(url, body, own)[0] == 200


def test_events_go_on_after_the_last_one(home: Api) -> None:
    home.live.post("/requests", {"action": "brighten"})
    shown = home.events({})
    kinds = [each["kind"] for each in shown]
    assert kinds == ["begun", "asked", "served"]
    run, number = shown[1]["run"], shown[1]["id"]
    last = {"Last-Event-ID": f"{run}-{number}"}
    assert [each["kind"] for each in home.events(last)] == ["served"]
    for unknown in ("7", f"{run}-999", f"another-{number}", f"{run}-" + "9" * 40, run):
        assert len(home.events({"Last-Event-ID": unknown})) == 3
    status, value = call(f"{home.live.url}/events", None, {"Last-Event-ID": f"{run}-" + "9" * 5000})
    assert (status, value) == (400, {"error": "a Last-Event-ID has at most 64 letters"})


def test_figures_and_page(home: Api) -> None:
    home.live.post("/requests", {"action": "brighten"})
    text = home.live.get("/metrics")[1]
    assert 'roman_requests_total{result="served"} 1.0' in text
    assert 'roman_service{service="window",status="ready"} 1.0' in text
    assert "roman_composes 1.0" in text
    with OPENER.open(f"{home.live.url}/") as response:
        policy = response.headers["Content-Security-Policy"]
    assert "default-src 'none'" in policy
    assert "unsafe" not in policy
    status, drawn = home.live.get("/picture.svg")
    assert status == 200
    assert "<svg" in drawn


def test_ask(home: Api) -> None:
    def ask(action: str) -> "subprocess.CompletedProcess[str]":
        words = [str(ROMAN_LIVE), "ask", str(home.live.file), action]
        return subprocess.run(words, capture_output=True, text=True, timeout=PATIENCE, check=False)

    done = ask("brighten")
    assert (done.returncode, done.stdout) == (0, "window served brighten, and is open\n")
    done = ask("brighten")
    assert (done.returncode, done.stdout) == (1, "")
    assert done.stderr == "brighten: not allowed\nallowed: boil\n"
    assert home.live.stop() == 0
    done = ask("boil")
    assert done.returncode == 3
    assert re.search(f"nobody is at {home.live.url}: .*refused; does /.*/home.toml run", done.stderr)
    with HTTPServer(("127.0.0.1", home.live.port), Stranger) as other:
        threading.Thread(target=other.handle_request, daemon=True).start()
        done = ask("boil")
    assert done.returncode == 3
    assert f"what is at {home.live.url} is no home: it answered with status 501" in done.stderr


def test_it_ends_where_its_terminal_is_closed(home: Api) -> None:
    home.live.process.send_signal(signal.SIGHUP)
    assert home.live.process.wait(PATIENCE) == 0


class Token(Served):
    page = 'token_file = "token"\n'

    def begin(self) -> None:
        self.live.start(wait=False)
        until(lambda: self.status({}) == 401, "the page")

    def status(self, headers: dict[str, str], path: str = "/state") -> int:
        try:
            return call(f"{self.live.url}{path}", None, headers)[0]
        except OSError:
            return 0


@pytest.fixture
def guarded(tmp_path: Path, at_end: AsyncExitStack) -> Token:
    return Token(tmp_path, at_end)


def test_the_token(guarded: Token) -> None:
    assert guarded.status({"Authorization": f"Bearer {TOKEN}"}) == 200
    assert guarded.status({"Authorization": "Bearer open"}) == 401
    assert guarded.status({"Authorization": f"Basic {TOKEN}"}) == 401
    assert guarded.status({"Authorization": "Bearer \xff"}) == 401
    assert guarded.status({"Cookie": "roman_live_token=wrong"}) == 401
    assert guarded.status({}, "/?token=wrong") == 401
    assert guarded.status({}, "/events") == 401
    assert guarded.status({}, "/metrics") == 401
    url = f"{guarded.live.url}/requests"
    assert call(url, {"action": "brighten"}, {})[0] == 401
    foreign = {"Authorization": f"Bearer {TOKEN}", "Origin": "http://evil.example"}
    assert call(url, {"action": "brighten"}, foreign)[0] == 403
    opener = urllib.request.build_opener(urllib.request.ProxyHandler({}), urllib.request.HTTPCookieProcessor())
    with opener.open(f"{guarded.live.url}/?token={TOKEN}") as response:
        assert response.url == f"{guarded.live.url}/"
    with opener.open(f"{guarded.live.url}/state") as response:
        assert response.status == 200


class FullDisk(Served):
    """A journal on a disk that is full after a while. No device is asked unless the call is on the disk."""

    journal = '[journal]\npath = "journal"\n'

    def begin(self) -> None:
        self.live.start()

    def limit(self, size: int) -> None:
        """Limits the size of its files."""
        limits = (size, resource.RLIM_INFINITY)
        resource.prlimit(self.live.process.pid, resource.RLIMIT_FSIZE, limits)


@pytest.fixture
def full(tmp_path: Path, at_end: AsyncExitStack) -> FullDisk:
    return FullDisk(tmp_path, at_end)


def test_it_goes_on_when_there_is_room(full: FullDisk) -> None:
    assert full.live.post("/requests", {"action": "brighten"})[0] == 200
    full.limit((full.folder / "journal-wal").stat().st_size)
    status, value = full.live.post("/requests", {"action": "boil"})
    assert status == 503
    assert "journal" in value["error"]
    assert full.live.service("kettle")["state"] == "empty"
    assert full.live.state()["request"] is None
    status, value = full.live.post("/services/window/freeze", {})
    assert status == 503
    assert "it was done, and is written later" in value["error"]
    assert full.live.service("window")["status"] == "frozen"
    full.limit(resource.RLIM_INFINITY)
    assert full.live.post("/services/window/thaw", {})[0] == 200
    assert full.live.post("/requests", {"action": "boil"})[0] == 200
    full.live.kill()
    full.live.start()
    assert full.live.state()["target"]["state"] == "boiled"
    assert full.live.state()["counts"]["served"] == 2


def test_what_a_person_does_meanwhile_counts(full: FullDisk) -> None:
    """A service that is frozen by hand stays frozen after the next start. One that is thawed by hand is no longer
    held."""
    assert full.live.post("/services/window/freeze", {})[0] == 200
    full.limit(0)
    assert full.live.post("/services/ceiling/freeze", {})[0] == 503
    assert full.live.post("/services/window/thaw", {})[0] == 503
    by_hand = {"window": False, "ceiling": True}
    assert {each: full.live.service(each)["by_hand"] for each in by_hand} == by_hand
    full.limit(resource.RLIM_INFINITY)
    assert full.live.post("/requests", {"action": "brighten"})[0] == 200
    full.live.kill()
    full.live.start()
    assert {each: full.live.service(each)["by_hand"] for each in by_hand} == by_hand
    assert full.live.service("ceiling")["status"] == "frozen"
