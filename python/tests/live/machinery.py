"""The processes that the tests start: a mosquitto, and roman-live."""

import http.client
import importlib.util
import json
import os
import random
import signal
import socket
import subprocess
import time
import urllib.error
import urllib.request
from collections import deque
from collections.abc import Callable
from pathlib import Path
from typing import IO, Any

from . import PROGRAM, ROMAN_LIVE

PATIENCE = 120.0
"""The number of seconds to wait for an event that has to come. The machine may be very busy."""


WORKERS = 8
"""The number of workers of pytest that share the free ports."""

GIVEN: deque[int] = deque(maxlen=500)
"""The ports that were last used by this process."""


def free_port() -> int:
    """A free port of 127.0.0.1 that the system doesn't use for connections by itself. It isn't reused soon, in this
    worker of pytest or in another one: the server on it may be restarted."""
    given = Path("/proc/sys/net/ipv4/ip_local_port_range").read_text(encoding="ascii").split()
    worker = int(os.environ.get("PYTEST_XDIST_WORKER", "gw0")[2:])
    while True:
        port = random.randrange(10_000 + worker % WORKERS, max(int(given[0]), 20_000), WORKERS)
        if port in GIVEN:
            continue
        with socket.socket() as listening:
            try:
                listening.bind(("127.0.0.1", port))
            except OSError:
                continue
        GIVEN.append(port)
        return port


def until(holds: Callable[[], Any], what: str, passing: tuple[type[Exception], ...] = ()) -> Any:
    """Waits until a value is true, and returns it. A `passing` error means that it isn't true yet. Raises
    AssertionError if it takes far too long."""
    end = time.monotonic() + PATIENCE
    while True:
        try:
            value = holds()
            if value:
                return value
        except passing:
            pass
        if time.monotonic() > end:
            raise AssertionError(f"{what} didn't come")
        time.sleep(0.02)


def loaded(file: Path) -> Any:
    """Imports the module in a file outside of packages."""
    spec = importlib.util.spec_from_file_location(file.stem, file)
    assert spec is not None and spec.loader is not None
    module = importlib.util.module_from_spec(spec)
    spec.loader.exec_module(module)
    return module


class Mosquitto:
    """A broker of its own, on the given port or a free one. `more` is added to its configuration file."""

    def __init__(self, folder: Path, more: str = "", port: int | None = None) -> None:
        self.port = port or free_port()
        self._file = folder / "mosquitto.conf"
        self._file.write_text(
            f"listener {self.port} 127.0.0.1\nallow_anonymous true\npersistence false\n{more}",
            encoding="utf-8",
        )
        self.start()

    def start(self) -> None:
        """Starts it, and waits until it listens."""
        self._process = subprocess.Popen(
            ["/usr/sbin/mosquitto", "-c", str(self._file)],
            stdout=subprocess.DEVNULL,
            stderr=subprocess.DEVNULL,
        )
        until(self._listens, "the broker")

    def _listens(self) -> bool:
        with socket.socket() as to:
            return to.connect_ex(("127.0.0.1", self.port)) == 0

    def pause(self) -> None:
        """Stops its work but keeps its connections, as if it had lost its network."""
        self._process.send_signal(signal.SIGSTOP)

    def stop(self) -> None:
        """Ends it."""
        self._process.kill()
        self._process.wait()


OPENER = urllib.request.build_opener(urllib.request.ProxyHandler({}))


def call(
    url: str, body: Any = None, headers: dict[str, str] | None = None, timeout: float = PATIENCE
) -> tuple[int, Any]:
    """Gets a URL, or posts JSON to it. Returns the status, and the JSON or the text."""
    data = None if body is None else body if isinstance(body, bytes) else json.dumps(body).encode()
    given = {"Content-Type": "application/json"} if data is not None else {}
    request = urllib.request.Request(url, data, {**given, **(headers or {})})
    try:
        with OPENER.open(request, timeout=timeout) as response:
            status, text = response.status, response.read()
    except urllib.error.HTTPError as error:
        status, text = error.code, error.read()
    try:
        return status, json.loads(text)
    except ValueError:
        return status, text.decode()


class Live:
    """roman-live on a home file in a folder, as a process."""

    def __init__(self, folder: Path, home: str, *words: str) -> None:
        self.folder = folder
        self.port = free_port()
        self.url = f"http://127.0.0.1:{self.port}"
        self.file = folder / "home.toml"
        self.words = words
        self.file.write_text(f'program = "{PROGRAM}"\n{home}\n[page]\nport = {self.port}\n', encoding="utf-8")
        self.log = folder / "log"
        self.process: "subprocess.Popen[bytes]"

    def start(self, wait: bool = True, output: int | IO[bytes] = subprocess.DEVNULL) -> None:
        """Starts it, and waits until its page answers."""
        with self.log.open("ab") as log:
            self.process = subprocess.Popen(
                [str(ROMAN_LIVE), *self.words, str(self.file)],
                stdout=output,
                stderr=log,
                env={**os.environ, "PYTHONUNBUFFERED": "1"},
            )
        if wait:
            until(self.answers, f"{self.url}: {self.text()}")

    def text(self) -> str:
        """Its output."""
        return self.log.read_text(encoding="utf-8", errors="replace")[-2000:]

    def answers(self) -> bool:
        """Whether its page answers."""
        if self.process.poll() is not None:
            raise AssertionError(f"it ended with {self.process.returncode}: {self.text()}")
        try:
            return self.get("/state")[0] == 200
        except (OSError, http.client.HTTPException):
            return False

    def kill(self) -> None:
        """Kills it."""
        self.process.kill()
        self.process.wait()

    def stop(self) -> int:
        """Ends it as systemd does, and returns its status."""
        self.process.terminate()
        return self.process.wait(PATIENCE)

    def programs(self) -> list[int]:
        """The processes of the program that it runs."""
        path = f"/proc/{self.process.pid}/task/{self.process.pid}/children"
        try:
            children = Path(path).read_text(encoding="ascii").split()
        except OSError:
            return []
        return [int(each) for each in children if _runs(int(each))]

    def get(self, path: str) -> tuple[int, Any]:
        """Gets a path of its page."""
        return call(self.url + path)

    def post(self, path: str, body: Any) -> tuple[int, Any]:
        """Posts JSON to a path of its page."""
        return call(self.url + path, body)

    def state(self) -> dict[str, Any]:
        """Its state."""
        status, value = self.get("/state")
        assert status == 200, value
        shown: dict[str, Any] = value
        return shown

    def service(self, name: str) -> dict[str, Any]:
        """A service in its state."""
        for each in self.state()["services"]:
            if each["name"] == name:
                found: dict[str, Any] = each
                return found
        raise AssertionError(f"{name} isn't shown")

    def kinds(self, kind: str) -> list[str]:
        """The texts of the events of one kind."""
        request = urllib.request.Request(f"{self.url}/events")
        texts = []
        with OPENER.open(request, timeout=PATIENCE) as response:
            for line in response:
                if line == b"event: state\n":
                    break
                if line.startswith(b"data: "):
                    event = json.loads(line[6:])
                    if event["kind"] == kind:
                        texts.append(event["text"])
        return texts


def _runs(process: int) -> bool:
    """Whether a process runs the program."""
    try:
        words = Path(f"/proc/{process}/cmdline").read_bytes().split(b"\0")
    except OSError:
        return False
    return b"run" in words[:-1] and any(word.endswith(b"home.json") for word in words)
