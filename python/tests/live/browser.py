"""A home with its page, and a browser that shows it."""

from __future__ import annotations

import json
import os
import signal
import subprocess
import sys
import tempfile
import urllib.error
import urllib.request
from collections.abc import Callable
from pathlib import Path
from typing import Any, Optional

from selenium import webdriver
from selenium.common.exceptions import NoSuchElementException, StaleElementReferenceException, WebDriverException
from selenium.webdriver.chrome.service import Service

from . import DEMO, PROGRAM, ROMAN_LIVE
from .machinery import PATIENCE, free_port, until

STARTS = 3
"""The number of times that a browser is started if it doesn't come up in time."""


def wait_until(holds: Callable[[], Any], what: str) -> Any:
    """Waits until a condition holds on a page or at a server. Both may still be missing."""
    return until(holds, what, (OSError, NoSuchElementException, StaleElementReferenceException))


class Running:
    """A command that serves a page, in a folder of its own."""

    def __init__(self, port: int) -> None:
        self.url = f"http://127.0.0.1:{port}"
        self._folder = tempfile.TemporaryDirectory()
        self.folder = Path(self._folder.name)
        self._process: Optional[subprocess.Popen[bytes]] = None

    def start(self, *words: str) -> None:
        """Starts it, and waits for the page."""
        self._process = subprocess.Popen(
            [sys.executable, *words],
            cwd=self.folder,
            env={**os.environ, "ROMAN": PROGRAM, "DEMO_SECONDS": "0.02"},
            stdin=subprocess.DEVNULL,
            stdout=subprocess.DEVNULL,
        )
        wait_until(self.answers, f"the page of {words}")

    def answers(self) -> bool:
        """Whether the server answers. A refusal is an answer, too."""
        assert self._process is not None and self._process.poll() is None
        try:
            urllib.request.urlopen(f"{self.url}/", timeout=PATIENCE).close()
        except urllib.error.HTTPError as refusal:
            refusal.close()
        return True

    def end(self, by: int = signal.SIGTERM) -> None:
        """Ends it with a signal."""
        if self._process is not None:
            self._process.send_signal(by)
            self._process.wait(PATIENCE)
            self._process = None

    def close(self) -> None:
        self.end()
        self._folder.cleanup()

    def state(self) -> Any:
        """The JSON of `/state`."""
        with urllib.request.urlopen(f"{self.url}/state", timeout=PATIENCE) as response:
            return json.load(response)

    def post(self, path: str, body: Any) -> Any:
        """Posts a change or a request, and returns the answer."""
        data, headers = json.dumps(body).encode(), {"Content-Type": "application/json"}
        request = urllib.request.Request(f"{self.url}/{path}", data, headers)
        with urllib.request.urlopen(request, timeout=PATIENCE) as response:
            return json.load(response)


class Played(Running):
    """A home whose devices are simulated by hand. `name` is that of its document."""

    def __init__(self, more: str = "", name: str = "home.json") -> None:
        port = free_port()
        super().__init__(port)
        document = (DEMO / "home.json").read_text(encoding="utf-8")
        (self.folder / name).write_text(document, encoding="utf-8")
        (self.folder / "home.toml").write_text(f'document = "{name}"\n[page]\nport = {port}\n{more}', encoding="utf-8")

    def begin(self) -> None:
        self.start(str(ROMAN_LIVE), "--simulate", "home.toml")


class Demonstrated(Running):
    """The demo home, whose devices sometimes fail."""

    def __init__(self) -> None:
        self._port, self.broker = free_port(), free_port()
        super().__init__(self._port)

    def begin(self, failures: float) -> None:
        ports = [f"--page={self._port}", f"--broker={self.broker}", f"--kettle={free_port()}"]
        self.start(str(DEMO / "start"), *ports, f"--failures={failures}")


def browser() -> Any:
    """A browser without a window."""
    options = webdriver.ChromeOptions()
    options.binary_location = "/usr/bin/chromium"
    for word in ("--headless=new", "--no-sandbox", "--disable-dev-shm-usage", "--disable-gpu"):
        options.add_argument(word)
    options.set_capability("goog:loggingPrefs", {"browser": "ALL"})
    driver = started(options)
    driver.set_page_load_timeout(2 * PATIENCE)
    driver.set_script_timeout(PATIENCE)
    return driver


def started(options: Any) -> Any:
    """A browser that came up."""
    for _ in range(STARTS - 1):
        try:
            return webdriver.Chrome(service=Service("/usr/bin/chromedriver"), options=options)
        except WebDriverException:
            continue
    return webdriver.Chrome(service=Service("/usr/bin/chromedriver"), options=options)
