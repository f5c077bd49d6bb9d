"""roman-live under systemd: its notices of being ready, alive and about to end, and the priorities of its messages."""

import configparser
import logging
import os
import re
import shutil
import socket
import subprocess
import threading
from contextlib import AsyncExitStack
from pathlib import Path
from unittest import mock

import pytest

from roman_live.command_line import PATIENCE as PATIENCE_OF_THE_HOME
from roman_live.command_line import USAGE
from roman_live.limits import Limits
from roman_live.systemd import Lines

from . import TOP, sample
from .machinery import PATIENCE, Live, until


class Systemd:
    """Listens on NOTIFY_SOCKET. It listens all the time, because the socket holds only a few messages."""

    def __init__(self, path: Path) -> None:
        self.heard: list[bytes] = []
        self._socket = socket.socket(socket.AF_UNIX, socket.SOCK_DGRAM)
        self._socket.bind(str(path))
        threading.Thread(target=self._listen, daemon=True).start()

    def _listen(self) -> None:
        while True:
            self.heard.append(self._socket.recv(4096))


def test_what_systemd_is_told(at_end: AsyncExitStack, tmp_path: Path) -> None:
    live = Live(tmp_path, f'document = "{sample("home.json")}"', "--simulate")
    systemd = Systemd(tmp_path / "notify")
    told = {"NOTIFY_SOCKET": f"{tmp_path}/notify", "WATCHDOG_USEC": "400000"}
    with mock.patch.dict(os.environ, told):
        live.start(wait=False)
    at_end.callback(live.kill)
    until(lambda: systemd.heard, "its first word")
    assert live.get("/state")[0] == 200
    until(lambda: b"WATCHDOG=1" in systemd.heard, "what says that it is alive")
    for service in ("window", "ceiling"):
        assert live.post(f"/services/{service}/freeze", {})[0] == 200
    lines = [
        f"STATUS=at {live.url}/: there is {text}".encode()
        for text in ("a composition", "a composition; frozen: window", "no composition; frozen: window, ceiling")
    ]
    until(lambda: lines[-1] in systemd.heard, "how it is with the home")
    assert live.stop() == 0
    until(lambda: systemd.heard[-1] == b"STOPPING=1", "its last word")
    assert systemd.heard[0] == f"READY=1\nSTATUS=at {live.url}/".encode()
    assert set(systemd.heard[1:-1]) <= {b"WATCHDOG=1", *lines}


def test_a_greeting_that_cannot_be_written(at_end: AsyncExitStack, tmp_path: Path) -> None:
    live = Live(tmp_path, f'document = "{sample("home.json")}"', "--simulate")
    with open("/dev/full", "wb") as full:
        live.start(output=full)
    at_end.callback(live.kill)
    assert live.stop() == 0


# The units of one home, and of several.


def unit(name: str) -> configparser.ConfigParser:
    unit = configparser.ConfigParser(strict=False, interpolation=None)
    unit.optionxform = str  # type: ignore[assignment]
    unit.read(TOP / "samples" / "live" / name, encoding="utf-8")
    return unit


def test_how_it_ends_and_is_started_again() -> None:
    """A stop doesn't interrupt the action of a device, and a wrong home file isn't tried endlessly."""
    service = unit("roman-live.service")["Service"]
    assert service["KillMode"] == "process"
    assert service["RestartPreventExitStatus"] == str(USAGE)
    assert 90 > PATIENCE_OF_THE_HOME  # systemd waits 90 seconds before it kills.


def test_its_files() -> None:
    service = unit("roman-live.service")["Service"]
    assert int(service["LimitNOFILE"]) > 2 * Limits().connections
    assert service["WorkingDirectory"] == f"/var/lib/{service['StateDirectory']}"


def test_several_homes_have_nothing_in_common() -> None:
    one, many = unit("roman-live.service"), unit("roman-live@.service")
    differ = {key: many["Service"][key] for key in many["Service"] if many["Service"][key] != one["Service"][key]}
    expected = {
        "ExecStart": "/usr/bin/env roman-live /etc/roman/%i.toml",
        "StateDirectory": "roman-live/%i",
        "WorkingDirectory": "/var/lib/roman-live/%i",
    }
    assert differ == expected


@pytest.mark.skipif(shutil.which("systemd-analyze") is None, reason="there is no systemd")
def test_what_it_may_do() -> None:
    """systemd rates the exposure of the units from 0 to 10."""
    for name in ("roman-live.service", "roman-live@.service"):
        words = ["systemd-analyze", "security", "--offline=true", "--threshold=20", "--no-pager"]
        subprocess.run([*words, str(TOP / "samples" / "live" / name)], check=True, capture_output=True)


# systemd's journal reads the priority at the beginning of a line.


def test_why_it_ends(tmp_path: Path) -> None:
    live = Live(tmp_path, 'document = "none.json"')
    live.log.touch()
    place = live.log.stat()
    with mock.patch.dict(os.environ, JOURNAL_STREAM=f"{place.st_dev}:{place.st_ino}"):
        live.start(wait=False)
    assert live.process.wait(PATIENCE) == 2
    assert re.search("^<3>roman-live: .*No such file", live.text())


def test_each_line_of_a_message() -> None:
    lines = Lines("%(name)s: %(message)s")
    for level, mark in ((logging.INFO, "<6>"), (logging.WARNING, "<4>"), (logging.ERROR, "<3>")):
        record = logging.LogRecord("live", level, "", 0, "it fails\nand fails", (), None)
        assert lines.format(record) == f"{mark}live: it fails\n{mark}and fails"
