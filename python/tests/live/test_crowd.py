"""A home in a crowd: silent connections, listeners that don't read, and a sensor that never stops.

ROMAN_LIVE_CROWD has the numbers of connections, listeners and messages per second. The nightly run has "10000 1000
10000", on a machine without other work. The home then has to serve at least at half of its usual pace.
"""

from __future__ import annotations

import http.client
import json
import os
import resource
import subprocess
import sys
import time
from collections.abc import Iterator
from pathlib import Path

import pytest

from . import sample
from .machinery import PATIENCE, Live, Mosquitto
from .played import AFTER, START
from .test_devices import CYCLE

CROWD = os.environ.get("ROMAN_LIVE_CROWD", "")
CONNECTIONS, LISTENERS, MESSAGES = map(int, (CROWD or "300 50 500").split())

REQUESTS = 4000 if CROWD else 40
"""The number of requests over which the pace is measured."""

MOST_MEMORY = 40_000
"""The maximum number of bytes of the home's memory for a connection."""

HOME = """
document = "{document}"
[journal]
path = "{folder}/home.db"
[mqtt]
port = {broker}
[limits]
connections = 20000
listeners = 2000
silence = 3600
"""

DEVICE = """
[devices.{name}]
reach = "python"
call = "quick:{name}"
"""

MODULE = """
import functools
AFTER = {after}
async def act(name, action):
    return AFTER[name, action], "day"
for name in {names}:
    globals()[name] = functools.partial(act, name)
"""


@pytest.fixture
def broker(tmp_path: Path) -> Iterator[Mosquitto]:
    broker = Mosquitto(tmp_path)
    yield broker
    broker.stop()


@pytest.fixture
def live(tmp_path: Path, broker: Mosquitto) -> Iterator[Live]:
    """A home of devices that act at once."""
    (tmp_path / "quick.py").write_text(MODULE.format(after=AFTER, names=list(START)), encoding="utf-8")
    tables = (DEVICE.format(name=name) for name in START)
    home = HOME.format(document=sample("home.json"), broker=broker.port, folder=tmp_path) + "".join(tables)
    live = Live(tmp_path, home)
    soft, hard = resource.getrlimit(resource.RLIMIT_NOFILE)
    resource.setrlimit(resource.RLIMIT_NOFILE, (hard, hard))  # This is the limit of the unit.
    live.start()
    resource.setrlimit(resource.RLIMIT_NOFILE, (soft, hard))
    yield live
    live.kill()


def pace(live: Live) -> float:
    """The number of requests per second that are served one after the other."""
    page = http.client.HTTPConnection("127.0.0.1", live.port, timeout=PATIENCE)
    begun = time.monotonic()
    for number in range(REQUESTS):
        body = json.dumps({"action": CYCLE[number % 4]})
        page.request("POST", "/requests", body, {"Content-Type": "application/json"})
        answer = page.getresponse()
        text = answer.read()
        assert answer.status == 200, text
    page.close()
    return REQUESTS / (time.monotonic() - begun)


def memory(live: Live) -> int:
    """The memory of the home, in bytes."""
    lines = Path(f"/proc/{live.process.pid}/status").read_text(encoding="ascii").splitlines()
    return next(1024 * int(line.split()[1]) for line in lines if line.startswith("VmRSS"))


def test_it_serves_in_a_crowd(live: Live, broker: Mosquitto) -> None:
    pace(live)
    alone, before = pace(live), memory(live)
    sizes = map(str, (live.port, broker.port, CONNECTIONS, LISTENERS, MESSAGES))
    crowd = [sys.executable, str(Path(__file__).with_name("crowd.py")), *sizes]
    with subprocess.Popen(crowd, stdout=subprocess.PIPE) as strangers:
        try:
            assert strangers.stdout is not None
            assert int(strangers.stdout.readline()) == CONNECTIONS + LISTENERS
            within, more = pace(live), memory(live) - before
        finally:
            strangers.kill()
    print(f"{alone:.0f} requests a second alone, {within:.0f} in the crowd; {more / 1e6:.0f} MB more")
    assert {each["status"] for each in live.state()["services"]} == {"ready"}
    assert more < MOST_MEMORY * (CONNECTIONS + LISTENERS) + 20_000_000
    assert not CROWD or within >= alone / 2
