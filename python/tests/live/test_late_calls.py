"""Calls that reach a device after it has answered that it didn't do them. The devices of the demo home refuse them."""

from __future__ import annotations

import json
import os
import subprocess
import sys
from collections.abc import Iterator
from pathlib import Path
from typing import Any
from unittest import mock

import pytest

from . import DEMO
from .machinery import call, free_port, loaded, until


@pytest.fixture
def kettle() -> Iterator[str]:
    """The URL of a kettle."""
    port = free_port()
    url = f"http://127.0.0.1:{port}/kettle"
    words = [sys.executable, str(DEMO / "kettle.py"), str(port)]
    with subprocess.Popen(words, env={**os.environ, "DEMO_SECONDS": "0", "DEMO_FAILURES": "0"}) as process:
        until(lambda: call(url), "the kettle", (OSError,))
        yield url
        process.kill()


def test_over_http(kettle: str) -> None:
    assert call(f"{kettle}?id=7")[1] == {"state": "empty", "done": False}
    assert call(kettle, {"id": 7, "action": "boil"})[1] == {"id": 7, "error": "that call was given up"}
    assert call(kettle, {"id": 8, "action": "boil"})[1]["state"] in ("warm", "hot")
    assert call(f"{kettle}?id=8")[1]["done"]
    assert call(f"{kettle}?id=7")[1]["done"] is False


@pytest.fixture
def demo() -> Any:
    """The module of the devices over MQTT."""
    module = loaded(DEMO / "mqtt_device.py")
    vars(module).update(FAILURES=0.0, SECONDS=0.0)
    return module


def test_over_mqtt(tmp_path: Path, demo: Any, monkeypatch: pytest.MonkeyPatch) -> None:
    """The device also refuses it after a restart."""
    monkeypatch.chdir(tmp_path)

    def device() -> Any:
        with mock.patch.object(demo.mqtt, "Client"):
            return demo.Device(1883, "ceiling", demo.BEHAVIOURS["lamp"])

    def asked(lamp: Any, **words: Any) -> Any:
        lamp.asked(None, None, mock.Mock(payload=json.dumps(words).encode()))
        return json.loads(lamp.client.publish.call_args.args[1])

    lamp = device()
    assert asked(lamp, id=-1, action=None, about=7) == {"id": -1, "state": "off", "done": False}
    for lamp in (lamp, device()):
        assert asked(lamp, id=7, action="brighten") == {"id": 7, "error": "that call was given up"}
        assert lamp.state == "off"
    assert asked(lamp, id=8, action="brighten") == {"id": 8, "state": "on"}
    assert asked(lamp, id=-2, action=None, about=8)["done"] is True
    assert asked(lamp, id=-3, action=None)["done"] is False
