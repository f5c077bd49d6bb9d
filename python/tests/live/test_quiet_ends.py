"""A home ends with its devices and its program in any state. asyncio never reports an error that was never
retrieved."""

from __future__ import annotations

import asyncio
import contextlib
import os
import signal
from pathlib import Path
from unittest import mock

import pytest

from client.test_quiet_ends import reports
from roman_client import Call, DeviceFailed
from roman_live.background import Background, finished
from roman_live.config import CommandReach
from roman_live.devices.command import LineCommand
from roman_live.http_api import result
from roman_live.processes import Processes

from .played import Playhouse, until
from .test_commands import Heard

DEAF = "#!/bin/sh\nread line\nexec sleep 600\n"
"""A command that reads only one line."""


def test_a_kept_command_that_dies_before_it_has_read_a_line(tmp_path: Path) -> None:
    command = tmp_path / "deaf"
    command.write_text(DEAF, encoding="ascii")
    command.chmod(0o755)

    async def work() -> None:
        entry = CommandReach((str(command),), True, tmp_path)
        device = LineCommand("lamp", Heard(), entry, Processes(tmp_path / "commands"), None)
        asking = asyncio.ensure_future(device.ask(1, Call("lamp", "on" * 100_000, "on", 1)))
        await until(lambda: device._process is not None and device._waiting is not None)
        assert device._process is not None
        os.kill(device._process.pid, signal.SIGKILL)
        with pytest.raises(DeviceFailed):
            await asking
        await device.close()

    assert reports(work) == []


@pytest.mark.parametrize("end", ["the program", "a device", "nothing"])
def test_a_home_that_ends_while_a_request_is_open(tmp_path: Path, end: str) -> None:
    async def work() -> None:
        playhouse = Playhouse(tmp_path)
        async with playhouse.home() as home:
            window = playhouse.devices["window"]
            window.gate.clear()
            asking = [asyncio.ensure_future(result(home, "brighten", "k", True)) for _ in range(3)]
            await window.asked.wait()
            home.fleet.environment_moved("dusk")
            if end == "the program":
                os.kill(home.session.pid, signal.SIGKILL)
            if end == "a device":
                window.error = DeviceFailed("stuck")
                window.gate.set()
        await asyncio.gather(*asking, return_exceptions=True)

    assert reports(work) == []


def test_a_change_that_fails_after_its_caller_has_gone() -> None:
    async def work() -> None:
        gate = asyncio.Event()

        async def change() -> None:
            await gate.wait()
            raise ValueError("no name")

        caller = asyncio.ensure_future(finished(change()))
        await asyncio.sleep(0)
        caller.cancel()
        with contextlib.suppress(asyncio.CancelledError):
            await caller
        gate.set()

    assert reports(work) == []


async def test_nothing_begins_in_a_background_that_was_closed() -> None:
    begun: list[str] = []

    async def work() -> None:
        begun.append("work")

    background = Background()
    await background.close()
    await asyncio.wait({background.run(work())})
    assert begun == []


async def test_a_home_that_was_closed_asks_no_frozen_service(tmp_path: Path) -> None:
    """The program may be restarted while a home ends, which asks the frozen services again."""
    playhouse = Playhouse(tmp_path)
    async with playhouse.home() as home:
        await home.dispatcher.freeze("window")
        home.registry["window"].frozen = True
    before = asyncio.all_tasks()
    with mock.patch.object(home.fleet.retries, "_held", frozenset):
        home.fleet.retries.start_all(at_once=True)
    assert asyncio.all_tasks() == before
