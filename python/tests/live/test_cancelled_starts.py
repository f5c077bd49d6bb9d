"""A process that is started by a task that is cancelled meanwhile: it ends, and the task is cancelled."""

from __future__ import annotations

import asyncio
import os
import signal
from collections.abc import AsyncIterator, Callable, Coroutine
from pathlib import Path
from typing import Any
from unittest import mock

from roman_client import Call, aio
from roman_live import pictures
from roman_live.config import CommandReach
from roman_live.devices import Answer
from roman_live.devices.command import Command, LineCommand
from roman_live.pictures import Picture
from roman_live.policies import LeastWorst
from roman_live.processes import Processes

from . import sample
from .machinery import PATIENCE, until
from .test_commands import Heard

ROUNDS = 12
"""After so many rounds of the loop a process has been started."""


def children() -> set[str]:
    """The processes that this thread has started."""
    return set(Path("/proc/thread-self/children").read_text(encoding="ascii").split())


def files() -> set[str]:
    """The files that this process has open."""
    return set(os.listdir("/proc/self/fd"))


def is_running(process: int) -> bool:
    """Whether a process hasn't ended."""
    try:
        return Path(f"/proc/{process}/stat").read_text(encoding="ascii").rpartition(")")[2].split()[0] != "Z"
    except (FileNotFoundError, ProcessLookupError):
        return False


class Parent:
    """A script that starts a process, and waits."""

    def __init__(self, folder: Path) -> None:
        self.child = folder / "child"
        self.script = folder / "script"
        self.script.write_text(f"#!/bin/sh\nsleep 3600 &\necho $! > {self.child}\nwait\n", encoding="ascii")
        self.script.chmod(0o755)

    async def cancel(self, start: Callable[[], Coroutine[Any, Any, Any]]) -> AsyncIterator[None]:
        """Cancels what starts the script, each time after one more round of the loop. If the script runs, it has
        started its process by then. The script has ended afterwards."""
        for rounds in range(ROUNDS):
            self.child.unlink(missing_ok=True)
            before, open_files = children(), files()
            task = asyncio.create_task(start())
            for _ in range(rounds):
                await asyncio.sleep(0)
            if children() - before:
                until(self.has_child, "the child")
            task.cancel()
            await asyncio.wait({task}, timeout=PATIENCE)
            assert task.cancelled()
            assert not children() - before and not files() - open_files
            yield

    def has_child(self) -> bool:
        """Whether the process runs that the script has started."""
        text = self.child.read_text(encoding="ascii") if self.child.exists() else ""
        return text.endswith("\n") and is_running(int(text))


async def test_a_drawing(tmp_path: Path) -> None:
    parent, document = Parent(tmp_path), tmp_path / "home.json"
    document.touch()
    with mock.patch.object(pictures, "_tool", lambda: (str(parent.script),)):
        async for _ in parent.cancel(Picture(document).get):
            until(lambda: not parent.has_child(), "the end of the child")


async def test_a_command(tmp_path: Path) -> None:
    parent = Parent(tmp_path)
    entry = CommandReach((str(parent.script),), False, tmp_path)
    device = Command("lamp", Heard(), entry, Processes(tmp_path / "commands"), None)
    async for _ in parent.cancel(lambda: device.ask(1, Call("lamp", "brighten", "brighten", 1))):
        until(lambda: not parent.has_child(), "the end of the child")


async def test_a_command_of_lines(tmp_path: Path) -> None:
    parent = Parent(tmp_path)
    entry = CommandReach((str(parent.script),), True, tmp_path)
    device = LineCommand("lamp", Heard(), entry, Processes(tmp_path / "commands"), None)

    async def ask() -> None:
        try:
            await device.ask(1, Call("lamp", "brighten", "brighten", 1))
        finally:
            await device.close()

    async for _ in parent.cancel(ask):
        until(lambda: not parent.has_child(), "the end of the child")


async def test_a_command_that_has_left_a_process_outside_of_its_group(tmp_path: Path) -> None:
    """It is ended when it is late, and started again, though the other process still has its output."""
    left, script = tmp_path / "left", tmp_path / "script"
    escapes = f"setsid sh -c 'echo $$ >> {left}; exec sleep 3600' &"
    is_late = f"[ -e {tmp_path}/late ] || {{ touch {tmp_path}/late; sleep 3600; }}"
    script.write_text(f"#!/bin/sh\n{escapes}\nread word\n{is_late}\necho on\nread word\n", encoding="ascii")
    script.chmod(0o755)
    entry = CommandReach((str(script),), True, tmp_path)
    device = LineCommand("lamp", Heard(), entry, Processes(tmp_path / "commands"), None)
    try:
        late = asyncio.create_task(device.tell(None))
        while not (tmp_path / "late").exists() or not left.exists():
            await asyncio.sleep(0.01)
        late.cancel()
        async with asyncio.timeout(PATIENCE):
            assert await device.tell(None) == Answer("on")
        until(lambda: len(left.read_text(encoding="ascii").split()) == 2, "the second process")
        await device.close()
    finally:
        for process in left.read_text(encoding="ascii").split():
            os.kill(int(process), signal.SIGKILL)


async def test_a_session(tmp_path: Path) -> None:
    """Its program ends. What that has started is no concern of the client."""
    parent = Parent(tmp_path)
    session = aio.Session(sample("home.json"), program=str(parent.script))
    async for _ in parent.cancel(session.begin):
        if parent.has_child():
            os.kill(int(parent.child.read_text(encoding="ascii")), signal.SIGKILL)


async def test_a_drawing_that_is_given_up(tmp_path: Path) -> None:
    """Its transport is closed, which can't be done after the loop is closed."""
    document = tmp_path / "home.json"
    document.touch()
    before = files()
    no_time = mock.patch.object(pictures, "LONGEST_DRAWING", 0.0)
    with no_time, mock.patch.object(pictures, "_tool", lambda: ("sh", "-c", "exec sleep 3600")):
        assert await Picture(document).get() is None
    assert files() == before


async def test_advice_that_comes_with_a_cancellation() -> None:
    """The request is cancelled."""
    for rounds in range(4):
        written = asyncio.Event()

        async def communicate() -> tuple[bytes, bytes]:
            await written.wait()
            return b"", b""

        process = mock.Mock(returncode=0, communicate=communicate)
        policy = LeastWorst(mock.Mock(), mock.Mock(), "roman", PATIENCE, mock.Mock())
        with mock.patch.object(asyncio, "create_subprocess_exec", mock.AsyncMock(return_value=process)):
            asking = asyncio.create_task(policy._ask(mock.Mock()))
            for _ in range(3):
                await asyncio.sleep(0)
            written.set()
            for _ in range(rounds):
                await asyncio.sleep(0)
            is_open = asking.cancel()
            await asyncio.wait({asking})
        assert asking.cancelled() == is_open
