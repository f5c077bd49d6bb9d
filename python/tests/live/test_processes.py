"""Commands that are at work when their home is killed, and the next homes."""

from __future__ import annotations

import asyncio
import os
import signal
import subprocess
from collections.abc import Iterator
from pathlib import Path

import pytest

from roman_client import Call, DeviceFailed
from roman_live.config import CommandReach
from roman_live.devices import Answer
from roman_live.devices.command import Command, LineCommand
from roman_live.processes import Processes

from .machinery import PATIENCE
from .test_commands import Heard

NUMBER = 1_764_000_000_000_007
"""The number of a call, as large as those of a home."""


@pytest.fixture
def started(tmp_path: Path) -> Iterator[list[subprocess.Popen[bytes]]]:
    processes: list[subprocess.Popen[bytes]] = []
    yield processes
    for each in processes:
        with_group(each)


def with_group(process: subprocess.Popen[bytes]) -> None:
    """Ends a process with all processes that it started."""
    try:
        os.killpg(process.pid, signal.SIGKILL)
    except ProcessLookupError:
        pass
    process.wait()


def leave(folder: Path, started: list[subprocess.Popen[bytes]], *words: str) -> subprocess.Popen[bytes]:
    """Starts a command as a home does that is then killed. Nothing of the home is left."""
    with Processes(folder / "commands").at_work(NUMBER) as file:
        started.append(subprocess.Popen(words, pass_fds=(file,), start_new_session=True))
    return started[-1]


def test_each_later_home_sees_it(tmp_path: Path, started: list[subprocess.Popen[bytes]]) -> None:
    """So does a home that begins after another one was ended while it waited."""
    command = leave(tmp_path, started, "sleep", "1000")
    for _ in range(3):
        home = Processes(tmp_path / "commands")
        assert home.is_at_work(NUMBER)
        assert not home.is_at_work(NUMBER + 1)
        with pytest.raises(TimeoutError):
            asyncio.run(asyncio.wait_for(home.end(NUMBER, PATIENCE), 0.1))
    assert command.poll() is None
    with_group(command)
    assert not Processes(tmp_path / "commands").is_at_work(NUMBER)


def test_it_is_ended_at_its_deadline(tmp_path: Path, started: list[subprocess.Popen[bytes]]) -> None:
    command = leave(tmp_path, started, "sh", "-c", "sleep 1000 & wait")
    asyncio.run(asyncio.wait_for(Processes(tmp_path / "commands").end(NUMBER, 0.1), PATIENCE))
    assert command.wait(PATIENCE) == -signal.SIGKILL


def test_it_is_ended_behind_a_link(tmp_path: Path, started: list[subprocess.Popen[bytes]]) -> None:
    """The folder of the store also has another name."""
    (tmp_path / "real").mkdir()
    (tmp_path / "linked").symlink_to("real")
    command = leave(tmp_path / "linked", started, "sleep", "1000")
    asyncio.run(asyncio.wait_for(Processes(tmp_path / "linked" / "commands").end(NUMBER, 0.1), PATIENCE))
    assert command.wait(PATIENCE) == -signal.SIGKILL


def test_no_other_user_can_hold_its_locks(tmp_path: Path) -> None:
    with Processes(tmp_path / "commands").file():
        assert (tmp_path / "commands").stat().st_mode & 0o077 == 0


def test_what_a_command_left_running_is_not_its_work(tmp_path: Path, started: list[subprocess.Popen[bytes]]) -> None:
    command = leave(tmp_path, started, "sh", "-c", "sleep 1000 & echo on")
    assert command.wait(PATIENCE) == 0
    home = Processes(tmp_path / "commands")
    asyncio.run(asyncio.wait_for(home.end(NUMBER, 0.0), PATIENCE))
    os.killpg(command.pid, 0)  # The command still runs.


def test_nothing_is_waited_for_if_there_is_nothing(tmp_path: Path) -> None:
    asyncio.run(asyncio.wait_for(Processes(tmp_path / "commands").end(NUMBER, 1000.0), PATIENCE))


@pytest.mark.parametrize("lines", [False, True])
def test_its_service_is_not_asked_before_it_has_ended(
    tmp_path: Path, started: list[subprocess.Popen[bytes]], lines: bool
) -> None:
    command = leave(tmp_path, started, "sleep", "1000")
    script = tmp_path / "lamp"
    script.write_text("#!/bin/sh\n[ $# = 1 ] && echo on || while read word; do echo on; done\n", encoding="utf-8")
    script.chmod(0o755)
    entry = CommandReach((str(script),), lines, tmp_path)
    kind = LineCommand if lines else Command
    device = kind("lamp", Heard(), entry, Processes(tmp_path / "commands"), NUMBER)

    async def asked() -> None:
        call = Call("lamp", "brighten", "brighten", 8)
        for work in (device.tell(None), device.ask(NUMBER + 1, call)):
            with pytest.raises(DeviceFailed, match="still at work on a call of an earlier run"):
                await work
        with_group(command)
        assert (await device.ask(NUMBER + 1, call)).state == "on"
        assert (await device.tell(None)) is not None
        await device.close()

    asyncio.run(asked())


@pytest.mark.parametrize("numbered", [False, True])
def test_a_command_that_is_kept_holds_the_lock_while_it_works(tmp_path: Path, numbered: bool) -> None:
    script = tmp_path / "lamp"
    gate = tmp_path / "gate"
    script.write_text(
        f'#!/bin/sh\nwhile read {"number " if numbered else ""}word; do\n'
        f'touch begun; while [ ! -e gate ]; do sleep 0.01; done; echo {"$number " if numbered else ""}on\ndone\n',
        encoding="utf-8",
    )
    script.chmod(0o755)
    entry = CommandReach((str(script),), True, tmp_path, numbered)
    device = LineCommand("lamp", Heard(), entry, Processes(tmp_path / "commands"), None)
    other = Processes(tmp_path / "commands")

    async def asked() -> None:
        asking = asyncio.ensure_future(device.ask(NUMBER, Call("lamp", "brighten", "brighten", 7)))
        while not (tmp_path / "begun").exists():
            await asyncio.sleep(0.01)
        assert other.is_at_work(NUMBER)
        gate.touch()
        assert (await asyncio.wait_for(asking, PATIENCE)).state == "on"
        assert not other.is_at_work(NUMBER)
        await device.close()

    asyncio.run(asked())


WRITES = """#!/bin/sh
[ "$1" = "?" ] || echo "$1" >> "$STATE_DIRECTORY/actions"
echo on
"""


def test_a_command_writes_where_the_unit_lets_it(tmp_path: Path, monkeypatch: pytest.MonkeyPatch) -> None:
    """It runs in the folder of the home file. Its environment has the folder of the unit."""
    folder, state = tmp_path / "home", tmp_path / "state"
    folder.mkdir()
    state.mkdir()
    command = folder / "lamp"
    command.write_text(WRITES, encoding="ascii")
    command.chmod(0o755)
    monkeypatch.setenv("STATE_DIRECTORY", str(state))

    async def test() -> None:
        entry = CommandReach(("./lamp",), False, folder)
        device = Command("lamp", Heard(), entry, Processes(tmp_path / "commands"), None)
        assert await device.ask(1, Call("lamp", "brighten", "brighten", 1)) == Answer("on")

    asyncio.run(test())
    assert (state / "actions").read_text(encoding="ascii") == "brighten\n"
    assert [each.name for each in folder.iterdir()] == ["lamp"]
