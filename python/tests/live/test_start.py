"""The start of a home: its actions before the lock, its lines to the program, and a program that is killed then."""

from __future__ import annotations

import os
import sys
from http import HTTPStatus
from pathlib import Path

import pytest

from roman_client import ProgramEnded, StoreLocked
from roman_client.store import Store
from roman_live.config import HomeFile
from roman_live.home import STARTS, Home
from roman_live.http_api import result

from . import PROGRAM
from .played import START, Playhouse
from .test_devices import CYCLE
from .test_requests import run

MODULE = """
import pathlib
pathlib.Path(__file__).with_suffix(".imported").touch()
def lamp(action):
    return "off", "day"
"""


def test_no_module_of_a_device_is_imported_before_the_lock(tmp_path: Path) -> None:
    """The module could open resources that the running home uses."""
    playhouse = Playhouse(tmp_path)
    (tmp_path / "unlocked.py").write_text(MODULE, encoding="utf-8")
    head = playhouse.file.read_text(encoding="utf-8").partition("[devices.window]")[0]
    tables = (f'[devices.{name}]\nreach = "python"\ncall = "unlocked:lamp"\n' for name in START)
    playhouse.file.write_text(head + "".join(tables), encoding="utf-8")
    imported = tmp_path / "unlocked.imported"

    async def start() -> None:
        await (await Home.start(HomeFile.read(playhouse.file))).close()

    other = Store(tmp_path / "home.db")
    with pytest.raises(StoreLocked, match="does this home run already"):
        run(start())
    assert not imported.exists()
    other.close()
    run(start())
    assert imported.exists()


def test_a_home_whose_store_was_removed_asks_no_device(tmp_path: Path) -> None:
    """Another home may begin then, and is the only one that asks devices."""

    async def test() -> None:
        first, second = Playhouse(tmp_path), Playhouse(tmp_path)
        async with first.home() as old:
            assert (await result(old, "brighten", None, True))[0] == HTTPStatus.OK
            for file in tmp_path.glob("home.db*"):
                file.unlink()
            async with second.home() as new:
                for _ in range(3):
                    assert (await result(old, "boil", None, True))[0] == HTTPStatus.SERVICE_UNAVAILABLE
                assert (await result(new, "brighten", None, True))[0] == HTTPStatus.OK
        assert first.devices["kettle"].calls == []

    run(test())


def test_a_start_tells_the_program_as_much_after_many_requests_as_after_few(tmp_path: Path) -> None:
    """The store has the present states, so earlier events aren't sent again."""

    async def test() -> None:
        playhouse = Playhouse(tmp_path)
        told = []
        for rounds in (1, 1, 20, 1):
            async with playhouse.home() as home:
                told.append(home.session.core.sent)
                for action in CYCLE * rounds:
                    assert (await result(home, action, None, True))[0] == HTTPStatus.OK
        assert told[1] == told[2] == told[3]

    run(test())


KILLED = """#!{python}
# Runs the program, and is killed with it at line {line}, in the first {times} runs.
import os, pathlib, subprocess, sys
runs = pathlib.Path("{runs}")
with runs.open("a") as file:
    file.write("x")
if sys.argv[1] != "run" or len(runs.read_text()) > {times}:
    os.execv("{program}", ["{program}", *sys.argv[1:]])
program = subprocess.Popen(["{program}", *sys.argv[1:]], stdin=subprocess.PIPE)
for number, line in enumerate(sys.stdin.buffer, 1):
    if number == {line}:
        program.kill()
        os.kill(os.getpid(), 9)
    program.stdin.write(line)
    program.stdin.flush()
"""


def kill_program(playhouse: Playhouse, line: int, times: int) -> None:
    """Kills the program of a home at that line of its next runs."""
    folder = playhouse.file.parent
    killed = folder / "killed"
    values = {"python": sys.executable, "line": line, "times": times, "runs": folder / "runs", "program": PROGRAM}
    killed.write_text(KILLED.format(**values), encoding="utf-8")
    killed.chmod(0o755)
    text = playhouse.file.read_text(encoding="utf-8")
    playhouse.file.write_text(text.replace(f'program = "{PROGRAM}"', 'program = "./killed"'), encoding="utf-8")


@pytest.mark.parametrize("line", [1, 2, 3])
@pytest.mark.parametrize("stored", [False, True])
def test_a_start_is_tried_again_if_its_program_is_killed(tmp_path: Path, line: int, stored: bool) -> None:
    async def test() -> None:
        playhouse = Playhouse(tmp_path)
        if stored:
            async with playhouse.home() as home:
                assert (await result(home, "brighten", "k", True))[0] == HTTPStatus.OK
        kill_program(playhouse, line, 3)
        async with playhouse.home() as home:
            assert (await result(home, "brighten", "k", True))[0] == HTTPStatus.OK
            assert (await result(home, "boil", "l", True))[0] == HTTPStatus.OK
            assert home.dispatcher.served == 2

    run(test())


def test_a_start_is_not_tried_for_ever(tmp_path: Path) -> None:
    playhouse = Playhouse(tmp_path)
    kill_program(playhouse, 1, 1000)

    async def test() -> None:
        with pytest.raises(ProgramEnded):
            await Home.start(HomeFile.read(playhouse.file))

    run(test())
    assert len((tmp_path / "runs").read_text(encoding="ascii")) == STARTS
    assert os.listdir(tmp_path).count("home.db") == 0
