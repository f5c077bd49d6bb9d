"""Commands that keep running: each line belongs to the right call, however late it comes, and whatever else is
written."""

from __future__ import annotations

import asyncio
import sys
from collections.abc import Callable
from contextlib import AsyncExitStack
from pathlib import Path
from typing import Any

import pytest

from roman_client import Call, DeviceFailed
from roman_live.config import CommandReach
from roman_live.devices import Answer
from roman_live.devices.command import LineCommand
from roman_live.processes import Processes

from .machinery import PATIENCE

DEVICE = """
import os, pathlib, sys, time
for line in sys.stdin:
    *number, word = line.split()
    mark = "".join(f"{each} " for each in number)
    state = f"{word if word != '?' else 'here'} {os.getpid()}"
    pathlib.Path(f"heard-{word}").touch()
    while word.startswith("slow") and not pathlib.Path("go").exists():
        time.sleep(0.01)
    while word == "hangs" or word == "?" and pathlib.Path("mute").exists():
        time.sleep(0.01)
    if word == "ends":
        sys.exit(1)
    if word == "unasked":
        print("- ajar day", flush=True)
    if word == "nonsense":
        print(mark + "it is stuck here", flush=True)
    elif word == "nobody's":
        print("x open day", flush=True)
    elif word == "long":
        print("x" * 100_000, flush=True)
    else:
        print(mark + state, flush=True)
    if word == "twice":
        print(mark + state, flush=True)
"""


class Heard:
    """The reports to the home."""

    def __init__(self) -> None:
        self.places: list[tuple[str, Answer]] = []
        self.texts: list[str] = []

    def moved(self, service: str, answer: Answer) -> None:
        self.places.append((service, answer))

    def answered(self, service: str) -> None:
        """Records an answer."""

    def gone(self, service: str) -> None:
        """Records that the device is gone."""

    def late(self, service: str, text: str) -> None:
        self.texts.append(text)


class Kept:
    """A command whose lines may have numbers. Its answer to an action is the action, and its process."""

    def __init__(self, folder: Path, at_end: AsyncExitStack, numbered: bool) -> None:
        self.folder = folder
        (self.folder / "device.py").write_text(DEVICE, encoding="utf-8")
        entry = CommandReach((sys.executable, "device.py"), True, self.folder, numbered)
        self.heard = Heard()
        self.device = LineCommand("window", self.heard, entry, Processes(self.folder / "commands"), None)
        at_end.push_async_callback(self.device.close)
        self.calls = 0

    async def ask(self, action: str) -> tuple[str, str]:
        """Its answer, and its process."""
        self.calls += 1
        answer = await self.device.ask(self.calls, Call("window", action, action, self.calls))
        assert answer.environment is not None
        return answer.state, answer.environment

    async def tell(self) -> str:
        answer = await self.device.tell(None)
        assert answer is not None and answer.environment is not None
        assert answer.state == "here"
        return answer.environment

    async def until(self, holds: Callable[[], Any]) -> None:
        async def waits() -> None:
            while not holds():
                await asyncio.sleep(0.01)

        await asyncio.wait_for(waits(), PATIENCE)

    async def give_up(self, work: Any, word: str) -> None:
        """Asks it, and gives up when it has received the question."""
        task = asyncio.ensure_future(work)
        await self.until((self.folder / f"heard-{word}").exists)
        task.cancel()
        with pytest.raises(asyncio.CancelledError):
            await task

    async def refused(self, action: str, text: str) -> None:
        with pytest.raises(DeviceFailed, match=text):
            await self.ask(action)


@pytest.fixture
def plain(tmp_path: Path, at_end: AsyncExitStack) -> Kept:
    return Kept(tmp_path, at_end, False)


@pytest.fixture
def numbered(tmp_path: Path, at_end: AsyncExitStack) -> Kept:
    return Kept(tmp_path, at_end, True)


@pytest.fixture(params=[False, True], ids=["plain", "numbered"])
def kept(tmp_path: Path, at_end: AsyncExitStack, request: pytest.FixtureRequest) -> Kept:
    return Kept(tmp_path, at_end, request.param)


async def test_it_is_kept(kept: Kept) -> None:
    state, process = await kept.ask("open")
    assert state == "open"
    assert (await kept.ask("shut")) == ("shut", process)
    assert (await kept.tell()) == process
    assert kept.heard.texts == []


async def test_a_late_answer(plain: Kept) -> None:
    _, process = await plain.ask("open")
    await plain.give_up(plain.ask("slow"), "slow")
    (plain.folder / "go").touch()
    state, other = await plain.ask("shut")
    assert state == "shut"
    assert other != process
    assert plain.heard.texts == []


async def test_an_answer_that_comes_twice(plain: Kept) -> None:
    state, process = await plain.ask("twice")
    assert state == "twice"
    await plain.until(lambda: plain.heard.texts)
    assert "which nobody asked for" in plain.heard.texts[0]
    state, other = await plain.ask("shut")
    assert state == "shut"
    assert other != process


async def test_one_that_is_wrong_is_started_again(plain: Kept) -> None:
    _, process = await plain.ask("open")
    for action, text in (
        ("nonsense", "not a line with its state"),
        ("ends", "ended in place of an answer"),
        ("long", "more than 65536 bytes"),
    ):
        await plain.refused(action, text)
        state, other = await plain.ask("shut")
        assert state == "shut"
        assert other != process


async def test_one_that_does_not_tell_is_started_again(kept: Kept) -> None:
    _, process = await kept.ask("open")
    (kept.folder / "mute").touch()
    await kept.give_up(kept.tell(), "?")
    (kept.folder / "mute").unlink()
    assert (await kept.tell()) != process


async def test_one_who_waits_for_his_turn_ends_nothing(kept: Kept) -> None:
    _, process = await kept.ask("open")
    first = asyncio.ensure_future(kept.ask("slow"))
    await kept.until((kept.folder / "heard-slow").exists)
    second = asyncio.ensure_future(kept.tell())
    await asyncio.sleep(0)
    second.cancel()
    (kept.folder / "go").touch()
    assert (await first) == ("slow", process)


# A command whose lines have numbers.


async def test_a_late_answer_by_its_number(numbered: Kept) -> None:
    _, process = await numbered.ask("open")
    await numbered.give_up(numbered.ask("slow"), "slow")
    assert numbered.heard.texts == []
    (numbered.folder / "go").touch()
    assert (await numbered.ask("shut")) == ("shut", process)
    assert numbered.heard.texts == ["answered to 2, which nobody waits for"]


async def test_an_answer_that_comes_twice_by_its_number(numbered: Kept) -> None:
    state, process = await numbered.ask("twice")
    assert state == "twice"
    assert (await numbered.ask("shut")) == ("shut", process)
    assert numbered.heard.texts == ["answered to 1, which nobody waits for"]


async def test_one_that_writes_wrong_numbers_is_started_again(numbered: Kept) -> None:
    _, process = await numbered.ask("open")
    await numbered.refused("nonsense", "not a line with its state")
    assert (await numbered.ask("shut")) == ("shut", process)
    await numbered.refused("nobody's", "begins with no number")
    state, other = await numbered.ask("shut")
    assert state == "shut"
    assert other != process


async def test_it_moves_by_itself(numbered: Kept) -> None:
    state, _ = await numbered.ask("unasked")
    assert state == "unasked"
    assert numbered.heard.places == [("window", Answer("ajar", "day"))]
