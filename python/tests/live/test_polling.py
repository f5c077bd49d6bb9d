"""Polls: the answers and errors that count. No error ends a poll."""

from __future__ import annotations

import asyncio

import pytest

from roman_client import DeviceFailed
from roman_live.devices import Answer
from roman_live.errors import NoSpace
from roman_live.polling import poll

from .machinery import PATIENCE

CALLED = "called"
"""A call is made while the next question is open."""


class Polled:
    """A device with these answers and errors to polls. It records the reports of the poll."""

    def __init__(self, *answers: str | Exception) -> None:
        self.answers = list(answers)
        self.calls: int | None = 0
        self.heard: list[str] = []
        self.asked = asyncio.Event()

    async def told(self) -> Answer | None:
        if not self.answers:
            self.asked.set()
            await asyncio.Event().wait()
        answer = self.answers.pop(0)
        if answer == CALLED:
            assert self.calls is not None
            self.calls += 1
            answer = self.answers.pop(0)
        if isinstance(answer, Exception):
            raise answer
        return Answer(answer) if answer else None

    async def run(self) -> list[str]:
        """Polls the device until all answers are used, and returns the reports."""
        work = poll(
            0.0,
            self.told,
            lambda: self.calls,
            lambda answer: self.heard.append(answer.state),
            lambda error: self.heard.append(f"lost: {error}"),
        )
        polling = asyncio.create_task(work)
        async with asyncio.timeout(PATIENCE):
            await self.asked.wait()
        polling.cancel()
        return self.heard


GONE = DeviceFailed("gone")


@pytest.mark.parametrize(
    "answers, heard",
    [
        (["on", "off"], ["on", "off"]),
        (["on", "", "off"], ["on", "off"]),
        ([GONE, GONE, "on", GONE], ["lost: gone", "on", "lost: gone"]),
        ([NoSpace("no files"), "on", NoSpace("no files")], ["on"]),
        ([CALLED, "on", "off"], ["off"]),
        ([CALLED, GONE, GONE, "on"], ["lost: gone", "on"]),
        ([RecursionError("too deep"), "on"], ["lost: too deep", "on"]),
    ],
)
async def test_what_counts(answers: list[str | Exception], heard: list[str]) -> None:
    assert await Polled(*answers).run() == heard


async def test_one_with_an_open_call_is_not_asked() -> None:
    device = Polled("on")
    device.calls = None
    running = asyncio.create_task(device.run())
    for _ in range(10):
        await asyncio.sleep(0)
    assert device.answers == ["on"]
    device.calls = 1
    assert await running == ["on"]
