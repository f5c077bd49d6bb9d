"""Homes in this process with simulated devices."""

from __future__ import annotations

import asyncio
import contextlib
from collections.abc import AsyncIterator, Callable
from pathlib import Path
from typing import Any
from unittest import mock

from roman_client import Call
from roman_live import fleet
from roman_live.config import HomeFile
from roman_live.devices import Answer, Listener, Reach
from roman_live.home import Home

from . import PROGRAM, sample
from .machinery import PATIENCE

START = {"window": "shut", "ceiling": "off", "kettle": "empty"}
AFTER = {
    ("window", "brighten"): "open",
    ("window", "dim"): "shut",
    ("ceiling", "brighten"): "on",
    ("ceiling", "dim"): "off",
    ("kettle", "boil"): "hot",
    ("kettle", "pour"): "empty",
}


class Played(Reach):
    """A device of the sample home. It acts when `gate` is set, or raises `error`. `told` is its answer about a call."""

    reached = "played"

    def __init__(self, service: str, listener: Listener) -> None:
        super().__init__(service, listener)
        self.state = START.get(service, "off")
        self.gate = asyncio.Event()
        self.gate.set()
        self.asked = asyncio.Event()
        self.calls: list[Call] = []
        self.error: Exception | None = None
        self.told: Callable[[], Answer | None] = lambda: Answer(self.state)

    async def ask(self, number: int, call: Call) -> Answer:
        self.calls.append(call)
        self.asked.set()
        await self.gate.wait()
        if self.error is not None:
            raise self.error
        self.state = AFTER[self.service, call.action]
        return Answer(self.state, "day")

    async def tell(self, number: int | None, call: Call | None = None) -> Answer | None:
        return Answer(self.state) if call is None else self.told()


class Playhouse:
    """A folder with a home file. Its home can be started repeatedly, and its devices outlast the home."""

    def __init__(self, folder: Path, more: str = "", device: str = f"seconds = {PATIENCE}") -> None:
        self.devices: dict[str, Played] = {}
        self.file = folder / "home.toml"
        head = f'document = "{sample("home.json")}"\nprogram = "{PROGRAM}"\n{more}\n[journal]\npath = "home.db"\n'
        tables = (f'[devices.{name}]\nreach = "http"\nurl = "http://x"\n{device}\n' for name in START)
        self.file.write_text(head + "".join(tables), encoding="utf-8")

    def make(self, service: str, entry: Any, listener: Listener, *words: Any) -> Reach:
        """Makes a device, or sets another listener of an existing one."""
        device = self.devices.setdefault(service, Played(service, listener))
        device.listener = listener
        return device

    @contextlib.asynccontextmanager
    async def home(self) -> AsyncIterator[Home]:
        """Runs a home."""
        with mock.patch.object(fleet, "make_reach", self.make):
            home = await Home.start(HomeFile.read(self.file))
        try:
            yield home
        finally:
            await home.close()


async def until(holds: Callable[[], Any]) -> None:
    """Waits until a condition holds."""
    async with asyncio.timeout(PATIENCE):
        while not holds():
            await asyncio.sleep(0.01)
