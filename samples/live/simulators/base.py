"""What all simulated devices share: faults by chance, and a log of what they did."""

from __future__ import annotations

import asyncio
import json
import random
from collections.abc import Callable, Coroutine
from dataclasses import dataclass
from pathlib import Path
from typing import Protocol


@dataclass(frozen=True)
class Settings:
    """How the devices behave: `failures` is the share of commands at which something goes wrong, `pace` how many
    seconds an action takes at most, and `late` after how many seconds a late one is done."""

    failures: float = 0.0
    pace: float = 0.8
    late: float = 8.0
    seed: int = 1
    log: Path | None = None
    broker: int = 1883
    host: str = "127.0.0.1"


class Device(Protocol):
    """A simulated device."""

    async def start(self) -> None:
        """Has it run."""

    async def stop(self) -> None:
        """Ends it."""


class World:
    """The chance and the log of one device."""

    def __init__(self, name: str, settings: Settings) -> None:
        self.name = name
        self.settings = settings
        self.chance = random.Random(f"{settings.seed} {name}")
        self._tasks: set[asyncio.Task[None]] = set()

    def happens(self, share: float) -> bool:
        """Whether something happens that happens in this share of all cases."""
        return self.chance.random() < share

    def fault(self) -> str | None:
        """What goes wrong with a command, if anything does: the device is deaf, acts late, or starts again."""
        return self.chance.choice(("deaf", "late", "restart")) if self.happens(self.settings.failures) else None

    def delay(self) -> float:
        """How many seconds an action takes."""
        return self.chance.uniform(0.1, 1.0) * self.settings.pace

    def note(self, message: str, by: str) -> None:
        """Writes the state of the device into the log, after a command or after a move by hand."""
        if self.settings.log is not None:
            with self.settings.log.open("a", encoding="utf-8") as log:
                log.write(json.dumps({"device": self.name, "message": message, "by": by}) + "\n")

    def soon(self, work: Coroutine[object, object, None]) -> None:
        """Has something done beside."""
        task = asyncio.ensure_future(work)
        self._tasks.add(task)
        task.add_done_callback(self._tasks.discard)

    async def later(self, seconds: float, call: Callable[[], None]) -> None:
        """Calls something after a while."""
        await asyncio.sleep(seconds)
        call()

    def stop(self) -> None:
        """Drops what is still to be done."""
        for task in self._tasks:
            task.cancel()
