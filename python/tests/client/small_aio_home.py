"""The small home of `small_home` behind the dispatcher for asyncio, in virtual time."""

from __future__ import annotations

import asyncio
from collections.abc import Mapping
from dataclasses import dataclass, field, replace
from types import SimpleNamespace
from typing import Any

from roman_client import AlreadyFrozen, Call, DeviceFailed, InDoubt, NoComposition, NotFrozen, aio
from roman_client.aio.dispatcher import _nothing
from roman_client.devices import Outcome, Told
from roman_client.effects import Commit, Restore
from roman_client.protocol import Event, Tell
from roman_client.snapshots import Snapshot
from roman_client.store import Store, Stored

from .small_home import DOCUMENT, Manner, Program, Run, Universe
from .virtual_time import run

DEADLINE = 10.0
"""The number of seconds that a device may take."""

ON_ITS_WAY = 1.0
"""The number of seconds that a call takes to a device, and its answer back."""

TRIES = 50
"""The number of times that a person tries a step, each time a second later."""


class Disk(Store):
    """A store in a universe. If it is slow, a thread makes its commits."""

    def __init__(self, home: AioRun, stored: Stored | None, slow: bool) -> None:
        self.path = "the disk"  # type: ignore[assignment]
        self.journal = None
        self.stored = stored
        self._slow = slow
        self._home = home
        self._begun: Commit

    @property
    def pace(self) -> float:
        return 1.0 if self._slow else 0.0

    def begin(self, stored: Stored) -> None:
        self._home.universe = replace(self._home.universe, disk=stored)

    def write(self, position: Any, entries: Any) -> None:
        self._begun = Commit(position, tuple(entries))

    def sync(self) -> None:
        self._home.commit(self._begun)

    def close(self) -> None:
        pass


class Talk:
    """The session of a home. A call that is cancelled ends the program."""

    def __init__(self, home: AioRun) -> None:
        self.core = SimpleNamespace(document=DOCUMENT)
        self._home = home

    async def _told(self, event: Event[Any]) -> Any:
        return await self._say(Tell(event))

    async def restore(self, snapshot: Snapshot) -> Any:
        return await self._say(Restore(snapshot))

    async def _say(self, effect: Tell[Any] | Restore) -> Any:
        try:
            await asyncio.sleep(0)
            value = self._home.talk(effect)
            await asyncio.sleep(0)
            return value
        except asyncio.CancelledError:
            self._home.program = Program()
            raise


class Device(aio.Device):
    """A device of a universe. A call and its answer take their time."""

    timeout = DEADLINE

    def __init__(self, home: AioRun, manner: Manner) -> None:
        self.repeatable = manner.repeatable
        self.late_is_doubt = manner.late_is_doubt
        self._home = home
        self._manner = manner

    async def serve(self, call: Call) -> Outcome:
        # A mute device can't refuse calls that reach it when it is back.
        self._home.coming = call if self._manner.tells == "tells" else None
        try:
            await asyncio.sleep(ON_ITS_WAY)
            self._home.coming = None
            late, state = self._home.act(call)
            await asyncio.sleep(2 * DEADLINE if late else ON_ITS_WAY)
            return state, "e"
        finally:
            self._home.coming = None

    async def state(self, call: Call) -> Told:
        await asyncio.sleep(ON_ITS_WAY)
        told: Told = self._home.ask(call)
        await asyncio.sleep(ON_ITS_WAY)
        return told


@dataclass
class AioRun(Run):
    """A home that continues in a universe, by the dispatcher for asyncio. `left` has the universes that an end before
    each round of the loop would leave. In the rounds `cancels`, an open step is cancelled. With `delays`, a person of
    its own makes each request, so many seconds after the start, and another person makes the changes."""

    cancels: frozenset[int] = frozenset()
    slow: bool = False
    delays: tuple[float, ...] = ()
    rounds: int = 0
    coming: Call | None = None
    steps: list[asyncio.Task[str]] = field(default_factory=list)
    thawing: asyncio.Lock = field(default_factory=asyncio.Lock)

    def __post_init__(self) -> None:
        self.program = Program()
        self.program.restore(DOCUMENT, None, None)
        self.dispatcher = aio.Dispatcher(
            Talk(self),  # type: ignore[arg-type]
            {name: Device(self, each) for name, each in self.manners.items()},
            store=Disk(self, self.universe.disk, self.slow),
        )
        self.core = self.dispatcher._core  # type: ignore[assignment]

    def go(self) -> None:
        run(self.live(), self.each_round)

    def each_round(self) -> None:
        """Stores the universe that an end would leave now, and cancels an open step."""
        self.rounds += 1
        self.left.append(self.universe)
        if self.coming is not None:
            clock = self.universe.devices[self.coming.service]
            on_its_way = replace(clock, coming=(*clock.coming, self.coming))
            self.left.append(self.universe.with_device(self.coming.service, on_its_way))
        if self.rounds in self.cancels and self.steps:
            self.steps[self.rounds % len(self.steps)].cancel()

    async def live(self) -> None:
        """Takes the steps that aren't acknowledged, until all devices are back."""
        await self.dispatcher.begin()
        requests = [number for number, step in enumerate(self.script) if self.delays and step.startswith("request")]
        others = [number for number in range(len(self.script)) if number not in requests]
        delayed = [self.take_all([number], delay) for number, delay in zip(requests, self.delays)]
        await asyncio.gather(self.take_all(others, 0.0), *delayed)
        self.arrive()  # Calls that were on their way arrive.
        await self.dispatcher._in_turn(_nothing)
        await self.return_failed()

    async def take_all(self, numbers: list[int], delay: float) -> None:
        """Takes steps one after the other, unless they are acknowledged."""
        await asyncio.sleep(delay)
        for number in numbers:
            if str(number) not in dict(self.universe.told):
                told = await self.take_surely(self.script[number])
                self.universe = replace(
                    self.universe, step=self.universe.step + 1, told=(*self.universe.told, (str(number), told))
                )

    async def take_surely(self, step: str) -> str:
        """Takes a step, and repeats it if it was cancelled."""
        while True:
            task = asyncio.ensure_future(self.take_step(step))
            self.steps.append(task)
            try:
                return await task
            except asyncio.CancelledError:
                continue
            finally:
                self.steps.remove(task)

    async def take_step(self, step: str) -> str:
        """Takes a step, and repeats it if that may help. Returns the answer."""
        word, _, rest = step.partition(" ")
        for _ in range(TRIES):
            try:
                if word == "request":
                    done = await self.dispatcher.request("tick", rest)
                    return f"{done.service} {done.state}"
                async with self.thawing:
                    if word == "freeze":
                        await self.dispatcher.freeze(rest)
                    else:
                        await self.dispatcher.thaw(rest, self.universe.devices[rest].state)
                return "changed"
            except (AlreadyFrozen, NotFrozen):
                return "changed"
            except InDoubt:
                return "in doubt"
            except NoComposition:
                await self.return_failed()
                await asyncio.sleep(1.0)
        raise AssertionError(f"{step} comes to no end")

    async def return_failed(self) -> None:
        """Thaws the services that aren't frozen by hand, in the states of their devices."""
        for service in self.manners:
            async with self.thawing:  # It may be frozen by hand meanwhile.
                if service in self.core.failed:
                    await self.dispatcher.thaw(service, self.universe.devices[service].state)

    def act(self, call: Call) -> tuple[bool, str]:
        """Carries out a call that has reached a device. Returns whether its answer is late, and its state."""
        manner, clock = self.manners[call.service], self.universe.devices[call.service]
        clock = replace(clock, asked=clock.asked + 1)
        failed, late = clock.asked <= manner.fails, clock.asked <= manner.late
        if not failed and (not late or manner.acts_late):
            clock = clock.act(call)
        self.universe = self.universe.with_device(call.service, clock)
        if failed:
            raise DeviceFailed("out of order")
        return late, clock.state


def lived(manners: Mapping[str, Manner], universe: Universe, script: tuple[str, ...], **words: Any) -> AioRun:
    """Runs a home in a universe to its end, and checks it."""
    home = AioRun(universe, manners, script, **words)
    home.go()
    home.check()
    return home
