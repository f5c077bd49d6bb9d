"""A call that is interrupted raises the interrupt, also if an error follows while it is handled: the program can't be
started again, or the disk is full."""

from __future__ import annotations

import asyncio
import contextlib
import threading
from collections.abc import Iterator
from dataclasses import dataclass, replace
from functools import partial
from typing import Any

import pytest

from roman_client import StoreFailed, protocol
from roman_client.aio.dispatcher import _in_a_thread
from roman_client.aio.streams import happens
from roman_client.core import Ahead, Posted
from roman_client.effects import Commit, Restore
from roman_client.position import Frozen
from roman_client.protocol import Effect, Event, Tell

from .small_aio_home import AioRun, lived
from .small_home import Manner, Program, Run, beginning
from .test_every_point import BOTH, HOMES, REQUESTS

NO_PROGRAM = "the program can't be started"

FIRST = 3
"""The first effect after the begin of a home."""


class Interrupted(Exception):
    """A turn raised the interrupt."""


@dataclass
class InterruptedRun(Run):
    """A home in which the effect number `at` is interrupted, before or after it is performed (`is_done`). The effect
    that comes so much `later` in the same turn fails, if it is a line to the program or a commit."""

    at: int = 0
    interrupt: type[BaseException] = KeyboardInterrupt
    is_done: bool = False
    later: int = 1
    since: int | None = None

    def perform(self, steps: protocol.Steps[Any]) -> Any:
        """Takes the steps of a turn. One that is interrupted raises the interrupt."""
        self.since = None
        try:
            effect = next(steps)
            while True:
                try:
                    result = self.one(effect)
                except BaseException as error:
                    effect = steps.throw(error)
                else:
                    effect = steps.send(result)
        except StopIteration as end:
            assert self.since is None, "the interrupt is lost"
            return end.value
        except self.interrupt as error:
            raise Interrupted() from error
        except Exception as error:
            assert self.since is None, f"the interrupt is hidden by {error!r}"
            raise

    def one(self, effect: Effect) -> Any:
        """Performs one effect, unless it fails or is interrupted."""
        if self.since is not None:
            self.since += 1
            if self.since == self.later:
                self.fail(effect)
        if self.effects + 1 != self.at:
            return super().one(effect)
        if self.is_done:
            super().one(effect)
        else:
            self.effects += 1
        if isinstance(effect, (Tell, Restore)):
            self.program = Program()
        self.since = 0
        raise self.interrupt

    def fail(self, effect: Effect) -> None:
        """Raises the error of an effect that may have one."""
        if isinstance(effect, (Tell, Restore)):
            self.program = Program()
            raise FileNotFoundError(NO_PROGRAM)
        if isinstance(effect, Commit):
            raise StoreFailed("the disk is full")

    def take(self, step: str) -> str:
        while True:
            try:
                return super().take(step)
            except Interrupted:
                continue


INTERRUPTS = (KeyboardInterrupt, asyncio.CancelledError, SystemExit)


def interrupted(manners: dict[str, Manner], script: tuple[str, ...], effects: int) -> Iterator[InterruptedRun]:
    """Homes that are interrupted at each of so many effects, each with an error at one of the next three effects."""
    for at in range(FIRST, effects + 1):
        for is_done in (False, True):
            for later in range(1, 4):
                interrupt = INTERRUPTS[at % len(INTERRUPTS)]
                yield InterruptedRun(
                    beginning(manners), manners, script, at=at, interrupt=interrupt, is_done=is_done, later=later
                )


@pytest.mark.parametrize("script", [REQUESTS, BOTH], ids=["requests", "both"])
@pytest.mark.parametrize("home", HOMES)
def test_an_interrupt_is_raised_though_an_error_follows(home: str, script: tuple[str, ...]) -> None:
    manners = dict(zip(("t1", "t2"), HOMES[home]))
    plain = Run(beginning(manners), manners, script)
    plain.go()
    for run in interrupted(manners, script, plain.effects):
        run.go()
        run.check()


def test_a_change_that_was_posted_is_made_after_an_interrupt() -> None:
    """Its future has a value, or StoreFailed, but not the interrupt of another call."""
    manners = {"t1": Manner(), "t2": Manner()}
    for run in interrupted(manners, (), 20):
        run.begin()
        settled: list[tuple[str, Any, BaseException | None]] = []
        events: tuple[Event[Any], ...] = (protocol.jump("t1", "b"), protocol.freeze("t2"), protocol.jump("t1", "a"))
        for event in events:
            settle = partial(note, settled, event.line)
            run.core.inbox.append(Posted(event, Frozen.BY_HAND, None, settle))
        assert run.take("request one") in ("t1 b", "in doubt")
        assert [line for line, _, _ in settled] == ["jump t1 b", "freeze t2", "jump t1 a"]
        assert all(error is None or isinstance(error, StoreFailed) for _, _, error in settled)
        assert run.core.position.frozen(Frozen.BY_HAND) == {"t2"}
        assert run.universe.disk is not None and run.universe.disk.position == run.core.position


def note(settled: list[tuple[str, Any, BaseException | None]], line: str, value: Any, error: Any) -> None:
    """Notes how a posted change ended."""
    settled.append((line, value, error))


@pytest.mark.parametrize("manner", [Manner(), Manner("mute", repeatable=True)], ids=["one that tells", "repeatable"])
def test_a_record_that_is_interrupted_asks_no_device(manner: Manner) -> None:
    """Its number isn't that of a call that the device has refused."""
    manners = {"t1": manner, "t2": Manner()}
    for run in interrupted(manners, (), 12):
        run.begin()
        with contextlib.suppress(Interrupted):
            run.perform(run.core.turn(lambda: run.core.record("tick", "t1", ("b", "e"), "one")))
        before, after = ("b", "a") if run.core.position.served else ("a", "b")
        run.universe = run.universe.with_device("t1", replace(run.universe.devices["t1"], state=before))
        assert run.take("request two") in (f"t1 {after}", "in doubt")
        assert run.universe.devices["t1"].asked <= 1


def test_a_request_whose_end_is_written_later_ends_despite_an_interrupt() -> None:
    manners = {"t1": Manner(), "t2": Manner()}
    for run in interrupted(manners, (), 20):
        run.begin()
        ends: list[BaseException | None] = []
        ahead = Ahead(lambda done, error: ends.append(error), lambda: True)
        with contextlib.suppress(Interrupted):
            run.perform(run.core.turn(lambda: run.core.request("tick", "one", None, ahead)))
        is_owed = run.core.owes
        for _ in range(3):
            with contextlib.suppress(Interrupted):
                run.perform(run.core.turn(run.core.flush))
        assert len(ends) == is_owed and not run.core.owes


@dataclass
class CancelledRun(AioRun):
    """A home behind the dispatcher for asyncio. The first line to the program fails after a step is cancelled."""

    fails: bool = False

    def each_round(self) -> None:
        super().each_round()
        self.fails = self.fails or self.rounds in self.cancels and bool(self.steps)

    def talk(self, effect: Tell[Any] | Restore) -> Any:
        if self.fails:
            self.fails, self.program = False, Program()
            raise FileNotFoundError(NO_PROGRAM)
        return super().talk(effect)

    async def take_step(self, step: str) -> str:
        task = asyncio.current_task()
        assert task is not None
        while True:
            try:
                return await super().take_step(step)
            except FileNotFoundError:
                assert not task.cancelling(), "the cancellation is hidden"

    def arrive(self) -> None:
        super().arrive()
        self.fails = False


@pytest.mark.parametrize("slow", [False, True], ids=["at once", "in a thread"])
@pytest.mark.parametrize("home", HOMES)
def test_a_cancelled_request_is_cancelled_though_an_error_follows(home: str, slow: bool) -> None:
    manners = dict(zip(("t1", "t2"), HOMES[home]))
    plain = lived(manners, beginning(manners), REQUESTS, slow=slow)
    for at in range(plain.rounds + 1):
        run = CancelledRun(beginning(manners), manners, REQUESTS, slow=slow, cancels=frozenset({at}))
        run.go()
        run.check()


async def test_a_write_in_a_thread_ends_though_it_is_cancelled_twice() -> None:
    """So no other write begins beside it."""
    goes_on, ended = threading.Event(), threading.Event()

    def write() -> None:
        goes_on.wait()
        ended.set()

    writing = asyncio.create_task(_in_a_thread(write))
    try:
        for _ in range(3):
            await asyncio.sleep(0)
            writing.cancel()
        await asyncio.sleep(0)
        assert not writing.done()
    finally:
        goes_on.set()
    with pytest.raises(asyncio.CancelledError):
        await writing
    assert ended.is_set()


async def test_a_cancellation_that_comes_with_an_event_is_not_lost() -> None:
    for rounds in range(4):
        event = asyncio.Event()
        waiting = asyncio.create_task(happens(event, None))
        await asyncio.sleep(0)
        event.set()
        for _ in range(rounds):
            await asyncio.sleep(0)
        is_open = waiting.cancel()
        await asyncio.wait({waiting})
        assert waiting.cancelled() == is_open


async def test_an_event_is_waited_for_after_a_cancellation() -> None:
    async def wait() -> bool:
        try:
            await asyncio.Event().wait()
        finally:
            return await happens(asyncio.Event(), 0.01)

    waiting = asyncio.create_task(wait())
    await asyncio.sleep(0)
    waiting.cancel()
    assert not await waiting
