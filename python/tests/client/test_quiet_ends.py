"""Sessions and devices that end at any time. asyncio never reports an error that was never retrieved."""

from __future__ import annotations

import asyncio
import contextlib
import gc
import logging
import os
import signal
import sys
from collections.abc import Awaitable, Callable, Coroutine
from pathlib import Path
from typing import Any

import pytest

from roman_client import DeviceFailed, SessionOver, StoreFailed, aio, protocol
from roman_client.aio import dispatcher as dispatching
from roman_client.aio import streams

from . import PROGRAM, sample
from .test_pipes import BEGIN, LONG


def reports(work: Callable[[], Coroutine[Any, Any, None]], quiet: bool = True) -> list[str]:
    """The reports of asyncio on a program, up to its end. Log messages are off, because they would keep the errors."""
    found: list[str] = []
    logging.disable(logging.CRITICAL if quiet else logging.NOTSET)

    async def watched() -> None:
        loop = asyncio.get_running_loop()
        loop.set_exception_handler(lambda loop, context: found.append(f"{context['message']}: {context}"))
        await work()
        for _ in range(3):
            gc.collect()
            await asyncio.sleep(0)

    try:
        asyncio.run(watched())
    finally:
        logging.disable(logging.NOTSET)
    gc.collect()
    return found


def home(**words: Any) -> aio.Session:
    return aio.Session(sample("home.json"), program=PROGRAM, timeout=60, **words)


async def killed_before_a_line(session: aio.Session) -> None:
    os.kill(session.pid, signal.SIGKILL)
    with contextlib.suppress(SessionOver):
        await session.report()
        await session.report()


async def stopped_before_a_long_line(session: aio.Session) -> None:
    """The pipe is full when the program is killed."""
    os.kill(session.pid, signal.SIGSTOP)
    asking = asyncio.ensure_future(session.jump("window", "x" * 1_000_000))
    assert isinstance(session._streams, streams.Streams)
    while not session._streams._input.get_write_buffer_size():
        await asyncio.sleep(0)
    os.kill(session.pid, signal.SIGKILL)
    with contextlib.suppress(SessionOver):
        await asking


async def cancelled(session: aio.Session) -> None:
    asking = asyncio.ensure_future(session.report())
    await asyncio.sleep(0)
    asking.cancel()
    with contextlib.suppress(asyncio.CancelledError):
        await asking


async def killed_at_its_end(session: aio.Session) -> None:
    assert isinstance(session._streams, streams.Streams)
    os.kill(session.pid, signal.SIGKILL)
    session._streams._input.write(b"report\n" * 10_000)


@pytest.mark.parametrize(
    "end",
    [killed_before_a_line, stopped_before_a_long_line, cancelled, killed_at_its_end],
    ids=["killed", "stopped", "cancelled", "killed at its end"],
)
def test_a_session(end: Callable[[aio.Session], Awaitable[None]]) -> None:
    async def work() -> None:
        async with home() as session:
            await end(session)

    assert reports(work) == []


@pytest.mark.parametrize("turns", range(1, 9))
def test_a_start_that_is_cancelled(turns: int) -> None:
    """The next program has a pipe with the same number."""

    async def work() -> None:
        starting = asyncio.ensure_future(home().begin())
        for _ in range(turns):
            await asyncio.sleep(0)
        starting.cancel()
        with contextlib.suppress(asyncio.CancelledError):
            await starting
        async with asyncio.timeout(60), home() as session:
            await session.report()

    assert reports(work) == []


def test_a_program_that_never_reads() -> None:
    async def work() -> None:
        async with aio.Session("system", program=[sys.executable, "-c", f"{BEGIN}time.sleep({LONG})"]) as session:
            assert isinstance(session._streams, streams.Streams)
            session._streams._timeout = 0.1
            with contextlib.suppress(SessionOver):
                await session.jump("window", "x" * 1_000_000)

    assert reports(work) == []


def test_a_device_that_fails_as_its_request_is_cancelled() -> None:
    async def work() -> None:
        gate = asyncio.Event()

        async def fails(action: str) -> tuple[str, str]:
            await gate.wait()
            asyncio.get_running_loop().call_soon(request.cancel)
            raise DeviceFailed("no answer")

        async with home() as session:
            names = [each.name for each in session.opening.services]
            async with aio.Dispatcher(session, dict.fromkeys(names, aio.device(fails, timeout=60))) as dispatcher:
                request = asyncio.ensure_future(dispatcher.request("brighten"))
                while dispatcher.under_way is None or dispatcher._inside is None:
                    await asyncio.sleep(0)
                gate.set()
                with contextlib.suppress(asyncio.CancelledError):
                    await request

    assert reports(work) == []


def test_a_change_that_is_posted_to_a_program_that_has_ended(caplog: pytest.LogCaptureFixture) -> None:
    async def work() -> None:
        async with home() as session:
            names = [each.name for each in session.opening.services]
            async with aio.Dispatcher(session, dict.fromkeys(names, _works)) as dispatcher:
                os.kill(session.pid, signal.SIGKILL)
                with contextlib.suppress(SessionOver):
                    await dispatcher.post(protocol.jumpenv("dusk"))
                dispatcher.core._torn = True
                dispatcher.core._open = "brighten"
                dispatcher.post(protocol.jumpenv("day"))

    assert reports(work, quiet=False) == []
    assert "what was posted waits for the next turn" in caplog.text


def test_a_full_disk_as_a_request_is_cancelled(tmp_path: Path) -> None:
    async def work() -> None:
        started = asyncio.get_running_loop()
        begun = asyncio.Event()

        def full() -> None:
            started.call_soon_threadsafe(begun.set)
            raise StoreFailed("the disk is full")

        writing = asyncio.ensure_future(dispatching._in_a_thread(full))
        await begun.wait()
        writing.cancel()
        with contextlib.suppress(asyncio.CancelledError, StoreFailed):
            await writing

    assert reports(work) == []


async def _works(action: str) -> tuple[str, str]:
    return "open", "day"
