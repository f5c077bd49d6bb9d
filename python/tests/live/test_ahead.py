"""Requests that wait. The end of one is written together with the call of the next one."""

from __future__ import annotations

import asyncio
from collections.abc import Sequence
from pathlib import Path
from typing import Any
from unittest import mock

import pytest

from roman_client import NotAllowed, StoreFailed
from roman_client.store import CallBegun, CallEnded, Entry, Store, open_read_only

from .played import Playhouse
from .test_requests import run

WRITE = Store.write

CIRCLE = ("brighten", "boil", "pour", "dim")


class Commits:
    """The commits of a store. `full` has the numbers of those at which the disk is full."""

    def __init__(self, full: Any = lambda kinds: False) -> None:
        self.kinds: list[tuple[type, ...]] = []
        self.full = full

    def __call__(self, store: Store, position: Any, entries: Sequence[Entry]) -> None:
        kinds = tuple(map(type, entries))
        if self.full(kinds):
            raise StoreFailed("the disk is full")
        WRITE(store, position, entries)
        self.kinds.append(kinds)


def watched(commits: Commits) -> Any:
    """Passes the commits of all stores to `commits`."""
    return mock.patch.object(Store, "write", lambda store, *words: commits(store, *words))


async def asked(home: Any, window: Any, *actions: str) -> list[Any]:
    """The results of requests that all wait while the window is at work on the first one."""
    window.gate.clear()
    requests = [asyncio.ensure_future(home.requests.serve(action)) for action in actions]
    await window.asked.wait()
    while home.requests.open < len(actions):
        await asyncio.sleep(0)
    window.gate.set()
    with mock.patch("roman_live.ahead.LATEST", 1000.0):
        results: list[Any] = await asyncio.gather(*requests, return_exceptions=True)
        return results


def test_they_share_a_sync(tmp_path: Path) -> None:
    async def test() -> None:
        playhouse = Playhouse(tmp_path)
        commits = Commits()
        async with playhouse.home() as home:
            with watched(commits):
                done = await asked(home, playhouse.devices["window"], *CIRCLE)
            assert [each["action"] for each in done] == list(CIRCLE)
            numbers = [each["id"] for each in done]
            assert numbers == list(range(numbers[0], numbers[0] + 4))
            assert commits.kinds == [(CallBegun,), *[(CallEnded, CallBegun)] * 3, (CallEnded,)]
            texts = [each.kind for each in home.events.after(0) if each.kind in ("asked", "served")]
            assert texts == ["asked", "served"] * 4
        with open_read_only(tmp_path / "home.db") as database:
            assert database.execute("SELECT requested, result FROM calls").fetchall() == [
                (action, "served") for action in CIRCLE
            ]

    run(test())


def test_the_disk_is_full_for_both(tmp_path: Path) -> None:
    async def test() -> None:
        playhouse = Playhouse(tmp_path)
        commits = Commits(lambda kinds: kinds == (CallEnded, CallBegun))
        async with playhouse.home() as home:
            with watched(commits):
                done, refused = await asked(home, playhouse.devices["window"], "brighten", "boil")
            # The request that was served is answered, and written later. No device is asked for the next one.
            assert done["served_by"] == "window"
            assert isinstance(refused, StoreFailed) and refused.done is None
            assert playhouse.devices["kettle"].calls == []
            assert (await home.requests.serve("boil"))["served_by"] == "kettle"
        with open_read_only(tmp_path / "home.db") as database:
            calls = database.execute("SELECT requested, result FROM calls").fetchall()
        assert calls == [("brighten", "served"), ("boil", "served")]

    run(test())


def test_the_next_one_is_refused(tmp_path: Path) -> None:
    async def test() -> None:
        playhouse = Playhouse(tmp_path)
        async with playhouse.home() as home:
            done, refused = await asked(home, playhouse.devices["window"], "brighten", "pour")
            assert done["served_by"] == "window"
            assert isinstance(refused, NotAllowed)

    run(test())


def test_the_next_one_never_comes(tmp_path: Path) -> None:
    async def test() -> None:
        async with Playhouse(tmp_path).home() as home:
            commits = Commits()
            with watched(commits):
                written = await home.dispatcher.serve("brighten", None, None, lambda: True)
                assert commits.kinds == [(CallBegun,)]
                assert (await written).service == "window"
            assert commits.kinds == [(CallBegun,), (CallEnded,)]

    run(test())


def test_the_same_key_is_answered_when_it_is_written(tmp_path: Path) -> None:
    async def test() -> None:
        async with Playhouse(tmp_path).home() as home:
            commits = Commits()
            with watched(commits):
                written = await home.dispatcher.serve("brighten", "k", None, lambda: True)
                again = await home.dispatcher.serve("brighten", "k", None, lambda: True)
                assert len(commits.kinds) == 2
                assert await again is await written

    run(test())


def test_a_home_that_ends_writes_what_is_owed(tmp_path: Path) -> None:
    async def test() -> None:
        with mock.patch("roman_live.ahead.LATEST", 1000.0):
            async with Playhouse(tmp_path).home() as home:
                written = await home.dispatcher.serve("brighten", None, None, lambda: True)
            assert (await written).service == "window"

    run(test())


def test_only_a_request_that_is_alone_lets_others_come(tmp_path: Path) -> None:
    async def test() -> None:
        async with Playhouse(tmp_path).home() as home:
            with mock.patch.object(Store, "pace", 1.0), mock.patch.object(
                asyncio, "sleep", wraps=asyncio.sleep
            ) as sleep:
                first = await home.dispatcher.serve("brighten", None, None, lambda: True)
                assert mock.call(0) not in sleep.mock_calls
                second = await home.dispatcher.serve("boil", None, None, lambda: False)
                assert sleep.mock_calls.count(mock.call(0)) == 1
            assert [(await each).service for each in (first, second)] == ["window", "kettle"]

    run(test())


@pytest.mark.parametrize("seconds", [0.0, 1.0])
def test_requests_at_once_see_each_other_if_the_disk_is_slow(tmp_path: Path, seconds: float) -> None:
    async def test() -> None:
        async with Playhouse(tmp_path).home() as home:
            commits = Commits()
            with watched(commits), mock.patch.object(Store, "pace", seconds):
                requests = [asyncio.ensure_future(home.requests.serve(each)) for each in ("brighten", "boil")]
                await asyncio.gather(*requests)
            assert ((CallEnded, CallBegun) in commits.kinds) or not seconds

    run(test())
