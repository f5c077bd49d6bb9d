"""`roman-live history`: the sources, services and reasons of requests, failures, and changes."""

from __future__ import annotations

import asyncio
import json
import time
from pathlib import Path
from typing import Any
from unittest import mock

import pytest

from roman_client import DeviceFailed
from roman_client.store import open_read_only
from roman_live import history, recovery
from roman_live.command_line import main
from roman_live.http_api import result

from .played import Playhouse
from .test_devices import CYCLE
from .test_load import Served


@pytest.fixture
def playhouse(tmp_path: Path) -> Playhouse:
    """A home with a request that went to two services, and a change. It ended before the service that failed was
    back."""
    playhouse = Playhouse(tmp_path)

    async def live() -> None:
        async with playhouse.home() as home:
            playhouse.devices["window"].error = DeviceFailed("stuck")
            await home.requests.serve("brighten", "monday", source="http 192.168.1.7")
            await home.fleet.freeze("kettle", "the cleaner")

    with mock.patch.object(recovery, "FIRST_PAUSE", 3600.0):
        asyncio.run(live())
    return playhouse


def shown(playhouse: Playhouse, capsys: pytest.CaptureFixture[str], *words: str) -> list[str]:
    assert main(["history", *words, str(playhouse.file)]) == 0
    return capsys.readouterr().out.splitlines()


def test_an_entry_is_one_line(playhouse: Playhouse, capsys: pytest.CaptureFixture[str]) -> None:
    """This holds for any name of the source."""

    async def live() -> None:
        async with playhouse.home() as home:
            await home.fleet.thaw("kettle", "me\n2026-01-01 kettle boil: served\x1b[2J")

    asyncio.run(live())
    text = r"  thaw kettle (by me\n2026-01-01 kettle boil: served\x1b[2J)"
    assert any(line.endswith(text) for line in shown(playhouse, capsys))


def test_for_people(playhouse: Playhouse, capsys: pytest.CaptureFixture[str]) -> None:
    texts = [line.partition("  ")[2] for line in shown(playhouse, capsys)]
    assert texts == [
        "window brighten: failed: stuck; first, of window, ceiling (by http 192.168.1.7)",
        "ceiling brighten: served, and is on; first, of ceiling (by http 192.168.1.7)",
        "freeze kettle, by hand (by the cleaner)",
    ]


def test_for_programs(playhouse: Playhouse, capsys: pytest.CaptureFixture[str]) -> None:
    values: list[dict[str, Any]] = [json.loads(line) for line in shown(playhouse, capsys, "--json")]
    assert [(each["kind"], each.get("service"), each.get("result"), each.get("key")) for each in values] == [
        ("call", "window", "failed", "monday"),
        ("call", "ceiling", "served", "monday"),
        ("change", None, None, None),
    ]
    assert all(each["time"].endswith("+00:00") for each in values)


def test_of_one_service_and_since_a_time(playhouse: Playhouse, capsys: pytest.CaptureFixture[str]) -> None:
    assert len(shown(playhouse, capsys, "--service", "kettle")) == 1
    assert len(shown(playhouse, capsys, "--service", "window")) == 1
    for other in ("Kettle", "k_ttle", "%"):
        assert shown(playhouse, capsys, "--service", other) == []
    later = time.strftime("%Y-%m-%dT%H:%M:%S", time.localtime(time.time() + 3600))
    assert shown(playhouse, capsys, "--since", later) == []
    assert len(shown(playhouse, capsys, "--since", "2026-01-01")) == 3


async def test_while_the_home_runs(playhouse: Playhouse, capsys: pytest.CaptureFixture[str]) -> None:
    async with playhouse.home() as home:
        await home.fleet.jump_environment("dusk", "a sensor")
        assert shown(playhouse, capsys)[-1].endswith("jumpenv dusk (by a sensor)")


def test_a_home_without_a_store_has_none(playhouse: Playhouse, capsys: pytest.CaptureFixture[str]) -> None:
    text = playhouse.file.read_text(encoding="utf-8")
    playhouse.file.write_text(text.replace('[journal]\npath = "home.db"\n', ""), encoding="utf-8")
    assert main(["history", str(playhouse.file)]) == 2
    assert "[journal] is missing, so there is no history" in capsys.readouterr().err


def texts(page: dict[str, Any]) -> list[str]:
    return [each["text"] for each in page["entries"]]


def pages(store: Path, length: int, service: str | None = None) -> list[str]:
    """All texts, the newest first, read by pages of that length."""
    found, before = [], ""
    while before is not None:
        page = history.page(store, service, before, length)
        assert len(page["entries"]) == length or page["before"] is None
        found += texts(page)
        before = page["before"]
    return found


@pytest.mark.parametrize("length", [1, 2, 3, 100])
def test_pages_back_to_the_beginning(playhouse: Playhouse, length: int) -> None:
    store = playhouse.file.parent / "home.db"
    assert pages(store, length) == [
        "freeze kettle, by hand (by the cleaner)",
        "ceiling brighten: served, and is on; first, of ceiling (by http 192.168.1.7)",
        "window brighten: failed: stuck; first, of window, ceiling (by http 192.168.1.7)",
    ]
    assert len(pages(store, length, "kettle")) == 1
    assert pages(playhouse.file.parent / "none.db", length) == []


def test_pages_over_several_runs_and_a_clock_that_goes_back(tmp_path: Path) -> None:
    playhouse = Playhouse(tmp_path)

    async def live(now: float) -> None:
        with mock.patch("time.time", lambda: now):
            async with playhouse.home() as home:
                for action in CYCLE * 20:
                    assert (await result(home, action, None, True))[0] == 200
                    await home.fleet.jump_environment("day")

    for now in (5e8, 4e8, 6e8):
        asyncio.run(live(now))
    with open_read_only(tmp_path / "home.db") as database:
        ((calls, changes),) = database.execute("SELECT (SELECT count(*) FROM calls), (SELECT count(*) FROM changes)")
    found = pages(tmp_path / "home.db", 7)
    assert len(found) == calls + changes > 400
    assert found == pages(tmp_path / "home.db", 50)


def test_over_http(tmp_path: Path) -> None:
    async def live() -> None:
        async with Served.begin(tmp_path) as served:
            for action in CYCLE * 30:
                assert (await result(served.home, action, None, True, source="mqtt"))[0] == 200
            client = await served.client()
            status, body = await client.get("/history")
            first = json.loads(body)
            assert (status, len(first["entries"])) == (200, history.LONGEST_PAGE)
            assert "(by mqtt)" in first["entries"][0]["text"]
            status, body = await client.get(f"/history?before={first['before']}&service=window")
            second = json.loads(body)
            assert (status, second["before"], {each["text"].split()[0] for each in second["entries"]}) == (
                200,
                None,
                {"window"},
            )
            for mark in ("x", "1", "1-", "-1-1", f"1-{2**63}", "9" * 20 + "-1"):
                assert (await client.get(f"/history?before={mark}"))[0] == 400

    asyncio.run(live())
