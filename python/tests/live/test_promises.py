"""The promises of `docs/LIVE.md` for kills. Each row of its table has tests, which are named here."""

from __future__ import annotations

import re
import threading
from collections.abc import Iterator
from pathlib import Path

import pytest

from roman_client import Document
from roman_live.config import HomeFile
from roman_live.history import entries
from roman_live.limits import LONGEST_BODY, LONGEST_NAME, Limits

from . import TOP, sample
from .machinery import PATIENCE, Live, until
from .world import HttpDevices, World

REFERENCE = (TOP / "docs" / "LIVE.md").read_text(encoding="utf-8")

EVERY_POINT = (
    "client/test_every_point.py::test_a_home_that_is_ended",
    "client/test_every_await.py::test_a_home_that_is_ended",
)

KILLS = "live/test_kills.py::test_whatever_is_killed_each_request_is_served_once"

PROMISES: dict[str, tuple[str, ...]] = {
    "a request that was answered with 200": (KILLS, *EVERY_POINT),
    "a request with a key that had no answer": (KILLS, *EVERY_POINT, "client/test_store.py::test_a_key_is_served_once"),
    "a request without a key that had no answer": (
        "live/test_promises.py::test_the_history_says_what_became_of_a_call",
    ),
    "a device that was at work": (
        "client/test_store.py::test_it_was_done",
        "client/test_store.py::test_it_was_not_done",
        "client/test_store.py::test_a_late_device_is_asked_before_another_one",
    ),
    "a device that can't tell": (
        "client/test_store.py::test_it_can_not_tell",
        "client/test_store.py::test_a_doubt_is_settled",
    ),
    "a command that was at work": (
        "live/test_processes.py::test_each_later_home_sees_it",
        "live/test_processes.py::test_it_is_ended_at_its_deadline",
        "live/test_processes.py::test_its_service_is_not_asked_before_it_has_ended",
    ),
    "a call that is still on its way to a device": (
        "live/test_late_calls.py::test_over_http",
        "live/test_late_calls.py::test_over_mqtt",
        *EVERY_POINT,
    ),
    "the states that the home believes": (KILLS, *EVERY_POINT),
    "a service that was frozen or thawed by hand, with an answer of 200": (
        *EVERY_POINT,
        "client/test_store.py::test_a_freeze_and_its_cause_are_one_commit",
    ),
    "a request that waited for its turn": ("live/test_promises.py::test_the_history_says_what_became_of_a_call",),
    "a request over MQTT with a key, acknowledged by the broker at QoS 1": (
        "live/test_queued_requests.py::test_each_is_served_once_though_the_home_is_killed",
        "live/test_queued_requests.py::test_what_waits_at_the_end_is_left_to_the_next_home",
        "live/test_queued_requests.py::test_how_old_a_request_may_be",
    ),
    "any other message over MQTT while the home is away": (
        "live/test_queued_requests.py::test_what_is_for_another_time_is_not_served",
        "live/test_queued_requests.py::test_a_home_without_a_store_has_none_kept",
        "live/test_queued_requests.py::test_a_retained_environment_is_heard_at_the_start",
    ),
}


def test_each_promise_has_its_tests() -> None:
    table = REFERENCE.partition("These rules hold")[2].partition("\n\n`samples")[0]
    rows = re.findall(r"^\| ([^|]+?) \|", table, re.MULTILINE)
    assert rows == list(PROMISES)
    for place in {each for places in PROMISES.values() for each in places}:
        file, _, name = place.partition("::")
        text = (TOP / "python" / "tests" / file).read_text(encoding="utf-8")
        assert re.search(rf"^ *(async )?def {name}\(", text, re.MULTILINE), f"{place} isn't there"


@pytest.mark.parametrize(
    ("row", "figure"),
    [
        ("open connections at the page", Limits.connections),
        ("a request, the reading of its answer", Limits.silence),
        ("a body; a message over MQTT", LONGEST_BODY),
        ("a key; a name in a body", LONGEST_NAME),
        ("open requests, over HTTP and MQTT together", Limits.waiting),
        ("listeners of `/events`", Limits.listeners),
        ("events that a listener doesn't read", Limits.unread),
        ("requests over MQTT", Limits.messages),
    ],
)
def test_the_figures_of_the_limits(row: str, figure: float) -> None:
    assert re.search(rf"^\| {re.escape(row)}[^|]*\| {figure:,.0f}\b", REFERENCE, re.MULTILINE)


HOME = """
document = "{document}"
[journal]
path = "home.db"
"""

DEVICE = f"""
[devices.{{name}}]
reach = "http"
url = "{{url}}/{{name}}"
seconds = {PATIENCE}
"""


@pytest.fixture
def world() -> Iterator[World]:
    world = World(Document.load(sample("home.json")))
    yield world
    world.release.set()


@pytest.mark.parametrize(
    ("manner", "mute", "result"), [("late", False, "served"), ("slow", False, "not done"), ("late", True, "in doubt")]
)
def test_the_history_says_what_became_of_a_call(
    tmp_path: Path, world: World, manner: str, mute: bool, result: str
) -> None:
    """The home is killed while a device is at work, and another request waits."""
    served = HttpDevices(world)
    tables = [DEVICE.format(name=each.name, url=served.url) for each in world.document.services]
    live = Live(tmp_path, HOME.format(document=sample("home.json")) + "".join(tables))
    live.start()
    try:
        world.manners["window"] = manner
        for action in ("brighten", "boil"):
            threading.Thread(target=_ask, args=(live, action), daemon=True).start()
            until(lambda: world.asked and (action == "brighten" or live.state()["counts"]["waiting"]), "the request")
        until(lambda: manner == "slow" or world.played, "the device")
        live.kill()
        if mute:
            world.mute.add("window")
            text = live.file.read_text(encoding="utf-8")
            live.file.write_text(text.replace(f"seconds = {PATIENCE}", "seconds = 1"), encoding="utf-8")
        live.start()
        (call,) = entries(HomeFile.read(live.file), None, 0.0)
        assert (call["action"], call["service"], call["result"]) == ("brighten", "window", result)
        assert world.asked == [("window", "brighten")]
        assert live.state()["counts"]["served"] == (result == "served")
    finally:
        world.release.set()
        live.kill()
        served.close()


def _ask(live: Live, action: str) -> None:
    try:
        live.post("/requests", {"action": action})
    except OSError:
        pass  # The home was killed.
