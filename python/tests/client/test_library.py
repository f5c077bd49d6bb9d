"""The tests of sessions, repeated within this process by libroman, in place of a program behind pipes.

ROMAN_LIBRARY names the shared library. Without it, `./build --library` makes the library if it is missing."""

import os
import subprocess
from pathlib import Path
from typing import Any
from unittest import mock

import pytest

import roman_client
from roman_client import aio
from roman_client.library import part_names

from . import TOP, sample, test_session

LIBRARY = os.environ.get("ROMAN_LIBRARY", str(TOP / "library" / "out" / "libroman.so"))

pytestmark = pytest.mark.timeout(3600)


class Within(roman_client.Session):
    """A session within this process, for any program."""

    def __init__(self, *words: Any, **options: Any) -> None:
        options["library"] = LIBRARY
        super().__init__(*words, **options)

    @classmethod
    def resume(cls, *words: Any, **options: Any) -> roman_client.Session:
        options["library"] = LIBRARY
        return super().resume(*words, **options)


@pytest.fixture(autouse=True, scope="module")
def fixture_built() -> None:
    if "ROMAN_LIBRARY" not in os.environ:
        subprocess.run([TOP / "build", "--library"], check=True, capture_output=True, timeout=3500)


@pytest.fixture(autouse=True)
def fixture_within() -> Any:
    with mock.patch.object(test_session, "Session", Within):
        yield


NOT_WITHIN = {
    # A session within a process never has to continue in a new program.
    "test_a_session_goes_on_before_it_is_too_long",
    "test_a_session_of_more_than_16_megabytes",
    "test_no_place_for_the_next_program_yet",
    # Its program moves the document.
    "test_a_document_that_is_not_to_be_read_from_here",
    # There is no program to kill.
    "test_a_program_that_is_killed",
}
SESSIONS = {name: test for name, test in vars(test_session).items() if name.startswith("test_")}
assert NOT_WITHIN < SESSIONS.keys()
globals().update((name, test) for name, test in SESSIONS.items() if name not in NOT_WITHIN)


def test_part_files_are_put_on_the_shelf() -> None:
    text = Path(sample("greenhouse.json")).read_bytes()
    assert [*part_names(text)] == ["samples/tap.behaviour.json"]
    assert not [*part_names(b"[1, ")] and not [*part_names(b"[]")]
    with Within("samples/greenhouse.json", folder=TOP) as session:
        assert session.report().services


def test_a_deep_document_names_no_part_files() -> None:
    assert list(part_names(b"[" * 100_000)) == []


def test_a_library_that_is_not_there() -> None:
    with pytest.raises(OSError):
        roman_client.Session(sample("home.json"), library="/nowhere/libroman.so")


async def test_a_session_that_is_awaited() -> None:
    async with aio.Session(sample("home.json"), library=LIBRARY) as session:
        assert (await session.do("brighten")).services == ("window", "ceiling")
        with pytest.raises(roman_client.Busy):
            await session.freeze("window")
        assert session.status is None and await session.quit() == 0
        with pytest.raises(roman_client.ProgramEnded):
            await session.report()
