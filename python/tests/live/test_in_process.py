"""The tests of requests and of load, repeated with homes whose session runs within their process by libroman.

ROMAN_LIBRARY names the shared library. Without it, `./build --library` makes the library if it is missing."""

from __future__ import annotations

import os
import subprocess
from pathlib import Path

import pytest

from roman_live.config import IN_PROCESS, HomeFile
from roman_live.errors import NoProgram
from roman_live.home import Home

from . import TOP, played, test_load, test_requests
from .played import Playhouse
from .test_requests import run

LIBRARY = os.environ.get("ROMAN_LIBRARY", str(TOP / "library" / "out" / "libroman.so"))

pytestmark = pytest.mark.timeout(3600)

for module in (test_load, test_requests):
    globals().update({name: value for name, value in vars(module).items() if name.startswith("test_")})


@pytest.fixture(autouse=True, scope="module")
def fixture_built() -> None:
    if "ROMAN_LIBRARY" not in os.environ:
        subprocess.run([TOP / "build", "--library"], check=True, capture_output=True, timeout=3500)


@pytest.fixture(autouse=True)
def fixture_in_process(monkeypatch: pytest.MonkeyPatch) -> None:
    monkeypatch.setattr(played, "PROGRAM", IN_PROCESS)
    monkeypatch.setenv("ROMAN_LIBRARY", LIBRARY)


def test_there_is_no_other_process(tmp_path: Path) -> None:
    async def test() -> None:
        async with Playhouse(tmp_path).home() as home:
            assert home.session.pid == os.getpid()
            assert (await home.requests.serve("brighten"))["served_by"] == "window"

    run(test())


def test_a_library_that_is_not_there(tmp_path: Path, monkeypatch: pytest.MonkeyPatch) -> None:
    monkeypatch.setenv("ROMAN_LIBRARY", "/nowhere/libroman.so")
    home = HomeFile.read(Playhouse(tmp_path).file)

    async def test() -> None:
        with pytest.raises(NoProgram, match="program is 'in process', which needs libroman: /nowhere/libroman.so"):
            await Home.start(home)

    run(test())


def test_the_program_of_remedies_and_advice(tmp_path: Path, monkeypatch: pytest.MonkeyPatch) -> None:
    monkeypatch.setenv("ROMAN", "/opt/roman")
    home = HomeFile.read(Playhouse(tmp_path).file)
    assert (home.program, home.in_process) == ("/opt/roman", True)
