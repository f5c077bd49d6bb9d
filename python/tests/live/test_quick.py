"""Quick devices in Python, which are called in the thread of the home."""

from __future__ import annotations

import sys
import threading
from pathlib import Path

import pytest

from roman_client import NoComposition
from roman_live.config import HomeFile, HomeFileError
from roman_live.home import Home

from . import PROGRAM, sample
from .test_requests import run

MODULE = """
import threading

from roman_client import Device

threads = []

def window(action):
    threads.append(threading.current_thread())
    return {"brighten": "open", "dim": "shut"}[action], "day"

async def kettle(action):
    threads.append(threading.current_thread())
    if action == "pour":
        raise SystemExit("stuck")
    return "hot", "day"

class Ceiling(Device):
    timeout = 5.0
"""

TABLES = """
[devices.window]
reach = "python"
call = "quick_devices:window"
quick = true
[devices.kettle]
reach = "python"
call = "quick_devices:kettle"
quick = true
[devices.ceiling]
reach = "python"
call = "quick_devices:Ceiling"
quick = true
"""


def home_file(folder: Path, tables: str = TABLES) -> Path:
    """A home file with quick devices."""
    (folder / "quick_devices.py").write_text(MODULE, encoding="utf-8")
    file = folder / "home.toml"
    file.write_text(f'document = "{sample("home.json")}"\nprogram = "{PROGRAM}"\n{tables}', encoding="utf-8")
    return file


def test_they_are_called_in_the_thread_of_the_home(tmp_path: Path) -> None:
    async def test() -> None:
        home = await Home.start(HomeFile.read(home_file(tmp_path)))
        try:
            assert {each.timeout for each in home.fleet.devices.values()} == {None}
            assert (await home.requests.serve("brighten"))["served_by"] == "window"
            assert (await home.requests.serve("boil"))["served_by"] == "kettle"
            # SystemExit is only a failure of the device.
            with pytest.raises(NoComposition):
                await home.requests.serve("pour")
            assert home.registry["kettle"].last_error == "raised SystemExit('stuck')"
            threads = sys.modules["quick_devices"].threads
            assert threads == [threading.main_thread()] * 3
        finally:
            await home.close()

    run(test())


def test_they_have_no_deadline(tmp_path: Path) -> None:
    tables = TABLES.replace('"quick_devices:window"', '"quick_devices:window"\nseconds = 5')
    with pytest.raises(HomeFileError, match="devices.window.seconds is there, and quick is true"):
        HomeFile.read(home_file(tmp_path, tables))
