"""The messages of roman-live at its start: there is no composition, or the target can't continue."""

import json
import os
import re
import subprocess
import threading
import urllib.request
from collections.abc import Iterator
from contextlib import contextmanager
from pathlib import Path
from typing import Any

from . import PROGRAM, ROMAN_LIVE, TOP

MACHINE = {"states": ["s", "t"], "start": "s", "final": ["t"], "steps": [["s", ["f"], "a", "t"], ["t", True, "a", "t"]]}
STUCK = {
    "roman": 1,
    "environment": {
        "states": ["e", "f"],
        "start": "e",
        "actions": ["a"],
        "steps": [["e", "a", "e"], ["f", "a", "f"]],
    },
    "behaviours": [{"name": "m", "states": ["x"], "start": "x", "final": ["x"], "steps": [["x", True, "a", "x"]]}],
    "services": [{"name": "m", "behaviour": "m"}],
    "target": MACHINE,
}
"""A system whose target allows nothing at its start, which isn't final."""


@contextmanager
def simulated(folder: Path, document: Any) -> Iterator[tuple[str, list[str]]]:
    """Runs a simulated home. Yields its URL, and the lines of its log, which come while it runs."""
    (folder / "home.json").write_text(json.dumps(document), encoding="utf-8")
    (folder / "home.toml").write_text('document = "home.json"\n[page]\nport = 0\n', encoding="utf-8")
    running = subprocess.Popen(
        [str(ROMAN_LIVE), "--simulate", "home.toml"],
        cwd=folder,
        env={**os.environ, "ROMAN": PROGRAM, "PYTHONUNBUFFERED": "1"},
        stdout=subprocess.PIPE,
        stderr=subprocess.PIPE,
        text=True,
    )
    assert running.stdout is not None and running.stderr is not None
    lines: list[str] = []
    reading = threading.Thread(target=lambda: lines.extend(running.stderr or ()), daemon=True)
    reading.start()
    try:
        found = re.search(r"is at (http://\S+)/", running.stdout.readline())
        assert found is not None
        yield found[1], lines
    finally:
        running.terminate()
        running.wait(timeout=400)
        reading.join(timeout=400)


def test_a_start_without_composition_says_why(tmp_path: Path) -> None:
    flaky = json.loads((TOP / "samples" / "flaky.json").read_text(encoding="utf-8"))
    with simulated(tmp_path, flaky) as (_, lines):
        pass
    (said,) = (line for line in lines if "no composition" in line)
    assert "if on is requested, f1 may answer stuck e" in said
    assert f"roman-draw {tmp_path / 'home.json'} --why --text shows the rest" in said


def test_a_start_with_a_composition_says_nothing(tmp_path: Path) -> None:
    lamp = json.loads((TOP / "samples" / "lamp.json").read_text(encoding="utf-8"))
    with simulated(tmp_path, lamp) as (_, lines):
        pass
    assert not lines


def test_a_target_that_can_go_no_further(tmp_path: Path) -> None:
    with simulated(tmp_path, STUCK) as (url, lines):
        with urllib.request.urlopen(f"{url}/state", timeout=400) as reply:
            state = json.load(reply)
    assert (state["composes"], state["target"]["stuck"]) == (True, True)
    assert [line for line in lines if "the target can go no further here, and isn't final" in line]
