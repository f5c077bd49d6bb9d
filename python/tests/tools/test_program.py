"""The program, and Graphviz, after an interrupt that only the tool receives: they end."""

from __future__ import annotations

import os
import signal
import subprocess
import sys
import time
from pathlib import Path

from . import TOP

START = """
import os, signal
from pathlib import Path
from unittest import mock
from roman_tools import program

read, came = os.read, []

def interrupted(*words):  # By which Popen waits for a process that it has started.
    if not came:
        came.append(True)
        signal.raise_signal(signal.SIGINT)
    return read(*words)

try:
    with mock.patch.object(os, "read", interrupted):
        program.run("sleep", "60")
except KeyboardInterrupt:
    print("interrupted", Path("/proc/thread-self/children").read_text())
"""


def interruptible() -> None:
    """Python ignores an interrupt that its parent ignores."""
    signal.signal(signal.SIGINT, signal.SIG_DFL)


def is_running(process: int) -> bool:
    """Whether a process hasn't ended."""
    try:
        return Path(f"/proc/{process}/stat").read_text(encoding="ascii").rpartition(")")[2].split()[0] != "Z"
    except (FileNotFoundError, ProcessLookupError):
        return False


def test_an_interrupt_while_it_starts() -> None:
    done = subprocess.run(
        [sys.executable, "-c", START],
        env={**os.environ, "PYTHONPATH": str(TOP / "python" / "src")},
        preexec_fn=interruptible,
        capture_output=True,
        text=True,
        timeout=400,
        check=False,
    )
    assert (done.stdout.split(), done.stderr) == (["interrupted"], "")


def test_an_interrupt_while_graphviz_draws(tmp_path: Path) -> None:
    drawing = tmp_path / "drawing"
    dot = tmp_path / "dot"
    dot.write_text(f"#!/bin/sh\necho $$ > {drawing}.new\nmv {drawing}.new {drawing}\nexec sleep 60\n", encoding="ascii")
    dot.chmod(0o755)
    tool = subprocess.Popen(
        [str(TOP / "tools" / "roman-draw"), "samples/lamp.json"],
        cwd=TOP,
        env={**os.environ, "PATH": f"{tmp_path}:{os.environ['PATH']}"},
        preexec_fn=interruptible,
        stdout=subprocess.DEVNULL,
        stderr=subprocess.DEVNULL,
    )
    end = time.monotonic() + 400
    while not drawing.exists() and time.monotonic() < end:
        time.sleep(0.02)
    tool.send_signal(signal.SIGINT)
    assert tool.wait(400) == -signal.SIGINT
    assert not is_running(int(drawing.read_text(encoding="ascii")))
