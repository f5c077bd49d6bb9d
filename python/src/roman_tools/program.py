"""Finds and runs the built program."""

from __future__ import annotations

import contextlib
import os
import shutil
import signal
import subprocess
import threading
from collections.abc import Iterator
from pathlib import Path
from types import FrameType

PACKAGES = Path(__file__).resolve().parents[1]
"""The folder of the packages: python/src of a clone, or the folder to which ./install copies them."""


def find(given: str | None = None) -> str | None:
    """Finds the program: the given one, that of the variable ROMAN, the one beside the tools, or the one in PATH."""
    for each in (given, os.environ.get("ROMAN")):
        if each:
            return each
    beside = PACKAGES.parents[1] / "crates" / "roman_cli" / "out" / "roman_cli"
    if PACKAGES.parts[-3:] == ("share", "roman", "python"):
        beside = PACKAGES.parents[2] / "bin" / "roman"
    return str(beside) if os.access(beside, os.X_OK) else shutil.which("roman")


def run(program: str, *words: str, text: str = "", encoding: str | None = None) -> subprocess.CompletedProcess[str]:
    """Runs the program with these words and standard input. Raises OSError if it can't be started. An interrupt ends
    the program."""
    process = None
    try:
        with _interrupt_held():
            process = subprocess.Popen(
                [program, *words],
                stdin=subprocess.PIPE,
                stdout=subprocess.PIPE,
                stderr=subprocess.PIPE,
                text=True,
                encoding=encoding,
                errors="replace",
            )
        output, errors = process.communicate(text)
    except BaseException:
        if process is not None:
            with process:  # Closes its pipes, and waits for its end.
                process.kill()
        raise
    return subprocess.CompletedProcess(process.args, process.returncode, output, errors)


@contextlib.contextmanager
def _interrupt_held() -> Iterator[None]:
    """Raises an interrupt at the end of the block. `Popen` would leave a process running that it has just started."""
    is_main = threading.current_thread() is threading.main_thread()
    if not is_main or signal.getsignal(signal.SIGINT) is not signal.default_int_handler:
        yield
        return
    came: list[tuple[int, FrameType | None]] = []
    signal.signal(signal.SIGINT, lambda number, frame: came.append((number, frame)))
    try:
        yield
    finally:
        signal.signal(signal.SIGINT, signal.default_int_handler)
    if came:
        signal.default_int_handler(*came[0])
