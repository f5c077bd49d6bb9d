"""Runs the built program for tests."""
import os
import subprocess
from dataclasses import dataclass
from pathlib import Path

from . import PROGRAM, TOP

ROMAN = Path(PROGRAM)
SAMPLES = TOP / "samples"

DONE, NO, USAGE, REFUSED, LIMIT = 0, 1, 2, 3, 4
SHELF_FAULT, READ_FAULT, WRITE_FAULT, TOO_LONG, MEMORY = 5, 6, 7, 8, 9


@dataclass(frozen=True)
class Ended:
    """The end of a run: its status, and its standard output."""

    status: int
    text: bytes


def run(words, folder, session=b"", environment=None, **streams):
    """Runs the program in a folder until it ends."""
    given = {"input": session} if "stdin" not in streams else {}
    streams.setdefault("stdout", subprocess.PIPE)
    ended = subprocess.run(
        [ROMAN, *words],
        cwd=folder,
        stderr=subprocess.DEVNULL,
        timeout=400,
        env={**os.environ, **(environment or {})},
        **given,
        **streams,
    )
    return Ended(ended.returncode, ended.stdout or b"")
