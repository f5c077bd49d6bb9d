"""Tests of the client. Those of sessions and dispatchers run the program that ROMAN names, or ./roman."""

import contextlib
import os
import sqlite3
from pathlib import Path

TOP = Path(__file__).resolve().parents[3]
PROGRAM = os.environ.get("ROMAN", str(TOP / "roman"))


def sample(name: str) -> str:
    """The path of a sample."""
    return str(TOP / "samples" / name)


def copy_store(store: "str | os.PathLike[str]", copy: "str | os.PathLike[str]") -> None:
    """Copies a store that is open. The copy is like the store after a kill."""
    with contextlib.closing(sqlite3.connect(store)) as one, contextlib.closing(sqlite3.connect(copy)) as other:
        one.backup(other)
