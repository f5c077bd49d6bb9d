"""Fixtures of the tests of the tools."""

from pathlib import Path

import pytest

from . import TOP


@pytest.fixture
def folder(tmp_path: Path, monkeypatch: pytest.MonkeyPatch) -> Path:
    """A folder, which is the working folder of the test."""
    monkeypatch.chdir(tmp_path)
    return tmp_path


@pytest.fixture
def at_top(folder: Path, monkeypatch: pytest.MonkeyPatch) -> Path:
    """A folder for the test, whose working folder is the top of the repository."""
    monkeypatch.chdir(TOP)
    return folder
