"""The ends of the tools for documents, if their input can't be read or their output can't be written."""

import os
import subprocess
from typing import Any

import pytest

from . import PROGRAM, TOP

TOOLS = ("roman-lint", "roman-expand", "roman-draw", "roman-talk", "roman-mend")


def tool(name: str, system: str, output: Any) -> tuple[int, str]:
    """The status of a tool, and its standard error."""
    done = subprocess.run(
        [str(TOP / "tools" / name), system],
        cwd=TOP,
        env={**os.environ, "ROMAN": PROGRAM},
        input=b"report\n" * 100,
        stdout=output,
        stderr=subprocess.PIPE,
        timeout=400,
        check=False,
    )
    return done.returncode, done.stderr.decode()


@pytest.mark.parametrize("name", TOOLS)
def test_a_reader_that_went_away(name: str) -> None:
    """They end without a message, as other filters do."""
    reader, writer = os.pipe()
    os.close(reader)
    with os.fdopen(writer, "wb") as output:
        assert tool(name, "samples/home.json", output) == (7, "")


@pytest.mark.parametrize("name", TOOLS)
def test_a_full_disk(name: str) -> None:
    with open("/dev/full", "wb") as output:
        said = f"{name}: what it writes can't be written: No space left on device\n"
        assert tool(name, "samples/home.json", output) == (7, said)


@pytest.mark.parametrize("name", TOOLS)
@pytest.mark.parametrize(
    "system, why",
    [
        ("samples", "Is a directory"),
        ("gone", "No such file or directory"),
        ("/proc/self/mem", "Input/output error"),
    ],
)
def test_what_can_not_be_read_is_named(name: str, system: str, why: str) -> None:
    status, said = tool(name, system, subprocess.DEVNULL)
    assert status == (1 if name == "roman-draw" else 5)
    assert said.endswith(f"{name}: {system}: {why}\n"), said
