"""The README of each crate: it exists, is short, and names only things that the crate has."""

import re
from pathlib import Path

import pytest

from . import TOP

CRATES = TOP / "crates"
LONGEST = 2400
"""The maximum length of a README: about a screen."""
HEADINGS = ["What contracts see", "What is only tested", "Where to begin"]
WORD = re.compile(r"[A-Za-z_]\w*")
LIBRARIES = {"serde_json"}


def listed() -> set[str]:
    lines = (TOP / "crates.txt").read_text(encoding="utf-8").splitlines()
    return {line.partition(":")[0].split()[0] for line in lines if line[:1] not in ("", "#")}


def words_of(crate: Path) -> set[str]:
    """Every word of the crate's sources and definitions, comments aside."""
    found: set[str] = set()
    for part, ending, comment in (("src", ".rt", "//"), ("specs", ".antt", "--")):
        for file in (crate / part).rglob(f"*{ending}"):
            for line in file.read_text(encoding="utf-8").splitlines():
                found.update(WORD.findall(line.partition(comment)[0]))
    return found


def unknown(crate: Path) -> list[str]:
    """The texts between backquotes in a README that are neither words nor files of the crate, nor other crates."""
    here = words_of(crate) | listed() | LIBRARIES
    named = re.findall(r"`([^`]+)`", (crate / "README.md").read_text(encoding="utf-8"))
    return [
        name
        for name in named
        if name not in here and not ("/" in name and ((crate / name).exists() or (TOP / name).exists()))
    ]


def test_each_crate_has_one() -> None:
    have = {file.parent.name for file in CRATES.glob("*/README.md")}
    assert have == listed()


@pytest.mark.parametrize("file", sorted(CRATES.glob("*/README.md")), ids=lambda file: str(file.parent.name))
def test_each_is_a_screen_with_the_same_headings(file: Path) -> None:
    text = file.read_text(encoding="utf-8")
    assert len(text) < LONGEST
    assert text.startswith(f"# {file.parent.name}\n")
    assert re.findall(r"^## (.*)$", text, re.M) == HEADINGS
    assert unknown(file.parent) == []
