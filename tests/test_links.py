"""The docs' links into the repository: each leads to a file. One with a line leads to the words that it names."""

import re
import subprocess
from pathlib import Path

import pytest

from . import TOP

LINK = re.compile(r"\]\((?!https?:)([^)#\s]+)")
LONGEST = 150
"""The maximum number of lines of docs/PROOFS.md."""


def test_the_lines_are_those_of_the_words() -> None:
    done = subprocess.run(
        [str(TOP / "tools" / "links"), "--check"], capture_output=True, text=True, check=False, timeout=400
    )
    assert (done.returncode, done.stderr) == (0, ""), "tools/links sets the numbers"


@pytest.mark.parametrize(
    "doc", [TOP / "README.md", *(TOP / "docs").glob("*.md"), *(TOP / "crates").glob("*/README.md")]
)
def test_the_files_are_there(doc: Path) -> None:
    named = LINK.findall(doc.read_text(encoding="utf-8"))
    assert [link for link in named if not (doc.parent / link).exists()] == []


def test_the_page_of_proofs_is_short() -> None:
    lines = (TOP / "docs" / "PROOFS.md").read_text(encoding="utf-8").splitlines()
    assert len(lines) <= LONGEST
