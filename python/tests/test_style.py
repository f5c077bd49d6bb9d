"""The style of the packages, of all tests and of the examples: types, unused names, and layout."""

import subprocess
import sys
from pathlib import Path

import pytest

PYTHON = Path(__file__).resolve().parents[1]

CHECKERS = {
    "mypy": ["/usr/bin/mypy", "src", "tests", "examples"],
    "flake8": [sys.executable, "-m", "flake8", ".", "../tests"],
    "isort": [sys.executable, "-m", "isort", "--check", "--settings-path", ".", ".", "../tests"],
    "black": ["/usr/bin/black", "--check", "--quiet", "--config", "pyproject.toml", ".", "../tests"],
}


@pytest.mark.parametrize("checker", CHECKERS)
def test_a_checker_has_no_complaint(checker: str) -> None:
    done = subprocess.run(CHECKERS[checker], cwd=PYTHON, capture_output=True, text=True, timeout=1700, check=False)
    assert (done.returncode, done.stderr) == (0, ""), done.stdout
