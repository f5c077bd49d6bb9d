"""Tests of the program and of everything around it. `tests/run` runs them."""

import os
import shutil
from pathlib import Path

TOP = Path(__file__).resolve().parents[1]
BUILT = TOP / "crates" / "roman_cli" / "out" / "roman_cli"
GIVEN = os.environ.get("ROMAN", str(BUILT))
PROGRAM = os.path.abspath(shutil.which(GIVEN) or GIVEN)
"""The program that the tests run: that of the variable ROMAN, or the built one."""
