"""Tests of the tools. They run the program that ROMAN names, or the built one."""

import os
import shutil
from pathlib import Path

TOP = Path(__file__).resolve().parents[3]
GIVEN = os.environ.get("ROMAN", str(TOP / "crates" / "roman_cli" / "out" / "roman_cli"))
PROGRAM = os.path.abspath(shutil.which(GIVEN) or GIVEN)
