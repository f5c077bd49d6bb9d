"""Runs the tools for tests, and makes documents with edits."""

import os
import subprocess

from . import PROGRAM, TOP

SHORT = TOP / "samples" / "short"
CELL = (SHORT / "cell.json").read_text(encoding="utf-8")


def tool(name: str, *words: str, text: str = "") -> "subprocess.CompletedProcess[str]":
    """Runs a tool in the working folder."""
    env = {**os.environ, "ROMAN": PROGRAM, "PYTHONIOENCODING": "utf-8"}
    command = [str(TOP / "tools" / name), *words]
    return subprocess.run(command, input=text, env=env, capture_output=True, text=True, timeout=300, check=False)


def edited(text: str, *edits: tuple[str, str]) -> str:
    """A text in which the first word of each pair is replaced by the second. It must be there once."""
    for old, new in edits:
        assert text.count(old) == 1, old
        text = text.replace(old, new)
    return text


def system(target: str, environment: str = '"states": ["e", "f"], "otherwise": "stays"') -> str:
    """A document with a service that can serve all requests."""
    steps = ", ".join(f'["x", "{action}", "x"]' for action in "abcd")
    behaviour = f'{{"name": "m", "count": 1, "steps": [{steps}]}}'
    return f'{{"roman": "short", "environment": {{{environment}}}, "behaviours": [{behaviour}], "target": {target}}}'
