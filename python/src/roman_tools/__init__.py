"""Shared parts of the tools: documents whose words have places, and findings.

`reader` reads values with their places. `checks` finds every refusal of the format in them. `cautions` finds what the
program accepts and the author probably doesn't mean. `lint` shows both. `short_form` expands the short form.
"""

import os
import sys
from collections.abc import Callable
from importlib.util import find_spec
from pathlib import Path

UNWRITTEN = 7
"""The status of a tool whose output couldn't be written."""


def need(*modules: str) -> None:
    """Exits if one of these modules is missing, and names the packages of Debian that have them."""
    missing = [f"python3-{name}" for name in modules if find_spec(name) is None]
    if missing:
        sys.exit(f"the tools of roman need more than Python: sudo apt install {' '.join(missing)}")


class Ended(Exception):
    """The end of a tool whose error has been written."""

    def __init__(self, status: int) -> None:
        super().__init__(status)
        self.status = status


def finished(main: Callable[[], int]) -> int:
    """Runs a tool, and returns its status, also if the output can't be written. If the reader of the output goes away,
    the tool ends without a message, as other filters do."""
    try:
        try:
            status = main()
        except Ended as end:
            status = end.status
        sys.stdout.flush()
        return status
    except OSError as error:
        if not isinstance(error, BrokenPipeError):
            what = "what it writes" if error.filename is None else error.filename
            print(f"{Path(sys.argv[0]).name}: {what} can't be written: {error.strerror}", file=sys.stderr)
        # Otherwise the rest of the buffer would be written again at the end.
        os.dup2(os.open(os.devnull, os.O_WRONLY), sys.stdout.fileno())
        return UNWRITTEN


need("jsonschema", "lark")
