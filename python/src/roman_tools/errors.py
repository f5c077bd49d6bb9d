"""How the tools end at an error of what they read or call."""

from __future__ import annotations

import contextlib
import sys
from collections.abc import Iterator

from roman_client import ProgramEnded, RomanError

from . import Ended
from .pictures import Wrong


@contextlib.contextmanager
def ended_by_errors(tool: str, unreadable: int, wrong: int, *, passes_status: bool = False) -> Iterator[None]:
    """Ends a tool at an error in the block, with one line on the standard error. The status is `unreadable` if a file
    can't be read, and else `wrong`. With `passes_status` it is that of a program that ended. An OSError without a file
    is raised: the output can't be written, which `finished` reports."""
    try:
        yield
        return
    except OSError as error:
        if error.filename is None:
            raise
        status, line = unreadable, f"{error.filename}: {error.strerror}"
    except ProgramEnded as ended:
        status, line = ended.status if passes_status else wrong, str(ended)
    except (Wrong, RomanError) as error:
        status, line = wrong, str(error)
    print(f"{tool}: {line}", file=sys.stderr)
    raise Ended(status)
