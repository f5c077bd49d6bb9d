"""A drawing of the system."""

from __future__ import annotations

import asyncio
import contextlib
import os
import shutil
import signal
import sys
from pathlib import Path

from roman_client import DeviceFailed
from roman_client.aio.streams import to_its_end

from .devices.command import CommandOutput

LONGEST_DRAWING = 60.0
"""The number of seconds after which a drawing is given up."""

LARGEST_DRAWING = 1 << 26
"""The most bytes of a drawing."""


class Picture:
    """The drawing of a document. It is made once, and cached until the document changes."""

    def __init__(self, document: Path) -> None:
        self._document = document
        self._drawn: tuple[int, bytes | None] | None = None
        self._turn = asyncio.Lock()

    async def get(self) -> bytes | None:
        """The drawing as SVG, or None if it can't be drawn here."""
        async with self._turn:
            changed = self._document.stat().st_mtime_ns
            if self._drawn is None or self._drawn[0] != changed:
                self._drawn = changed, await _draw(self._document)
            return self._drawn[1]


async def _draw(document: Path) -> bytes | None:
    tool = _tool()
    if tool is None:
        return None
    start = asyncio.get_running_loop().subprocess_exec(
        lambda: CommandOutput(LARGEST_DRAWING),
        *tool,
        document.name,
        cwd=document.parent,
        start_new_session=True,
        stdin=asyncio.subprocess.DEVNULL,
        stderr=asyncio.subprocess.DEVNULL,
    )
    (transport, drawn), interrupt = await to_its_end(start)
    try:
        if interrupt is not None:
            raise interrupt
        async with asyncio.timeout(LONGEST_DRAWING):
            await drawn.ended
            await asyncio.wait({drawn.closed})
    except (TimeoutError, DeviceFailed):
        return None
    finally:
        with contextlib.suppress(ProcessLookupError):  # Graphviz is in its group.
            os.killpg(transport.get_pid(), signal.SIGKILL)
        transport.close()
        await asyncio.wait({drawn.closed})
    return bytes(drawn.output) if transport.get_returncode() == 0 else None


def _tool() -> tuple[str, ...] | None:
    """The command that draws: that of the repository, or the installed one."""
    beside = Path(__file__).resolve().parents[3] / "tools" / "roman-draw"
    if beside.exists():
        return (sys.executable, str(beside))
    installed = shutil.which("roman-draw")
    return None if installed is None else (installed,)
