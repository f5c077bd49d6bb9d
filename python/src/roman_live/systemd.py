"""Notices to systemd (ready, alive, stopping), and lines for its journal."""

from __future__ import annotations

import asyncio
import contextlib
import logging
import os
import sys

from systemd import daemon  # type: ignore[import]

from roman_client.aio.streams import happens

from .log import OnceAMinute

PRIORITIES = {logging.WARNING: 4, logging.ERROR: 3, logging.CRITICAL: 2}
"""The priorities of syslog for the levels of messages. Other messages have the priority of information, 6."""


def in_journal() -> bool:
    """Whether systemd's journal reads the standard error."""
    try:
        place = os.fstat(sys.stderr.fileno())
    except (AttributeError, OSError, ValueError):
        return False
    return os.environ.get("JOURNAL_STREAM") == f"{place.st_dev}:{place.st_ino}"


class Lines(logging.Formatter):
    """Lines for the journal: each begins with the priority of its message."""

    def format(self, record: logging.LogRecord) -> str:
        mark = f"<{PRIORITIES.get(record.levelno, 6)}>"
        return mark + super().format(record).replace("\n", f"\n{mark}")


def begin_log(level: int) -> None:
    """Writes messages of at least this level to the standard error."""
    handler = logging.StreamHandler(sys.stderr)
    handler.addFilter(OnceAMinute())
    form = "%(name)s: %(message)s"
    handler.setFormatter(Lines(form) if in_journal() else logging.Formatter(form))
    logging.basicConfig(level=level, handlers=[handler])
    # The home logs all requests itself.
    logging.getLogger("roman_client").setLevel(logging.WARNING)


def greet(text: str) -> None:
    """Writes a line to the standard output. If this fails, for example because the disk is full, the home continues."""
    try:
        print(text, flush=True)
    except OSError:
        with open(os.devnull, "wb") as nowhere:  # Otherwise the line would be written again at the end.
            os.dup2(nowhere.fileno(), sys.stdout.fileno())


def complain(error: Exception) -> None:
    """Writes the error that ends the home to the standard error."""
    mark = f"<{PRIORITIES[logging.ERROR]}>" if in_journal() else ""
    text = str(error).replace("\n", f"\n{mark}")
    with contextlib.suppress(OSError):  # The exit status reports the failure, too.
        print(f"{mark}roman-live: {text}", file=sys.stderr)


class Supervisor:
    """Sends notices to systemd, if NOTIFY_SOCKET is set."""

    def __init__(self) -> None:
        microseconds = os.environ.get("WATCHDOG_USEC", "")
        self._period = int(microseconds) / 2_000_000 if microseconds.isdecimal() else None
        self.listens = "NOTIFY_SOCKET" in os.environ
        self._url = ""
        self._status = ""

    def ready(self, url: str) -> None:
        """Reports that the home runs and its page answers."""
        self._url = url
        daemon.notify(f"READY=1\nSTATUS=at {url}/")

    def status(self, text: str) -> None:
        """Reports the status that `systemctl status` shows."""
        if self._url and text != self._status:
            self._status = text
            daemon.notify(f"STATUS=at {self._url}/: {text}")

    def stopping(self) -> None:
        """Reports that the home is about to end."""
        daemon.notify("STOPPING=1")

    async def watch(self, ending: asyncio.Event) -> None:
        """Waits for the end, and reports regularly that the home is alive."""
        while not await happens(ending, self._period):
            daemon.notify("WATCHDOG=1")
