"""Commands that a home started, and that continue after it was killed.

Each call holds a lock on one byte of a file. The call's number is the position of the byte. The lock belongs to a file
that the command inherits, so it lasts as long as the command, and the next home sees it.
"""

from __future__ import annotations

import asyncio
import contextlib
import fcntl
import logging
import os
import signal
import struct
import time
from collections.abc import Iterator
from pathlib import Path

from .errors import check_file_limit

LOG = logging.getLogger("roman_live")

LOOK_AGAIN = 0.05
"""The number of seconds between two checks whether a command has ended."""

FLOCK = "hhqqi"
"""The C structure of a lock: its kind, the origin of its first byte, that byte, the number of bytes, and a process."""


class Processes:
    """The file with the locks of the commands of a home."""

    def __init__(self, path: Path) -> None:
        self._path = path
        self._real = os.path.realpath(path)

    @contextlib.contextmanager
    def at_work(self, number: int) -> Iterator[int]:
        """Holds the lock of a call. Yields the file that the command inherits."""
        with self.file() as file:
            lock(file, number)
            yield file

    @contextlib.contextmanager
    def file(self) -> Iterator[int]:
        """Opens the file."""
        file = self.open()
        try:
            yield file
        finally:
            os.close(file)

    def open(self) -> int:
        """Opens the file for a command that keeps running. Raises NoSpace if no files are left."""
        try:
            # Another user who can open the file can hold its locks.
            return os.open(self._path, os.O_RDWR | os.O_CREAT | os.O_CLOEXEC, 0o600)
        except OSError as error:
            check_file_limit(error)
            raise

    def is_at_work(self, number: int) -> bool:
        """Whether the command of a call still runs, or a process that it started and that belongs to another user."""
        with self.file() as file:
            if not _is_locked(file, number):
                return False
        holders = self._holders(number)
        return not holders or any(_leads(each) for each in holders)

    async def end(self, number: int, seconds: float) -> None:
        """Waits for the command of a call, and ends it after that many seconds, as the earlier home would have done."""
        if not self.is_at_work(number):
            return
        LOG.warning("a command of the last run is still at work, and is waited for")
        limit = time.monotonic() + seconds
        while self.is_at_work(number):
            if time.monotonic() >= limit:
                if not self._kill(number):
                    return
                limit = time.monotonic() + seconds
            await asyncio.sleep(LOOK_AGAIN)

    def _kill(self, number: int) -> bool:
        """Ends the processes of a call. Returns False if this home may end none of them."""
        leaders = [each for each in self._holders(number) if _leads(each)]
        for leader in leaders:
            LOG.warning("a command of the last run missed its deadline, and is ended")
            with contextlib.suppress(ProcessLookupError, PermissionError):
                os.killpg(leader, signal.SIGKILL)
        return bool(leaders)

    def _holders(self, number: int) -> list[int]:
        """The visible processes that hold the lock of a call."""
        mark = f" {number} {number}\n"
        found = []
        for process in Path("/proc").iterdir():
            if process.name.isdecimal() and int(process.name) != os.getpid() and self._holds(process, mark):
                found.append(int(process.name))
        return found

    def _holds(self, process: Path, mark: str) -> bool:
        try:
            for file in (process / "fd").iterdir():
                if os.readlink(file) == self._real:
                    info = (process / "fdinfo" / file.name).read_text(encoding="ascii")
                    if any(line.startswith("lock:") and line.endswith(mark) for line in info.splitlines(True)):
                        return True
        except OSError:
            pass  # The process has ended, or belongs to another user.
        return False


def lock(file: int, number: int) -> None:
    """Locks the byte of a call."""
    fcntl.fcntl(file, fcntl.F_OFD_SETLK, struct.pack(FLOCK, fcntl.F_RDLCK, os.SEEK_SET, number, 1, 0))


def unlock(file: int, number: int) -> None:
    """Unlocks the byte of a call."""
    fcntl.fcntl(file, fcntl.F_OFD_SETLK, struct.pack(FLOCK, fcntl.F_UNLCK, os.SEEK_SET, number, 1, 0))


def _is_locked(file: int, number: int) -> bool:
    """Whether another file has locked the byte of a call."""
    asked = struct.pack(FLOCK, fcntl.F_WRLCK, os.SEEK_SET, number, 1, 0)
    (kind, *_) = struct.unpack_from(FLOCK, fcntl.fcntl(file, fcntl.F_OFD_GETLK, asked))
    return bool(kind != fcntl.F_UNLCK)


def _leads(process: int) -> bool:
    """Whether a process is the command itself, and not one that it left running."""
    try:
        return os.getsid(process) == process
    except OSError:
        return False
