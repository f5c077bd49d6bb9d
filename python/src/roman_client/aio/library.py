"""Sessions within this process, by libroman, for asyncio."""

from __future__ import annotations

from ..library import InProcess, Library
from ..protocol import Exchange, Start


class LibraryStreams:
    """A session of the library, with the methods of `Streams`. A line takes microseconds, and isn't awaited."""

    def __init__(self, start: Start, library: Library) -> None:
        self._session = InProcess(start, library)

    @property
    def pid(self) -> int:
        """The process ID of this process."""
        return self._session.pid

    def exchange(self, exchange: Exchange) -> list[str]:
        """Answers a line. Raises `ProgramEnded` if the session has ended or memory runs out."""
        return self._session.exchange(exchange)

    def poll(self) -> int | None:
        """The status with which the program would have ended, or None while the session is open."""
        return self._session.poll()

    async def close(self) -> int:
        """Ends the session, and returns the status with which the program would have ended."""
        return self._session.close()

    async def stop(self) -> int:
        """Does the same as `close`."""
        return self._session.stop()
