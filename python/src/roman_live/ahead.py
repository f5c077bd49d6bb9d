"""A dispatcher that writes the end of a request together with the call of the next one."""

from __future__ import annotations

import asyncio
import functools
from collections.abc import Callable

from roman_client import Done, aio
from roman_client.aio.dispatcher import settle
from roman_client.core import Ahead

LATEST = 0.01
"""The maximum number of seconds that the end of a request waits to be written with the next call."""

WORTH = 0.0001
"""If a commit takes more seconds, a single request waits for a turn of the loop, in which others may come."""


class HomeDispatcher(aio.Dispatcher):
    """The dispatcher of a home. While requests wait, each request needs one sync of the disk instead of two."""

    _timer: asyncio.TimerHandle | None = None
    _until = 0.0

    async def serve(
        self, action: str, key: str | None, source: str | None, is_awaited: Callable[[], bool]
    ) -> asyncio.Future[Done]:
        """Like `request`, but returns when the device has answered. The future is done when the answer is written. If
        `is_awaited` returns true, this waits for the next request."""
        if self._store is not None and self._store.pace > WORTH and not is_awaited():
            await asyncio.sleep(0)
        written: asyncio.Future[Done] = asyncio.get_running_loop().create_future()
        ahead = Ahead(functools.partial(settle, written), is_awaited)
        try:
            done = await self._in_turn(lambda: self.core.request(action, key, source, ahead))
        finally:
            if self.core.owes and is_awaited():
                self._flush_at_latest()
            else:
                self._flush_later()
        if not self.core.is_owed(done):
            settle(written, done, None)
        return written

    async def close(self) -> None:
        """Writes the ends of served requests, and closes the store."""
        if self._timer is not None:
            self._timer.cancel()
        if self._begun:
            self._flush_later()
        await super().close()

    def _flush_at_latest(self) -> None:
        """Sets the time of the next write. One timer serves many requests: if it fires too early, it is set again."""
        self._until = asyncio.get_running_loop().time() + LATEST
        if self._timer is None:
            self._timer = asyncio.get_running_loop().call_at(self._until, self._check_time)

    def _check_time(self) -> None:
        self._timer = None
        loop = asyncio.get_running_loop()
        if not self.core.owes:
            return
        if loop.time() < self._until:
            self._timer = loop.call_at(self._until, self._check_time)
        else:
            self._flush_later()

    def _flush_later(self) -> None:
        """Starts to write the ends of served requests, if some are unwritten."""
        if self.core.owes:
            flushing = asyncio.ensure_future(self._in_turn(self.core.flush))
            self._draining.add(flushing)
            flushing.add_done_callback(self._draining.discard)
