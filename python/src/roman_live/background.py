"""Coroutines that run in the background, and events that they wait for."""

from __future__ import annotations

import asyncio
import logging
from collections.abc import Coroutine
from typing import Any, TypeVar

from .errors import TEMPORARY_ERRORS

LOG = logging.getLogger("roman_live")

Value = TypeVar("Value")


async def finished(work: Coroutine[Any, Any, Value]) -> Value:
    """Returns the value of a coroutine, which continues if its caller is cancelled. Its error is dropped then."""
    task = asyncio.ensure_future(work)
    task.add_done_callback(lambda task: task.cancelled() or task.exception())
    return await asyncio.shield(task)


class Background:
    """Tasks in the background, which `close` cancels."""

    def __init__(self) -> None:
        self._tasks: set[asyncio.Task[Any]] = set()
        self._is_closed = False

    def run(self, work: Coroutine[Any, Any, Value]) -> asyncio.Task[Value]:
        """Runs a coroutine in the background, and logs unexpected errors. After `close` it is cancelled before it
        begins."""
        task = asyncio.ensure_future(work)
        self._tasks.add(task)
        task.add_done_callback(self._ended)
        if self._is_closed:
            task.cancel()
        return task

    async def run_here(self, work: Coroutine[Any, Any, Value]) -> Value:
        """Returns the value of a coroutine. While it runs, the present task is one of those in the background."""
        task = asyncio.current_task()
        assert task is not None
        self._tasks.add(task)
        try:
            return await work
        finally:
            self._tasks.discard(task)

    def _ended(self, task: asyncio.Task[Any]) -> None:
        self._tasks.discard(task)
        error = None if task.cancelled() else task.exception()
        if error is not None and not isinstance(error, TEMPORARY_ERRORS):
            LOG.error("an unexpected error", exc_info=error)

    async def close(self) -> None:
        """Cancels all tasks, and waits for their end."""
        self._is_closed = True
        tasks = list(self._tasks)
        for task in tasks:
            task.cancel()
        await asyncio.gather(*tasks, return_exceptions=True)
