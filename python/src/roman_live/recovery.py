"""Recovery: devices that failed are asked for their state repeatedly, until they are back."""

from __future__ import annotations

import asyncio
from collections.abc import Awaitable, Callable
from datetime import datetime, timedelta, timezone

from roman_client.aio.streams import happens

from .devices import Answer
from .errors import error_text
from .registry import Registry

FIRST_PAUSE = 1.0
"""The seconds after which a failed device is first asked again. Each pause is twice the one before."""

LONGEST_PAUSE = 60.0
"""The longest such pause."""


class Retries:
    """Asks frozen services for their states, each in a task of its own."""

    def __init__(
        self,
        registry: Registry,
        held: Callable[[], frozenset[str]],
        told: Callable[[str], Awaitable[Answer | None]],
        back: Callable[[str, Answer], Awaitable[bool]],
        changed: Callable[[], None],
        *,
        by_hand: bool,
    ) -> None:
        """`held` returns the services that were frozen by hand. `told` asks a service for its state, and `back` judges
        from the answer whether it is back. `changed` is called when the time of the next try changes. If a person
        decides `by_hand` that a service is back, no service is asked."""
        self._registry = registry
        self._held = held
        self._told = told
        self._back = back
        self._changed = changed
        self._by_hand = by_hand
        self._wakes: dict[str, asyncio.Event] = {}
        self.tasks: dict[str, asyncio.Task[None]] = {}
        self._is_closed = False

    def start_all(self, at_once: bool = False) -> None:
        """Starts the recovery of all services that are frozen, and weren't frozen by hand."""
        for name in self._registry.present():
            if self._registry[name].frozen and name not in self._held():
                self.start(name, at_once)

    def start(self, service: str, at_once: bool = False) -> None:
        """Asks a service repeatedly until it is back."""
        task = self.tasks.get(service)
        if self._by_hand or self._is_closed or task is not None and not task.done():
            return
        self._wakes[service] = asyncio.Event()
        if at_once:
            self._wakes[service].set()
        task = asyncio.ensure_future(self._return(service))
        self.tasks[service] = task

    def hurry(self, service: str) -> None:
        """Asks a service at once if its recovery runs, because it has just sent a message."""
        if service in self._wakes:
            self._wakes[service].set()

    def hurry_all(self) -> None:
        """Asks all services at once whose recovery runs."""
        for wake in self._wakes.values():
            wake.set()

    def stop(self, service: str) -> None:
        """Stops the recovery of a service."""
        task = self.tasks.pop(service, None)
        self._wakes.pop(service, None)
        if service in self._registry:
            self._registry[service].next_try = None
        if task is not None and task is not asyncio.current_task():
            task.cancel()

    async def close(self) -> None:
        """Stops asking. Later starts are ignored."""
        self._is_closed = True
        tasks = list(self.tasks.values())
        for task in tasks:
            task.cancel()
        await asyncio.gather(*tasks, return_exceptions=True)

    async def _return(self, service: str) -> None:
        """Asks a service with growing pauses until it is back, and at once when it has sent a message."""
        known, wake = self._registry[service], self._wakes[service]
        pause: float | None = min(LONGEST_PAUSE, FIRST_PAUSE * 2 ** min(max(known.failures, 1) - 1, 16))
        while True:
            if pause is not None:
                due = datetime.now(timezone.utc) + timedelta(seconds=pause)
                known.next_try = due.isoformat(timespec="milliseconds")
            self._changed()
            await happens(wake, pause)
            wake.clear()
            known.next_try = None
            try:
                answer = await self._told(service)
                if answer is None:
                    pause = None  # It can't report its state, so a person decides when it is back.
                    continue
                if await self._back(service, answer):
                    return
            except Exception as error:
                known.last_error = error_text(error)
            pause = min(LONGEST_PAUSE, 2 * (pause or FIRST_PAUSE))
