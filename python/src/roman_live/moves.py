"""Moves that devices report, on their way to the dispatcher."""

from __future__ import annotations

import asyncio
import functools
from collections.abc import Callable
from typing import Any

from roman_client.protocol import Event

from .activity import Activity

PAUSE = 0.2
"""The seconds between two changes of one service, or of the environment."""

Post = Callable[[Event[Any]], "asyncio.Future[Any]"]


class Moves:
    """The reported changes. Of each subject, a service or the environment, one change is made at a time, with a pause
    after it. Meanwhile only the newest one waits. After `hold` no changes are made, so that a request gets its turn
    even if reports don't end."""

    def __init__(self, post: Post, activity: Activity, failed: Callable[[Exception], None]) -> None:
        """`post` passes a change to the dispatcher. `failed` is called with the error of a refused change."""
        self._post = post
        self._failed = failed
        self._held = False
        self._posted: set[asyncio.Future[Any]] = set()
        self._newest: dict[str, Event[Any]] = {}
        self._resting: set[str] = set()
        activity.is_moving = self._is_moving

    @property
    def is_open(self) -> bool:
        """Whether a change isn't made yet."""
        return self._is_making() or bool(self._newest)

    def _is_making(self) -> bool:
        return not all(each.done() for each in self._posted)

    def _is_moving(self) -> bool:
        """Whether a change comes before the next choice of a service."""
        return self._is_making() or not self._held and bool(self._newest)

    def add(self, subject: str, event: Event[Any]) -> None:
        """Adds a change of a subject."""
        self._newest[subject] = event
        if not self._held and subject not in self._resting:
            self._make(subject)

    def drop(self, subject: str) -> None:
        """Drops the waiting change of a subject, because a newer state will follow."""
        self._newest.pop(subject, None)

    def make_all(self) -> None:
        """Makes all waiting changes, without their pauses."""
        for subject in list(self._newest):
            self._make(subject)

    def hold(self) -> None:
        """Holds all changes back until `go_on`."""
        self._held = True

    def go_on(self) -> None:
        """Ends `hold`."""
        if self._held:
            self._held = False
            self.make_all()

    def _make(self, subject: str) -> None:
        self._resting.add(subject)
        future = self._post(self._newest.pop(subject))
        self._posted.add(future)
        future.add_done_callback(functools.partial(self._made, subject))

    def _made(self, subject: str, future: asyncio.Future[Any]) -> None:
        self._posted.discard(future)
        error = None if future.cancelled() else future.exception()
        if isinstance(error, Exception):
            self._failed(error)
        asyncio.get_running_loop().call_later(PAUSE, self._rested, subject)

    def _rested(self, subject: str) -> None:
        self._resting.discard(subject)
        if subject in self._newest and not self._held:
            self._make(subject)
