"""Simulated devices: a person states the outcome of each call."""

from __future__ import annotations

import asyncio
from collections.abc import Callable

from roman_client import Call, DeviceFailed

from .base import Answer, Listener, Reach


class Simulated(Reach):
    """A device that waits for the outcome that a person states. It reports its present state."""

    reached = "simulated"

    def __init__(self, service: str, listener: Listener, present: Callable[[str], str]) -> None:
        super().__init__(service, listener)
        self._present = present
        self._outcome: asyncio.Future[Answer] | None = None

    async def ask(self, number: int, call: Call) -> Answer:
        self._outcome = asyncio.get_running_loop().create_future()
        try:
            return await self._outcome
        finally:
            self._outcome = None

    async def tell(self, number: int | None, call: Call | None = None) -> Answer | None:
        return Answer(self._present(self.service))

    @property
    def waiting(self) -> bool:
        """Whether a call waits for its outcome."""
        return self._outcome is not None and not self._outcome.done()

    def answer(self, answer: Answer | None) -> None:
        """Ends the call that is under way with this answer. None means that it failed."""
        assert self._outcome is not None
        if answer is None:
            self._outcome.set_exception(DeviceFailed("it was told to fail"))
        else:
            self._outcome.set_result(answer)
