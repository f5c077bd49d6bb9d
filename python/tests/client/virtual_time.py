"""An event loop of asyncio in virtual time: if nothing is ready, the time jumps to the next event."""

from __future__ import annotations

import asyncio
import selectors
from collections.abc import Callable, Coroutine
from typing import Any, TypeVar

Value = TypeVar("Value")

WRITE = 0.001
"""The number of seconds that the work of a thread takes."""


class Jumping(selectors.DefaultSelector):
    """A selector that doesn't wait, but records how long it would have waited."""

    def __init__(self) -> None:
        super().__init__()
        self.waited: Callable[[float], None] = lambda seconds: None

    def select(self, timeout: float | None = None) -> list[tuple[selectors.SelectorKey, int]]:
        found = super().select(0)
        assert found or timeout is not None, "everything waits for something that doesn't come"
        if not found and timeout:
            self.waited(timeout)
        return found


class VirtualLoop(asyncio.SelectorEventLoop):
    """The loop. `each` is called before each of its rounds, so between any two awaits. The work of threads is done in
    the loop a little later."""

    def __init__(self, each: Callable[[], None]) -> None:
        self._now = 0.0
        selector = Jumping()
        super().__init__(selector)
        selector.waited = self._pass
        self._each = each

    def _pass(self, seconds: float) -> None:
        self._now += seconds

    def time(self) -> float:
        return self._now

    def _run_once(self) -> None:
        self._each()
        super()._run_once()  # type: ignore[misc]

    def run_in_executor(self, executor: Any, work: Callable[..., Any], *words: Any) -> asyncio.Future[Any]:
        future = self.create_future()

        def done() -> None:
            try:
                value = work(*words)
            except Exception as error:
                if not future.done():
                    future.set_exception(error)
            else:
                if not future.done():
                    future.set_result(value)

        self.call_later(WRITE, done)
        return future


def run(work: Coroutine[Any, Any, Value], each: Callable[[], None] = lambda: None) -> Value:
    """Runs a coroutine in virtual time."""
    with asyncio.Runner(loop_factory=lambda: VirtualLoop(each)) as runner:
        return runner.run(work)
