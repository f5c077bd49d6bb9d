"""Polls of devices that report nothing by themselves."""

from __future__ import annotations

import asyncio
from collections.abc import Awaitable, Callable

from .devices import Answer
from .errors import NoSpace


async def poll(
    seconds: float,
    told: Callable[[], Awaitable[Answer | None]],
    calls: Callable[[], int | None],
    heard: Callable[[Answer], None],
    lost: Callable[[Exception], None],
) -> None:
    """Repeatedly asks a device for its state by `told`, with a pause of so many seconds. `calls` returns the number of
    its calls so far, or None while it mustn't be asked. `heard` receives the answer, which is dropped if a call was
    made meanwhile. `lost` receives the first of several errors in a row."""
    there = True
    while True:
        await asyncio.sleep(seconds)
        before = calls()
        if before is None:
            continue
        answer, error = None, None
        try:
            answer = await told()
        except NoSpace:
            continue  # The device wasn't asked.
        except Exception as failure:
            error = failure
        if calls() != before:
            continue
        if answer is not None:
            heard(answer)
        if error is not None and there:
            lost(error)
        there = error is None
