"""The common part of mapped devices: which of their messages answer a call, and which report moves by hand.

The messages of such a device have no number. So the answer to a call is the first state after the command that the
document allows as its outcome. All other messages while the call is open are ignored.
"""

from __future__ import annotations

import asyncio
import contextlib
from collections.abc import Callable, Collection
from typing import NamedTuple

from roman_client import Call, DeviceFailed
from roman_client.devices import Outcome

from ..errors import NoSpace
from .base import Answer, Listener, Reach
from .maps import Action, Map, Reading

Outcomes = Callable[[Call], Collection[Outcome]]
"""The outcomes that the document allows for a call."""

FIRST_LOOK, LONGEST_LOOK = 0.05, 1.0
"""The seconds after which a device that reports nothing by itself is first asked for its new state, and the longest
pause after that. Each pause is twice the one before."""


class Expected(NamedTuple):
    """A call that waits for its answer, and the outcomes that count as its answer."""

    outcomes: Collection[Outcome]
    answer: asyncio.Future[Answer]

    def fits(self, answer: Answer) -> bool:
        """Whether an answer is one of the outcomes."""
        return any(
            answer.state == state and answer.environment in (None, environment) for state, environment in self.outcomes
        )


class MappedReach(Reach):
    """A device that is reached by a map."""

    def __init__(self, service: str, listener: Listener, found: Map, outcomes: Outcomes) -> None:
        super().__init__(service, listener)
        self._map = found
        self._outcomes = outcomes

    def action(self, call: Call) -> Action:
        """The command to the device for a call. Raises DeviceFailed if the map has none."""
        action = self._map.actions.get(call.action)
        if action is None:
            raise DeviceFailed(f"has no action {call.action} in the home file")
        return action

    def read(self, message: str) -> Reading | None:
        """The reading of a message."""
        return self._map.states.read(message)


def answer_in(reading: Reading | None) -> Answer:
    """The states that a reading stands for. Raises DeviceFailed if it stands for none."""
    if reading is None:
        raise DeviceFailed("doesn't report its state")
    if reading.state is None:
        raise DeviceFailed(reading.unknown)
    return Answer(reading.state, reading.environment)


class PolledReach(MappedReach):
    """A mapped device that reports its state only if it is asked. A device whose map has no state is believed."""

    gone_if_silent = True

    def __init__(self, service: str, listener: Listener, found: Map, outcomes: Outcomes, poll: float | None) -> None:
        super().__init__(service, listener, found, outcomes)
        self.poll = poll

    async def fetch(self) -> str:
        """Asks the device for its state, and returns its message."""
        raise NotImplementedError

    async def send(self, number: int, call: Call) -> str:
        """Sends a command to the device, and returns its reply."""
        raise NotImplementedError

    async def ask(self, number: int, call: Call) -> Answer:
        action, expected = self.action(call), Expected(self._outcomes(call), asyncio.Future())
        reply = await self.send(number, call)
        if action.state is not None:
            return Answer(action.state)
        return answer_in(self.read(reply)) if self.poll is None else await self._after(expected)

    async def _after(self, expected: Expected) -> Answer:
        """Waits for the first state that is an outcome. Errors are ignored, because the device may be restarting. So is
        a lack of files, because the device has received the command."""
        pause = FIRST_LOOK
        while True:
            with contextlib.suppress(DeviceFailed, NoSpace):
                answer = answer_in(self.read(await self.fetch()))
                if expected.fits(answer):
                    return answer
            await asyncio.sleep(pause)
            pause = min(2 * pause, LONGEST_LOOK)

    async def tell(self, number: int | None, call: Call | None = None) -> Answer | None:
        return None if self.poll is None else answer_in(self.read(await self.fetch()))
