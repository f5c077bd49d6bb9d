"""Devices, for asyncio."""

from __future__ import annotations

from collections.abc import Awaitable, Callable
from typing import Union

from ..devices import Call, Outcome, Told
from ..policies import Choice, Chosen


class Device:
    """The base class of devices: `roman_client.Device` with coroutines. A coroutine function can be a device, too, and
    `device` adds these attributes to it.

    A call that takes more than `timeout` seconds is cancelled. None is no limit. `repeatable` and `late_is_doubt` are
    those of `roman_client.Device`.
    """

    timeout: float | None = None
    repeatable: bool = False
    late_is_doubt: bool = False

    async def serve(self, call: Call) -> Outcome:
        """Carries out an action, and returns its outcome. Raises an exception, such as `DeviceFailed`, if it can't. The
        service keeps its state then."""
        raise NotImplementedError

    async def state(self, call: Call) -> Told:
        """Returns what the device knows of a call that was under way when the dispatcher was killed. With
        `late_is_doubt` this is also called after a call that was late or lost."""
        return None


Act = Callable[[str], Awaitable[Outcome]]
"""A device as a coroutine function of the action that was requested."""

State = Callable[[Call], Awaitable[Told]]


class FunctionDevice(Device):
    """A device made of coroutine functions."""

    def __init__(
        self,
        act: Act,
        state: State | None,
        timeout: float | None,
        repeatable: bool,
        late_is_doubt: bool = False,
    ) -> None:
        self._act = act
        self._state = state
        self.timeout = timeout
        self.repeatable = repeatable
        self.late_is_doubt = late_is_doubt

    async def serve(self, call: Call) -> Outcome:
        return await self._act(call.request)

    async def state(self, call: Call) -> Told:
        return None if self._state is None else await self._state(call)


def device(
    act: Act,
    *,
    state: State | None = None,
    timeout: float | None = None,
    repeatable: bool = False,
    late_is_doubt: bool = False,
) -> Device:
    """Returns a device that awaits `act` with the requested action. `act` returns the outcome. The other arguments are
    those of `Device`."""
    return FunctionDevice(act, state, timeout, repeatable, late_is_doubt)


def as_device(given: Device | Act) -> Device:
    """Returns the device itself, or a device that awaits the function."""
    return given if isinstance(given, Device) else FunctionDevice(given, None, None, False)


Policy = Callable[[Choice], Union[str, Chosen, Awaitable[Union[str, Chosen]]]]
"""Chooses one of the offered services, at once or later."""

IsBack = Union[bool, str, None]
Back = Callable[[str], Union[IsBack, Awaitable[IsBack]]]
"""Returns whether a service that failed is back, at once or later; see `roman_client.Back`."""
