"""Devices, which carry out the actions of services."""

from __future__ import annotations

import enum
from collections.abc import Callable
from dataclasses import dataclass
from typing import Union

from .errors import RomanError

Outcome = tuple[str, str]
"""The state of a service after an action, and that of the environment."""


class DeviceFailed(RomanError):
    """A device failed to carry out an action. Any other exception of a device has the same effect."""


class DeviceTimeout(DeviceFailed):
    """A device didn't answer by its deadline. A later answer is ignored."""


class DeviceLost(DeviceFailed):
    """The connection to a device was lost during a call. The device may have carried out the action."""


class Verdict(enum.Enum):
    """The result of a call that was under way when a dispatcher was killed."""

    DONE = "done"
    NOT_DONE = "not done"
    IN_DOUBT = "in doubt"


NOT_DONE = Verdict.NOT_DONE


@dataclass(frozen=True)
class Did:
    """The answer of a device that knows that it carried out a call. `outcome` has the present states."""

    outcome: Outcome


Told = Union[Outcome, Did, Verdict, None]
"""An answer of `Device.state`.

A pair has the present states of the device and the environment. `Did` has the same states, and confirms that the
device carried out the call. `NOT_DONE` means that the device didn't carry it out, and never will. None means that the
device doesn't know.
"""


@dataclass(frozen=True)
class Call:
    """A call of a device.

    `action` is the action to carry out. `request` is the requested action. With several targets it also names a
    target, as in `draw-beds`. `number` is unique over all runs of a dispatcher with a store. `key` is the key of the
    request, None if it has none.
    """

    service: str
    action: str
    request: str
    number: int
    key: str | None = None


class Device:
    """The base class of devices. A function can be a device, too, and `device` adds these attributes to it.

    `timeout` is the number of seconds that a call may take, None for no limit. A `repeatable` device may be asked
    twice for the same call: a call that was interrupted is made again. With `late_is_doubt`, a device that is late or
    lost (`DeviceTimeout`, `DeviceLost`) is asked by `state` whether it carried out the call. No other device is asked
    before this is known.
    """

    timeout: float | None = None
    repeatable: bool = False
    late_is_doubt: bool = False

    def serve(self, call: Call) -> Outcome:
        """Carries out an action, and returns its outcome. Raises an exception, such as `DeviceFailed`, if it can't. The
        service keeps its state then."""
        raise NotImplementedError

    def state(self, call: Call) -> Told:
        """Returns what the device knows of a call that was under way when the dispatcher was killed. With
        `late_is_doubt` this is also called after a call that was late or lost."""
        return None


Act = Callable[[str], Outcome]
"""A device as a function of the action that was requested."""

State = Callable[[Call], Told]


class FunctionDevice(Device):
    """A device made of functions."""

    def __init__(
        self,
        act: Act,
        state: State | None,
        timeout: float | None,
        repeatable: bool,
        late_is_doubt: bool = False,
    ) -> None:
        self._act = act
        self._state = state
        self.timeout = timeout
        self.repeatable = repeatable
        self.late_is_doubt = late_is_doubt

    def serve(self, call: Call) -> Outcome:
        return self._act(call.request)

    def state(self, call: Call) -> Told:
        return None if self._state is None else self._state(call)


def device(
    act: Act,
    *,
    state: State | None = None,
    timeout: float | None = None,
    repeatable: bool = False,
    late_is_doubt: bool = False,
) -> Device:
    """Returns a device that calls `act` with the requested action. `act` returns the outcome. The other arguments are
    those of `Device`."""
    return FunctionDevice(act, state, timeout, repeatable, late_is_doubt)


Back = Callable[[str], Union[bool, str, None]]
"""Returns whether a service that failed is back. A text is the state in which it is back. True means that it kept its
state. False and None mean that it isn't back."""
