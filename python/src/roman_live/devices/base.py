"""The base class of all ways to reach a device."""

from __future__ import annotations

import asyncio
import json
from dataclasses import dataclass
from typing import Any, Protocol

from roman_client import Call, DeviceFailed, DeviceTimeout

from ..limits import one_line

DEADLINE = 10.0
"""The default number of seconds that a device may take."""

LONGEST_ANSWER = 65_536
"""The maximum length of an answer of a device, in bytes."""

STATE_WORD = "?"
"""The word in place of an action that asks a command for its present state."""


@dataclass(frozen=True)
class Answer:
    """The answer of a device: its state, and that of the environment if it knows it. `done` is set if the device was
    asked about a call, and knows whether it carried out the call."""

    state: str
    environment: str | None = None
    done: bool | None = None


class Listener(Protocol):
    """Receives what a device reports unasked."""

    def moved(self, service: str, answer: Answer) -> None:
        """A device reported its state."""

    def answered(self, service: str) -> None:
        """The answer to the present call has come. Later reports of the device are newer."""

    def gone(self, service: str) -> None:
        """A device is gone, until it reports again."""

    def late(self, service: str, text: str) -> None:
        """An answer came too late."""


class Reach:
    """The way to the device of a service. If it is `by_broker`, its reports are lost while the broker is gone. A device
    that reports nothing by itself is asked for its state each `poll` seconds. If it doesn't answer then, it counts as
    gone if `gone_if_silent`. The other attributes are those of `roman_client.Device`, for devices that have them. A
    device that `is_quick` has no deadline."""

    reached = ""
    by_broker = False
    poll: float | None = None
    gone_if_silent = False
    timeout: float | None = None
    repeatable = False
    late_is_doubt = False
    is_quick = False

    def __init__(self, service: str, listener: Listener) -> None:
        self.service = service
        self.listener = listener

    def hindrance(self) -> str | None:
        """The reason why the device can't be called, as far as this is known without calling it."""
        return None

    async def open(self) -> None:
        """Prepares for calls."""

    async def close(self) -> None:
        """Releases all resources."""

    async def ask(self, number: int, call: Call) -> Answer:
        """Asks the device to carry out a call. Raises an exception if it can't, and NoSpace if the system had no file
        to ask it. This may be cancelled at any time. A later answer is then ignored."""
        raise NotImplementedError

    async def tell(self, number: int | None, call: Call | None = None) -> Answer | None:
        """Returns the present state of the device, and whether it carried out the call with that number. None if the
        device doesn't know."""
        return None

    async def present(self, seconds: float | None) -> Answer | None:
        """Returns the present state of the device. Raises DeviceTimeout if it doesn't answer in that time."""
        try:
            async with asyncio.timeout(seconds):
                return await self.tell(None)
        except TimeoutError:
            raise DeviceTimeout(f"no answer within {seconds} seconds") from None


def answer_of(value: Any) -> Answer:
    """The answer in this JSON. Raises DeviceFailed if it isn't one."""
    if not isinstance(value, dict):
        raise DeviceFailed(f"answered {short(value)}, which is no object")
    if isinstance(value.get("error"), str):
        raise DeviceFailed(one_line(value["error"]))
    state, environment, done = value.get("state"), value.get("environment"), value.get("done")
    if not isinstance(state, str):
        raise DeviceFailed(f"answered {short(value)}, without a state")
    if environment is not None and not isinstance(environment, str):
        raise DeviceFailed(f"answered {short(value)}, whose environment is no text")
    return Answer(state, environment, done if isinstance(done, bool) else None)


def json_of(data: bytes) -> Any:
    """The value of these bytes of JSON. Raises DeviceFailed if they aren't JSON."""
    try:
        return json.loads(data)
    except (ValueError, RecursionError):
        raise DeviceFailed(f"answered {short(data)}, which is no JSON") from None


def short(value: Any) -> str:
    """A value as a short text."""
    return one_line(value.decode(errors="replace") if isinstance(value, bytes) else repr(value), 80)
