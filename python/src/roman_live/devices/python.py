"""Devices that are functions or devices of a Python module."""

from __future__ import annotations

import asyncio
import contextlib
import importlib
import inspect
import sys
import threading
from collections.abc import Callable
from dataclasses import replace
from typing import Any

import roman_client
from roman_client import Call, aio
from roman_client.aio.dispatcher import settle

from ..config import HomeFileError, PythonReach
from .base import Answer, Listener, Reach, short


class PythonDevice(Reach):
    """A function of the requested action, a `roman_client.Device` or an `aio.Device`, or the class of one. A call that
    isn't a coroutine runs in a thread, unless the device is quick. `state` asks a device about a call. If it has a
    method `present`, this returns its present state, or that and the state of the environment. The device's deadline
    counts unless the home file has one. A quick device has none."""

    reached = "python"

    def __init__(self, service: str, listener: Listener, entry: PythonReach) -> None:
        super().__init__(service, listener)
        self._device = _load(entry, f"devices.{service}.call is '{entry.module}:{entry.name}', which")
        self._at_work = False
        self.is_quick = entry.quick
        if isinstance(self._device, (roman_client.Device, aio.Device)):
            self.timeout = self._device.timeout
            self.repeatable = self._device.repeatable
            self.late_is_doubt = self._device.late_is_doubt

    async def ask(self, number: int, call: Call) -> Answer:
        if isinstance(self._device, (roman_client.Device, aio.Device)):
            value = await self._value(self._device.serve, call)
        else:
            value = await self._value(self._device, call.request)
        return _answer(value)

    async def tell(self, number: int | None, call: Call | None = None) -> Answer | None:
        if call is not None and isinstance(self._device, (roman_client.Device, aio.Device)):
            told = _told(await self._value(self._device.state, call))
            if told is not None:
                return told
        present = getattr(self._device, "present", None)
        if present is None:
            return None
        value = await self._value(present)
        return None if value is None else _answer(value)

    async def _value(self, call: Callable[..., Any], *words: Any) -> Any:
        """Calls a function, and returns its value. A function that is neither a coroutine nor quick runs in a thread.
        Raises DeviceFailed while an earlier call still runs in a thread, so that threads don't pile up."""
        if self.is_quick or inspect.iscoroutinefunction(call):
            return await _value_of(call, words)
        if self._at_work:
            raise roman_client.DeviceFailed("is still at work on an earlier call")
        loop = asyncio.get_running_loop()
        answer: asyncio.Future[Any] = loop.create_future()

        def ended(value: Any, error: BaseException | None) -> None:
            self._at_work = False
            settle(answer, value, error)

        def work() -> None:
            value, failure = None, None
            try:
                value = call(*words)
            except BaseException as error:
                failure = _failure(error)
            with contextlib.suppress(RuntimeError):  # The home may have ended meanwhile.
                loop.call_soon_threadsafe(ended, value, failure)

        self._at_work = True
        # It is a daemon, because a thread that hangs must not keep the home from its end.
        threading.Thread(target=work, daemon=True).start()
        value = await answer
        return await _value_of(lambda: value, ()) if inspect.isawaitable(value) else value


async def _value_of(call: Callable[..., Any], words: tuple[Any, ...]) -> Any:
    """The value of a call in the thread of the home. A coroutine is awaited."""
    try:
        value = call(*words)
        return await value if inspect.isawaitable(value) else value
    except (SystemExit, KeyboardInterrupt) as error:
        raise _failure(error) from None


def _failure(error: BaseException) -> Exception:
    """The error of a device for what its code raised. SystemExit and KeyboardInterrupt would end the home, and a future
    can't have a StopIteration."""
    if isinstance(error, Exception) and not isinstance(error, StopIteration):
        return error
    return roman_client.DeviceFailed(f"raised {error!r}")


def _load(entry: PythonReach, which: str) -> Any:
    """Imports the device that an entry names, from the folder of the home file first. Raises HomeFileError, which
    begins with `which`."""
    folder = str(entry.folder)
    if folder not in sys.path:
        sys.path.insert(0, folder)
    try:
        found = getattr(importlib.import_module(entry.module), entry.name)
    except (Exception, SystemExit) as error:
        raise HomeFileError(f"{which} can't be loaded: {error!r}") from None
    if inspect.isclass(found):
        found = found()
    if not callable(found) and not isinstance(found, (roman_client.Device, aio.Device)):
        raise HomeFileError(f"{which} is neither a function nor a device")
    return found


def _told(value: Any) -> Answer | None:
    """The answer of a device that was asked about a call."""
    if value is None:
        return None
    if value is roman_client.NOT_DONE:
        return Answer("", None, False)
    if isinstance(value, roman_client.Did):
        return replace(_answer(value.outcome), done=True)
    return _answer(value)


def _answer(value: Any) -> Answer:
    if isinstance(value, str):
        return Answer(value)
    if isinstance(value, (tuple, list)) and len(value) == 2 and all(isinstance(each, str) for each in value):
        return Answer(value[0], value[1])
    raise roman_client.DeviceFailed(f"gave {short(value)}, which isn't an outcome")
