"""Machines with coils and registers, reached by Modbus over TCP."""

from __future__ import annotations

import asyncio
import functools
import inspect
import json
import logging
import threading
from collections.abc import Callable
from concurrent.futures import ThreadPoolExecutor
from typing import Any, TypeVar

from pymodbus.client import ModbusTcpClient
from pymodbus.exceptions import ModbusException

from roman_client import Call, DeviceFailed

from .base import Listener
from .mapped import Outcomes, PolledReach
from .maps import ModbusAction, ModbusMap, ModbusPlace

Value = TypeVar("Value")

logging.getLogger("pymodbus").setLevel(logging.CRITICAL)  # Its errors are reported as those of the device.

SECONDS = 3
"""The number of seconds that a machine may take for one reply."""

READS = {
    "coil": "read_coils",
    "discrete": "read_discrete_inputs",
    "register": "read_holding_registers",
    "input": "read_input_registers",
}
"""The methods of the client that read each kind of place."""

UNIT = "device_id" if "device_id" in inspect.signature(ModbusTcpClient.read_coils).parameters else "slave"
"""The client's name of the argument for the number of a machine. Newer versions have changed it."""


class Modbus(PolledReach):
    """A machine whose state is read from a place, and which acts when a value is written. Each exchange has a
    connection of its own. The client blocks, so each machine has two threads: one that reads and one that writes. A
    machine that hangs delays no other machine, and a call doesn't wait for a poll. A call that is given up before its
    connection is made writes nothing."""

    reached = "modbus"

    def __init__(self, service: str, listener: Listener, found: ModbusMap, outcomes: Outcomes) -> None:
        super().__init__(service, listener, found, outcomes, found.poll)
        self._machine = found
        self._reader, self._writer = (ThreadPoolExecutor(max_workers=1) for _ in range(2))

    async def close(self) -> None:
        for each in (self._reader, self._writer):
            each.shutdown(wait=False, cancel_futures=True)

    async def fetch(self) -> str:
        values = await self._talk(self._reader, lambda client: self._values(client, self._machine.state))
        return json.dumps(values if self._machine.state.count > 1 else values[0])

    async def send(self, number: int, call: Call) -> str:
        action = self.action(call)
        assert isinstance(action, ModbusAction)
        await self._talk(self._writer, functools.partial(self._write, action))
        return ""

    async def _talk(self, thread: ThreadPoolExecutor, talk: Callable[[Any], Value]) -> Value:
        given_up = threading.Event()
        try:
            return await asyncio.get_running_loop().run_in_executor(thread, self._exchange, talk, given_up)
        finally:
            given_up.set()

    def _exchange(self, talk: Callable[[Any], Value], given_up: threading.Event) -> Value:
        """Connects, and returns the value of the talk with the machine."""
        shown = f"{self._machine.host}:{self._machine.port}"
        # Without retries, newer clients don't send a command again after the deadline.
        client = ModbusTcpClient(self._machine.host, port=self._machine.port, timeout=SECONDS, retries=0)
        try:
            if not client.connect():
                raise DeviceFailed(f"{shown} can't be reached")
            if given_up.is_set():
                raise DeviceFailed(f"{shown} was reached too late")
            return talk(client)
        except (ModbusException, OSError) as error:
            raise DeviceFailed(f"{shown}: {error}") from None
        finally:
            client.close()

    def _values(self, client: Any, place: ModbusPlace) -> list[int]:
        """The bits, as 0 and 1, or the numbers at a place."""
        reply = getattr(client, READS[place.kind])(place.address, count=place.count, **self._unit)
        _check(reply)
        values = reply.bits if place.kind in ("coil", "discrete") else reply.registers
        return [int(each) for each in values[: place.count]]

    def _write(self, action: ModbusAction, client: Any) -> None:
        write = client.write_coil if action.place.kind == "coil" else client.write_register
        _check(write(action.place.address, action.value, **self._unit))

    @property
    def _unit(self) -> dict[str, int]:
        return {UNIT: self._machine.unit}


def _check(reply: Any) -> None:
    """Raises DeviceFailed for a reply that is an error."""
    if reply.isError():
        raise DeviceFailed(f"refuses: {reply}")
