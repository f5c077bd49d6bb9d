"""A machine behind Modbus over TCP, served by the server of python3-pymodbus.

Coil 0 is the command: 1 runs the machine, 0 stops it. Input register 0 says its state: 0 still, 1 starting, 2 running.
Like a machine with a controller it obeys a command after a while, and the coil reads back at once.
"""

from __future__ import annotations

import asyncio
import contextlib
import json
from typing import Any

from pymodbus.datastore import ModbusSequentialDataBlock, ModbusServerContext, ModbusSlaveContext

from .base import Settings, World

try:
    from pymodbus.server import ModbusTcpServer
except ImportError:  # Debian 12 has version 3.0.
    from pymodbus.server.async_io import ModbusTcpServer

STILL, STARTING, RUNNING = 0, 1, 2

AWAY = 0.5
"""How many seconds the machine is away when it starts again."""


class Coils(ModbusSequentialDataBlock):  # type: ignore[misc]
    """Coils that tell the machine when one is written."""

    def __init__(self, machine: Machine) -> None:
        super().__init__(0, [0] * 16)
        self._machine = machine

    def setValues(self, address: int, values: Any) -> None:  # noqa: N802
        super().setValues(address, values)
        given = values if isinstance(values, list) else [values]
        if address == 0:
            self._machine.obey(bool(given[0]))


class Machine:
    """A machine that runs or stands still."""

    def __init__(self, name: str, settings: Settings, port: int) -> None:
        self.world = World(name, settings)
        self._port = port
        self._inputs = ModbusSequentialDataBlock(0, [STILL] * 16)
        blocks = ModbusSlaveContext(co=Coils(self), ir=self._inputs, zero_mode=True)
        self._context = ModbusServerContext(slaves=blocks, single=True)
        self._server: Any = None
        self._serving: asyncio.Task[None] | None = None

    @property
    def message(self) -> str:
        """The number that says its state."""
        return json.dumps(self._inputs.getValues(0, 1)[0])

    async def start(self) -> None:
        address = (self.world.settings.host, self._port)
        self._server = ModbusTcpServer(self._context, address=address, allow_reuse_address=True)
        self._serving = asyncio.ensure_future(self._server.serve_forever())

    async def stop(self) -> None:
        self.world.stop()
        await self._close()

    async def _close(self) -> None:
        if self._serving is not None:
            self._serving.cancel()
            with contextlib.suppress(asyncio.CancelledError):
                await self._serving
            await self._server.server_close()

    async def _restart(self) -> None:
        await self._close()
        await asyncio.sleep(AWAY)
        await self.start()

    def obey(self, run: bool) -> None:
        """Acts on a command, unless something goes wrong."""
        fault = self.world.fault()
        if fault == "restart":
            self.world.soon(self._restart())
        elif fault != "deaf":
            delay = self.world.settings.late if fault == "late" else self.world.delay()
            self.world.soon(self._act(run, delay))

    async def _act(self, run: bool, delay: float) -> None:
        if run:
            self._inputs.setValues(0, [STARTING])
        await asyncio.sleep(delay)
        self._set(run, "command")

    def _set(self, run: bool, by: str) -> None:
        self._inputs.setValues(0, [RUNNING if run else STILL])
        self.world.note(self.message, by)

    def press(self) -> None:
        """Its button is pressed."""
        self._set(self._inputs.getValues(0, 1)[0] != RUNNING, "hand")
