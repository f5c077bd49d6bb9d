"""Simulated devices with an HTTP API."""

from __future__ import annotations

import asyncio
from collections.abc import Awaitable, Callable

from aiohttp import web

from .base import Settings, World

AWAY = 0.5
"""How many seconds a device is away when it starts again."""

Handler = Callable[[web.Request], Awaitable[web.StreamResponse]]


class HttpDevice:
    """A device that serves HTTP on a port."""

    def __init__(self, name: str, settings: Settings, port: int) -> None:
        self.world = World(name, settings)
        self._port = port
        self._runner: web.AppRunner | None = None

    def routes(self) -> list[web.RouteDef]:
        """What it serves."""
        raise NotImplementedError

    async def start(self) -> None:
        app = web.Application()
        app.add_routes(self.routes())
        runner = self._runner = web.AppRunner(app, access_log=None)
        await runner.setup()
        site = web.TCPSite(runner, self.world.settings.host, self._port, shutdown_timeout=0.1, reuse_address=True)
        await site.start()

    async def stop(self) -> None:
        self.world.stop()
        await self._close()

    async def _close(self) -> None:
        if self._runner is not None:
            await self._runner.cleanup()
            self._runner = None

    async def restart(self) -> None:
        """Starts again, as after a break of the power."""
        await self._close()
        await asyncio.sleep(AWAY)
        await self.start()

    async def obey(self, act: Callable[[], None]) -> None:
        """Acts on a command before it is answered, unless something goes wrong: a deaf device neither acts nor
        answers, and a late one answers first."""
        fault = self.world.fault()
        if fault == "restart":
            self.world.soon(self.restart())
            await asyncio.sleep(AWAY)
        elif fault == "deaf":
            await asyncio.sleep(self.world.settings.late)
            raise web.HTTPServiceUnavailable()
        elif fault == "late":
            self.world.soon(self.world.later(self.world.settings.late, act))
        else:
            await asyncio.sleep(self.world.delay())
            act()
