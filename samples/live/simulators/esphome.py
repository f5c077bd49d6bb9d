"""Devices with ESPHome's web server: https://esphome.io/web-api/.

`GET /switch/NAME` says the state as `{"id": "switch-NAME", "value": true, "state": "ON"}`; `POST /switch/NAME/turn_on`
answers 200 without a text. A cover has `/cover/NAME/open` and `close`, and says what it does as `current_operation`.
"""

from __future__ import annotations

import asyncio
import json

from aiohttp import web

from .base import Settings
from .http import HttpDevice


class Node(HttpDevice):
    """A node with one component: a switch, a cover or a sensor of light."""

    def __init__(self, name: str, settings: Settings, port: int, component: str) -> None:
        super().__init__(name, settings, port)
        self.component = component
        self.value: float = 5000.0 if component == "sensor" else 0
        self.operation = "IDLE"

    def routes(self) -> list[web.RouteDef]:
        where = f"/{self.component}/{{name}}"
        return [web.get(where, self._get), web.post(where + "/{word}", self._post)]

    @property
    def message(self) -> str:
        """The message that says its state."""
        if self.component == "sensor":
            value, state = {"value": self.value}, f"{self.value:.1f} lx"
        elif self.component == "cover":
            value, state = {"value": self.value}, "OPEN" if self.value else "CLOSED"
        else:
            value, state = {"value": bool(self.value)}, "ON" if self.value else "OFF"
        more = {"current_operation": self.operation} if self.component == "cover" else {}
        return json.dumps({"id": f"{self.component}-{self.world.name}", **value, "state": state, **more})

    def _check(self, request: web.Request) -> None:
        if request.match_info["name"] != self.world.name:
            raise web.HTTPNotFound()

    async def _get(self, request: web.Request) -> web.Response:
        self._check(request)
        return web.Response(text=self.message, content_type="application/json")

    async def _post(self, request: web.Request) -> web.Response:
        self._check(request)
        words = {
            "switch": {"turn_on": 1, "turn_off": 0, "toggle": 1 - int(bool(self.value))},
            "cover": {"open": 1, "close": 0},
        }.get(self.component, {})
        to = words.get(request.match_info["word"])
        if to is None:
            raise web.HTTPNotFound()
        await self.obey(lambda: self.world.soon(self._move(to)))
        return web.Response()

    async def _move(self, to: int) -> None:
        """A cover takes a while."""
        if self.component == "cover":
            self.operation = "OPENING" if to else "CLOSING"
            await asyncio.sleep(self.world.delay())
            self.operation = "IDLE"
        self.change(to, "command")

    def change(self, value: float, by: str) -> None:
        """Is otherwise from now on."""
        self.value = value
        self.world.note(self.message, by)

    def press(self) -> None:
        """It is moved by hand; a sensor sees another light."""
        light = self.world.chance.choice((3.0, 8.0, 900.0, 5000.0))
        self.change(light if self.component == "sensor" else 1 - int(self.value), "hand")
