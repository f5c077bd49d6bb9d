"""Devices of Shelly: Gen 1 (https://shelly-api-docs.shelly.cloud/gen1/) and RPC, of Gen 2 and later (/gen2/).

Gen 1: `/relay/0?turn=on` answers with the state, `/relay/0` says it. `/roller/0?go=open` begins to move.
RPC: `/rpc/Switch.Set?id=0&on=true`, or the same as JSON posted to `/rpc`, answers with the state before it;
`/rpc/Switch.GetStatus?id=0` says the present one.
"""

from __future__ import annotations

import asyncio
import json
from collections.abc import Mapping
from typing import Any

from aiohttp import web

from .base import Settings
from .http import HttpDevice


class Relay(HttpDevice):
    """A relay of Gen 1."""

    def __init__(self, name: str, settings: Settings, port: int) -> None:
        super().__init__(name, settings, port)
        self.on = False

    def routes(self) -> list[web.RouteDef]:
        return [web.get("/relay/0", self._relay), web.get("/shelly", self._about)]

    @property
    def message(self) -> str:
        """The message that says its state."""
        timer = {"has_timer": False, "timer_started": 0, "timer_duration": 0, "timer_remaining": 0}
        return json.dumps({"ison": self.on, **timer, "overpower": False, "source": "http"})

    async def _about(self, request: web.Request) -> web.Response:
        return web.json_response({"type": "SHSW-1", "mac": "5ECF7F1632E8", "auth": False, "fw": "v1.14.0"})

    async def _relay(self, request: web.Request) -> web.Response:
        turn = request.query.get("turn")
        if turn is not None and turn not in ("on", "off", "toggle"):
            return web.Response(status=400, text="Bad turn!")
        if turn is not None:
            on = not self.on if turn == "toggle" else turn == "on"
            await self.obey(lambda: self.switch(on, "command"))
        return web.Response(text=self.message, content_type="application/json")

    def switch(self, on: bool, by: str) -> None:
        """Is on or off from now on."""
        self.on = on
        self.world.note(self.message, by)

    def press(self) -> None:
        """Its button is pressed."""
        self.switch(not self.on, "hand")


class Roller(HttpDevice):
    """A roller shutter of Gen 1, which takes a while to move."""

    def __init__(self, name: str, settings: Settings, port: int) -> None:
        super().__init__(name, settings, port)
        self.position = 0
        self.moving = "stop"

    def routes(self) -> list[web.RouteDef]:
        return [web.get("/roller/0", self._roller)]

    @property
    def message(self) -> str:
        """The message that says its state."""
        more = {"is_valid": True, "safety_switch": False, "overtemperature": False, "stop_reason": "normal"}
        where = {"current_pos": self.position, "calibrating": False, "positioning": True}
        return json.dumps({"state": self.moving, "power": 0, **more, "last_direction": "open", **where})

    async def _roller(self, request: web.Request) -> web.Response:
        go = request.query.get("go")
        if go is not None and go not in ("open", "close", "stop", "to_pos"):
            return web.Response(status=400, text="Bad go!")
        if go in ("open", "close", "to_pos"):
            to = int(request.query.get("roller_pos", 0)) if go == "to_pos" else 100 if go == "open" else 0
            await self.obey(lambda: self.world.soon(self._move(to)))
        return web.Response(text=self.message, content_type="application/json")

    async def _move(self, to: int) -> None:
        """Moves, over a place between."""
        self.moving, self.position = "open" if to > self.position else "close", 50
        await asyncio.sleep(self.world.delay())
        self.moving, self.position = "stop", to
        self.world.note(self.message, "command")

    def press(self) -> None:
        """It is moved by hand."""
        self.position = 0 if self.position else 100
        self.world.note(self.message, "hand")


class Switch(HttpDevice):
    """A switch that speaks RPC."""

    def __init__(self, name: str, settings: Settings, port: int) -> None:
        super().__init__(name, settings, port)
        self.on = False

    def routes(self) -> list[web.RouteDef]:
        return [
            web.get("/rpc/{method}", self._get),
            web.post("/rpc/{method}", self._post),
            web.post("/rpc", self._frame),
        ]

    @property
    def message(self) -> str:
        """The message that says its state."""
        figures = {"apower": 0.0, "voltage": 231.4, "current": 0.0, "temperature": {"tC": 41.2, "tF": 106.2}}
        return json.dumps({"id": 0, "source": "HTTP_in", "output": self.on, **figures})

    async def _get(self, request: web.Request) -> web.Response:
        words = {
            name: json.loads(text) if text in ("true", "false", "0") else text for name, text in request.query.items()
        }
        return self._answer(await self._call(request.match_info["method"], words))

    async def _post(self, request: web.Request) -> web.Response:
        return self._answer(await self._call(request.match_info["method"], await request.json()))

    def _answer(self, result: dict[str, Any]) -> web.Response:
        return web.json_response(result, status=500 if "code" in result else 200)

    async def _frame(self, request: web.Request) -> web.Response:
        frame = await request.json()
        result = await self._call(frame["method"], frame.get("params", {}))
        word = "error" if "code" in result else "result"
        return web.json_response({"id": frame.get("id"), "src": "shellyplus1-a8032ab12345", word: result})

    async def _call(self, method: str, words: Mapping[str, Any]) -> dict[str, Any]:
        """The result of a method, or its error, which has a code."""
        if method not in ("Switch.Set", "Switch.GetStatus"):
            return {"code": 404, "message": f"No handler for {method}"}
        if words.get("id") != 0:
            return {"code": -103, "message": "Invalid argument 'id'!"}
        if method == "Switch.GetStatus":
            status: dict[str, Any] = json.loads(self.message)
            return status
        if not isinstance(words.get("on"), bool):
            return {"code": -103, "message": "Missing required argument 'on'!"}
        before, on = self.on, bool(words["on"])
        await self.obey(lambda: self.switch(on, "command"))
        return {"was_on": before}

    def switch(self, on: bool, by: str) -> None:
        """Is on or off from now on."""
        self.on = on
        self.world.note(self.message, by)

    def press(self) -> None:
        """Its button is pressed."""
        self.switch(not self.on, "hand")
