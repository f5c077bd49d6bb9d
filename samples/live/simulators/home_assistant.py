"""Home Assistant's REST API: https://developers.home-assistant.io/docs/api/rest/.

`GET /api/states/light.ceiling` says a state; `POST /api/services/light/turn_on` with `{"entity_id": ..}` answers with
the states that have changed by then. Each needs `Authorization: Bearer TOKEN`.
"""

from __future__ import annotations

import json
from typing import Any

from aiohttp import web

from .base import Settings
from .http import Handler, HttpDevice

SERVICES = {
    ("light", "turn_on"): "on",
    ("light", "turn_off"): "off",
    ("switch", "turn_on"): "on",
    ("switch", "turn_off"): "off",
    ("lock", "lock"): "locked",
    ("lock", "unlock"): "unlocked",
    ("cover", "open_cover"): "open",
    ("cover", "close_cover"): "closed",
}
"""The state of an entity after each service."""

FIRST = {"light": "off", "switch": "off", "lock": "unlocked", "cover": "closed"}


class Assistant(HttpDevice):
    """Home Assistant with one entity."""

    def __init__(self, name: str, settings: Settings, port: int, entity: str, token: str) -> None:
        super().__init__(name, settings, port)
        self.entity = entity
        self.domain = entity.partition(".")[0]
        self.state = FIRST[self.domain]
        self._token = token

    def routes(self) -> list[web.RouteDef]:
        return [
            web.get("/api/states/{entity}", self._guarded(self._get)),
            web.post("/api/services/{domain}/{service}", self._guarded(self._post)),
        ]

    def _guarded(self, handler: Handler) -> Handler:
        async def guarded(request: web.Request) -> web.StreamResponse:
            if request.headers.get("Authorization") != f"Bearer {self._token}":
                return web.Response(status=401, text="401: Unauthorized")
            return await handler(request)

        return guarded

    @property
    def message(self) -> str:
        """The message that says its state."""
        return json.dumps(self._value())

    def _value(self) -> dict[str, Any]:
        time = "2026-01-01T00:00:00.000000+00:00"
        context = {"id": "01JGH2", "parent_id": None, "user_id": None}
        attributes = {"friendly_name": self.world.name.title()}
        value = {"entity_id": self.entity, "state": self.state, "attributes": attributes}
        return {**value, "last_changed": time, "last_updated": time, "context": context}

    async def _get(self, request: web.Request) -> web.Response:
        if request.match_info["entity"] != self.entity:
            return web.json_response({"message": "Entity not found."}, status=404)
        return web.json_response(self._value())

    async def _post(self, request: web.Request) -> web.Response:
        domain, service = request.match_info["domain"], request.match_info["service"]
        to = SERVICES.get((domain, service))
        try:
            entity = (await request.json())["entity_id"]
        except (ValueError, KeyError, TypeError):
            return web.json_response({"message": "Data should be valid JSON."}, status=400)
        if to is None:
            return web.Response(status=400, text="400: Bad Request")
        if entity == self.entity and domain == self.domain:
            await self.obey(lambda: self.change(to, "command"))
        return web.json_response([])

    def change(self, state: str, by: str) -> None:
        """Is in that state from now on."""
        self.state = state
        self.world.note(self.message, by)

    def press(self) -> None:
        """It is moved by hand."""
        states = sorted({to for (domain, _), to in SERVICES.items() if domain == self.domain})
        self.change(next(each for each in states if each != self.state), "hand")
