"""Devices of any make with an HTTP API, reached by a map."""

from __future__ import annotations

import json

from multidict import CIMultiDict

from roman_client import Call, DeviceFailed

from ..templates import TemplateFailed, rendered
from .base import Listener
from .http import Client
from .mapped import Outcomes, PolledReach
from .maps import HttpAction, HttpMap


class MappedHttp(PolledReach):
    """A device with an HTTP API."""

    reached = "http"

    def __init__(self, service: str, listener: Listener, found: HttpMap, outcomes: Outcomes) -> None:
        super().__init__(service, listener, found, outcomes, None if found.state is None else found.poll)
        self._state = found.state
        self._client = Client()

    async def open(self) -> None:
        await self._client.open()

    async def close(self) -> None:
        await self._client.close()

    async def fetch(self) -> str:
        assert self._state is not None
        return await self._request(self._state, {})

    async def send(self, number: int, call: Call) -> str:
        action = self.action(call)
        assert isinstance(action, HttpAction)
        return await self._request(action, {"action": call.action, "id": number})

    async def _request(self, action: HttpAction, values: dict[str, object]) -> str:
        """Sends a request, and returns the text of its answer."""
        headers, body = CIMultiDict(action.headers), None
        try:
            if action.json is not None:
                headers.setdefault("Content-Type", "application/json")
                body = json.dumps(rendered(action.json, values))
            elif action.payload is not None:
                body = action.payload.render(values)
        except TemplateFailed as error:
            raise DeviceFailed(f"can't be asked: {error}") from None
        return (await self._client.request(action.method, action.url, headers, body)).decode(errors="replace")
