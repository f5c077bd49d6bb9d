"""Requests over MQTT, and the topic of the environment."""

from __future__ import annotations

import asyncio
from collections.abc import Callable
from http import HTTPStatus
from pathlib import Path
from typing import Any

from .background import Background
from .errors import Cancelled
from .home import Home
from .http_api import expiry, result
from .limits import Bucket
from .mqtt_api import Connection, SessionConnection
from .queued_requests import BEAT, Keeping, LastHeard, MqttRequest, message_of
from .requests import CANCELLED, EXPIRED
from .sources import SOURCE, source_of

AGAIN = 0.05
"""The number of seconds between two checks whether one more request may be open."""

Acknowledge = Callable[[], None]


class MqttRequests:
    """Serves the requests on the topic PREFIX/requests, `{"id": X, "action": A, "key": K, "expires": S, "sent": T,
    "by": N}`; only the action is required. The result of each is published on PREFIX/answers, with its id and the
    status of the HTTP API. `{"cancel": K}` cancels the requests with that key that still wait. On PREFIX/environment
    `{"state": E}` reports that the environment has moved to that state by itself.

    A home with a store has a session of its own for requests, which the broker keeps. A request with a key that comes
    at QoS 1 is acknowledged after its answer is published. Until then the broker sends it again, also to a home that
    starts later. The key prevents that it is served twice. Any other request is acknowledged when it comes, and is
    served at most once.
    """

    def __init__(self, home: Home) -> None:
        self._home = home
        self._background = Background()
        rate = home.file.limits.messages
        self._messages = Bucket(rate, rate)
        self._turn = asyncio.Lock()
        file = home.file
        keeps = file.journal is not None and file.mqtt is not None and not home.simulate
        self._keeping = Keeping(LastHeard(Path(f"{file.journal}.heard"))) if keeps else None
        self._session: SessionConnection | None = None
        if keeps and file.mqtt is not None and home.fleet.broker is not None:
            topic = home.fleet.broker.topic("requests")
            self._session = SessionConnection(file.mqtt, self._session_changed, topic, self._hear)

    async def begin(self) -> None:
        """Subscribes to the topics, if there is a broker."""
        broker = self._home.fleet.broker
        if broker is None:
            return
        broker.subscribe(broker.topic("environment"), self._hear_environment, newest=True)
        if self._session is None:
            broker.subscribe(broker.topic("requests"), self._hear_new)
        else:
            await self._session.open(None if broker.connected else 0.0)
            await self._session.agreed()
            self._background.run(self._beat())
        await broker.agreed()

    async def close(self) -> None:
        """Ends the subscriptions. The broker keeps unacknowledged requests for the next start."""
        await self._background.close()
        if self._session is not None:
            await self._session.close()

    # The session.

    def _session_changed(self, connected: bool, text: str) -> None:
        """Handles a new connection of the session, or an error of it. The home's other connection reports the loss of
        the broker."""
        assert self._session is not None and self._keeping is not None
        if not connected:
            broker = self._home.fleet.broker
            if broker is not None and broker.connected and self._session.connected:
                self._home.events.add("broker", text, connected=True)
            return
        mark = self._keeping.begin(self._session.resumed)
        if mark is not None:
            self._session.publish(self._session.topic("requests"), mark)

    async def _beat(self) -> None:
        """Records regularly that the broker is heard."""
        assert self._session is not None and self._keeping is not None
        while True:
            if self._session.connected:
                self._keeping.note()
            await asyncio.sleep(BEAT)

    # Requests.

    def _hear_new(self, payload: bytes, retained: bool) -> None:
        """Handles a request to a home without a store. A retained one is out of date, and is ignored."""
        if not retained:
            self._hear(payload, False, lambda: None)

    def _hear(self, payload: bytes, comes_again: bool, acknowledge: Acknowledge) -> None:
        """Handles a request. If too many come at once, the rest are ignored, except for those that the broker holds
        back until earlier ones are acknowledged."""
        value = message_of(payload)
        if self._keeping is not None and self._keeping.hear(value):
            acknowledge()
            return
        request = MqttRequest(value) if self._keeping is None else self._keeping.request(value)
        if comes_again and isinstance(value.get("key"), str):
            self._background.run(self._serve_surely(request, acknowledge))
            return
        acknowledge()
        if self._messages.take():
            self._background.run(self._serve(request))
        else:
            self._home.events.add("wrong", "requests over MQTT are ignored: too many come")

    async def _serve_surely(self, request: MqttRequest, acknowledge: Acknowledge) -> None:
        """Serves a request as soon as one more may be open, and acknowledges it, unless the home is about to end. It
        may be cancelled before."""
        action, key = str(request.value.get("action")), str(request.value["key"])
        try:
            await self._home.requests.hold_back(action, key, self._take_turn())
        except Cancelled as error:
            self._publish(request.value.get("id"), HTTPStatus.CONFLICT, {"error": CANCELLED, "text": str(error)})
            acknowledge()
            return
        try:
            serving = self._background.run(self._serve(request))
            await asyncio.sleep(0)  # The request takes its place in the queue.
        finally:
            self._turn.release()
        if await serving:
            acknowledge()

    async def _take_turn(self) -> None:
        """Waits for the turn, and until one more request may be open. The caller releases the turn."""
        await self._turn.acquire()
        try:
            while self._home.requests.open >= self._home.file.limits.waiting or not self._messages.take():
                await asyncio.sleep(AGAIN)
        except BaseException:
            self._turn.release()
            raise

    async def _serve(self, request: MqttRequest) -> bool:
        """Serves a request, and publishes its answer. Returns False if it is left for the next start."""
        value = request.value
        if isinstance(value.get("cancel"), str):
            self._home.requests.cancel(value["cancel"])
            return True
        action, key, expires = value.get("action"), value.get("key"), expiry(value.get("expires"))
        known = isinstance(action, str) and isinstance(key, (str, type(None)))
        if not known or expires is None or request.first_age is None:
            self._publish(value.get("id"), HTTPStatus.BAD_REQUEST, {"error": "no request"})
            return True
        why = request.hindrance(expires)
        if why is not None:
            self._publish(value.get("id"), HTTPStatus.REQUEST_TIMEOUT, {"error": EXPIRED, "text": why})
            return True
        SOURCE.set(source_of(value.get("by"), "a client over MQTT"))
        left = max(0.0, expires - request.age)
        status, answer = await result(self._home, str(action), key, True, expires=left, source="mqtt")
        if self._home.requests.ending and status == HTTPStatus.SERVICE_UNAVAILABLE:
            return False
        self._publish(value.get("id"), status, answer)
        return True

    def _publish(self, number: Any, status: int, answer: dict[str, Any]) -> None:
        """Publishes an answer on the connection that acknowledges its request afterwards."""
        broker: Connection | None = self._session or self._home.fleet.broker
        assert broker is not None
        broker.publish(broker.topic("answers"), {**answer, "id": number, "status": int(status)})

    def _hear_environment(self, payload: bytes, retained: bool) -> None:
        state = message_of(payload).get("state")
        if isinstance(state, str):
            self._home.fleet.environment_moved(state)
        else:
            self._home.events.add("wrong", "the environment's topic has no state")
