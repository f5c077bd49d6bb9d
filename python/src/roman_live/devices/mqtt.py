"""Devices that are asked over MQTT."""

from __future__ import annotations

import asyncio
import time
from typing import Any

from roman_client import Call, DeviceFailed, DeviceLost

from ..config import MqttReach
from ..mqtt_api import Connection
from .base import Answer, Listener, Reach, answer_of, json_of, short


class Mqtt(Reach):
    """A device that is asked on one topic, and answers on another with the id of the question.

    A message without an id reports its state by itself. `{"gone": true}`, as its last will, reports that it is gone. A
    question without an action (null) asks for its present state.
    """

    reached = "mqtt"
    by_broker = True

    def __init__(self, service: str, listener: Listener, entry: MqttReach, broker: Connection) -> None:
        super().__init__(service, listener)
        self._entry = entry
        self._broker = broker
        self._waiting: dict[int, asyncio.Future[Answer]] = {}
        self._last = 0

    async def open(self) -> None:
        self._broker.subscribe(self._entry.answer, self._hear)

    async def ask(self, number: int, call: Call) -> Answer:
        return await self._exchange({"id": number, "action": call.action})

    async def tell(self, number: int | None, call: Call | None = None) -> Answer | None:
        # Calls have no numbers below 0.
        self._last = min(self._last - 1, -int(time.time() * 1000))
        asked: dict[str, Any] = {"id": self._last, "action": None}
        if number is not None:
            asked["about"] = number
        return await self._exchange(asked)

    async def _exchange(self, asked: dict[str, Any]) -> Answer:
        """Publishes a question, and waits for the answer with its id. The question is sent only if there is a
        connection now: an action that is carried out long after its deadline may have been given to another device
        meanwhile."""
        number = asked["id"]
        answer: asyncio.Future[Answer] = asyncio.get_running_loop().create_future()
        self._waiting[number] = answer
        try:
            if not self._broker.publish_now(self._entry.ask, asked):
                raise DeviceFailed("the broker can't be reached")
            return await answer
        finally:
            self._waiting.pop(number, None)

    def _hear(self, payload: bytes, retained: bool) -> None:
        """Handles a message of the device."""
        if not payload:
            return
        try:
            value = json_of(payload)
            number = value.get("id") if isinstance(value, dict) else None
            if number is None:
                self._hear_unasked(value)
                return
        except DeviceFailed as error:
            self.listener.late(self.service, str(error))
            return
        answer = self._waiting.get(number) if type(number) is int else None
        if answer is None or answer.done():
            if not retained:
                self.listener.late(self.service, f"answered to {short(number)}, which nobody waits for")
            return
        try:
            answer.set_result(answer_of(value))
        except DeviceFailed as error:
            answer.set_exception(error)
        self.listener.answered(self.service)

    def _hear_unasked(self, value: Any) -> None:
        if isinstance(value, dict) and value.get("gone") is True:
            for answer in self._waiting.values():
                if not answer.done():
                    answer.set_exception(DeviceLost("is gone"))
            self.listener.gone(self.service)
            return
        self.listener.moved(self.service, answer_of(value))
