"""Devices of any make behind a broker, reached by a map."""

from __future__ import annotations

import asyncio
from collections.abc import Iterable

from roman_client import Call, DeviceFailed

from ..mqtt_api import Connection
from ..templates import TemplateFailed
from .base import LONGEST_ANSWER, Answer, Listener
from .mapped import Expected, MappedReach, Outcomes, answer_in
from .maps import MqttAction, MqttMap, Reading


class MappedMqtt(MappedReach):
    """A device that publishes its state on a topic after each change, and receives commands on other topics."""

    reached = "mqtt"
    by_broker = True

    def __init__(
        self, service: str, listener: Listener, found: MqttMap, outcomes: Outcomes, broker: Connection
    ) -> None:
        super().__init__(service, listener, found, outcomes)
        self._topics = found
        self._broker = broker
        self._there: bool | None = None
        self._last: Reading | None = None
        self._retained: Reading | None = None
        self._expected: Expected | None = None
        self._told: set[asyncio.Future[Answer]] = set()

    async def open(self) -> None:
        if self._topics.state_topic is not None:
            self._broker.subscribe(self._topics.state_topic, self._hear)
        if self._topics.availability is not None:
            self._broker.subscribe(self._topics.availability.topic, self._hear_availability)

    async def ask(self, number: int, call: Call) -> Answer:
        action = self.action(call)
        assert isinstance(action, MqttAction)
        self._check_there()
        expected = Expected(self._outcomes(call), asyncio.get_running_loop().create_future())
        self._expected = expected
        try:
            try:
                payload = action.payload.render({"action": call.action, "id": number})
            except TemplateFailed as error:
                raise DeviceFailed(f"can't be asked to {call.action}: {error}") from None
            if not self._broker.send_now(action.topic, payload):
                raise DeviceFailed("the broker can't be reached")
            if action.state is not None:
                self._last = None  # It is older than the command.
                return Answer(action.state)
            answer = await expected.answer
        except BaseException:
            self._last = None  # It may be moving, so only later messages count.
            raise
        finally:
            self._expected = None
        return answer

    async def tell(self, number: int | None, call: Call | None = None) -> Answer | None:
        if self._topics.state_topic is None:
            return None
        self._check_there()
        if self._topics.ask_topic is None and self._last is not None:
            return answer_in(self._last)
        told: asyncio.Future[Answer] = asyncio.get_running_loop().create_future()
        self._told.add(told)
        try:
            if self._topics.ask_topic is not None:
                if not self._broker.send_now(self._topics.ask_topic, self._topics.ask_payload):
                    raise DeviceFailed("the broker can't be reached")
            return await told
        finally:
            self._told.discard(told)

    def _check_there(self) -> None:
        if self._there is False:
            raise DeviceFailed("isn't available")

    def _hear(self, payload: bytes, retained: bool) -> None:
        """Handles a message on the topic of the state. A retained one is older than an open call, and isn't its
        answer."""
        if len(payload) > LONGEST_ANSWER:
            self.listener.late(self.service, f"sent more than {LONGEST_ANSWER} bytes")
            return
        reading = self.read(payload.decode(errors="replace"))
        if reading is None:
            return
        if retained and self._there is False:
            self._retained = reading  # It counts if the broker also retains that the device is available.
            return
        self._take(reading, retained)

    def _take(self, reading: Reading, retained: bool) -> None:
        """Handles the reading of a message."""
        self._last = reading
        try:
            answer = answer_in(reading)
        except DeviceFailed as error:
            _settle(self._told, error)
            return
        _settle(self._told, answer)
        if self._expected is None:
            self.listener.moved(self.service, answer)
        elif not retained and self._expected.fits(answer) and not self._expected.answer.done():
            self._expected.answer.set_result(answer)
            self._expected = None
            self.listener.answered(self.service)

    def _hear_availability(self, payload: bytes, retained: bool) -> None:
        assert self._topics.availability is not None
        there = self._topics.availability.read(payload[:LONGEST_ANSWER].decode(errors="replace"))
        if there is None or there == self._there:
            return
        before, self._there = self._there, there
        found, self._retained = self._retained, None
        if not there:
            self._last = None  # It may move while it is gone.
            open_call = [self._expected.answer] if self._expected is not None else []
            _settle([*self._told, *open_call], DeviceFailed("isn't available"))
            self.listener.gone(self.service)
        elif before is False:
            self.listener.late(self.service, "is available again")
            if retained and found is not None:
                self._take(found, retained)


def _settle(waiting: Iterable[asyncio.Future[Answer]], value: Answer | DeviceFailed) -> None:
    """Sets the value, or the error, of all futures that wait for it."""
    for each in waiting:
        if each.done():
            continue
        if isinstance(value, Answer):
            each.set_result(value)
        else:
            each.set_exception(value)
