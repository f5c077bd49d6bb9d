"""The events of a home, and the listeners of them."""

from __future__ import annotations

import asyncio
import json
import logging
import secrets
import time
from collections import deque
from collections.abc import Mapping
from dataclasses import dataclass
from datetime import datetime, timezone
from functools import cached_property, lru_cache
from typing import Any, Deque, NamedTuple

from .limits import LONGEST_LINE, Bucket, one_line

LOG = logging.getLogger("roman_live")

FROM_OUTSIDE = ("late", "wrong")
"""The kinds of events that a device or a stranger can cause at will."""

BURST = 20
"""The number of these events that a service may cause at once. After that, it may cause one a second."""

KEPT = 200
"""The number of events that are stored."""

LONGEST_NUMBER = 18
"""The maximum number of digits of an event's number."""

LONGEST_MARK = 64
"""The maximum length of an event's mark."""

MOST_UNREAD = 16_384
"""The approximate number of bytes of events that a listener is sent at once. It has to read them before it is sent
more."""

BETWEEN_WRITES = 0.05
"""The minimum number of seconds between two writes to a listener."""

EACH_LISTENER = 0.004
"""The seconds by which each listener delays the next write to another one, so that many don't keep a home busy."""

LONGEST_PAUSE = 4.0
"""The maximum number of seconds between two writes to a listener."""


def now() -> str:
    """The present time, in UTC."""
    seconds, milliseconds = divmod(time.time_ns() // 1_000_000, 1000)
    return f"{_second(seconds)}.{milliseconds:03}+00:00"


@lru_cache(1)
def _second(seconds: int) -> str:
    """A time without its fraction of a second."""
    return datetime.fromtimestamp(seconds, timezone.utc).replace(tzinfo=None).isoformat()


class Event(NamedTuple):
    """An event: its number, time, kind, a text for people, and further details."""

    number: int
    time: str
    kind: str
    text: str
    details: Mapping[str, Any]

    def to_json(self) -> dict[str, Any]:
        """The event as JSON."""
        return {
            "id": self.number,
            "time": self.time,
            "kind": self.kind,
            "text": self.text,
            **self.details,
        }


@dataclass(frozen=True)
class Message:
    """A message to listeners: `event` or `state`, its JSON, and the mark of an event."""

    name: str
    value: Any
    mark: str | None = None

    @cached_property
    def encoded(self) -> bytes:
        """The message as it is sent to all listeners."""
        mark = "" if self.mark is None else f"id: {self.mark}\n"
        return f"{mark}event: {self.name}\ndata: {json.dumps(self.value)}\n\n".encode()


class Listener:
    """A listener, which is sent all events after a given one, and the newest state."""

    def __init__(self, log: EventLog, number: int) -> None:
        self._log = log
        self._number = number
        """The number of the last event that was sent."""
        self._state = log.state
        self.has_ended = False

    def _has_news(self) -> bool:
        return self.has_ended or self._number < self._log.last or self._state is not self._log.state

    async def heard(self, seconds: float) -> list[Message]:
        """Returns the next messages. Waits at most that long for the first one. The list is empty if none comes."""
        try:
            async with asyncio.timeout(seconds):
                while not self._has_news():
                    await self._log.news.wait()
        except TimeoutError:
            return []
        await self.pause()
        return self.take()

    async def pause(self) -> None:
        """The time between two writes."""
        await asyncio.sleep(max(BETWEEN_WRITES, min(EACH_LISTENER * self._log.listeners, LONGEST_PAUSE)))

    def take(self) -> list[Message]:
        """Returns the next messages, and the newest state if no event is left. Events that are no longer stored are
        left out."""
        messages: list[Message] = []
        room = MOST_UNREAD
        for event in self._log.after(self._number):
            messages.append(self._log.message(event))
            self._number = event.number
            room -= len(messages[-1].encoded)
            if room < 0:
                return messages
        if self._log.state is not None and self._log.state is not self._state:
            messages.append(self._log.state)
        self._state = self._log.state
        return messages


class EventLog:
    """The newest events, numbered from 1 in each `run` of a home."""

    def __init__(self) -> None:
        self.run = secrets.token_hex(8)
        self.last = 0
        """The number of the last event."""
        self.state: Message | None = None
        """The newest state that listeners are sent."""
        self.news = asyncio.Event()
        """Set at each event and state."""
        self._kept: Deque[Event] = deque(maxlen=KEPT)
        self._messages: dict[int, Message] = {}
        self._listeners: set[Listener] = set()
        self._buckets: dict[tuple[str, Any], Bucket] = {}

    def add(self, kind: str, text: str, *, level: int = logging.INFO, **details: Any) -> None:
        """Adds an event, and logs it at this level. Events from outside that come too often are dropped."""
        text = one_line(text, LONGEST_LINE)
        if kind in FROM_OUTSIDE and not self._is_seldom(kind, details.get("service")):
            return
        LOG.log(level, "%s", text)
        self.last += 1
        self._kept.append(Event(self.last, now(), kind, text, details))
        self._messages.pop(self.last - KEPT, None)
        self._wake()

    def show(self, state: Any) -> None:
        """Sends a state to all listeners."""
        self.state = Message("state", state)
        self._wake()

    def _wake(self) -> None:
        self.news.set()
        self.news.clear()

    def _is_seldom(self, kind: str, service: Any) -> bool:
        return self._buckets.setdefault((kind, service), Bucket(BURST, 1.0)).take()

    def message(self, event: Event) -> Message:
        """The message with an event, which is one for all listeners. Its mark identifies the event across runs."""
        found = self._messages.get(event.number)
        if found is None:
            found = Message("event", {**event.to_json(), "run": self.run}, f"{self.run}-{event.number}")
            self._messages[event.number] = found
        return found

    def after(self, number: int) -> list[Event]:
        """The stored events after the one with this number."""
        missed = self.last - number
        return list(self._kept)[-missed:] if missed > 0 else []

    def listen(self, mark: str = "") -> Listener:
        """Adds a listener, which has the newest state, and the events until the one with this mark: none if this run
        has no event with the mark."""
        run, _, number = mark.partition("-")
        known = run == self.run and number.isdecimal() and len(number) <= LONGEST_NUMBER
        listener = Listener(self, int(number) if known and int(number) <= self.last else 0)
        self._listeners.add(listener)
        return listener

    def dismiss(self) -> None:
        """Removes all listeners."""
        for listener in self._listeners:
            listener.has_ended = True
        self._listeners.clear()
        self._wake()

    def leave(self, listener: Listener) -> None:
        """Removes a listener."""
        self._listeners.discard(listener)

    @property
    def listeners(self) -> int:
        """The number of listeners."""
        return len(self._listeners)
