"""Limits of the input that a home accepts from outside."""

from __future__ import annotations

import time
from collections.abc import Callable
from dataclasses import dataclass

LONGEST_BODY = 65_536
"""The maximum length of a body and of a message, in bytes."""

LONGEST_NAME = 256
"""The maximum length of a key and of a name in a request, in bytes."""

LONGEST_TEXT = 500
"""The maximum length of a text from outside in an error."""

LONGEST_LINE = 2000
"""The maximum length of an event and of an entry of the history."""

Clock = Callable[[], float]


@dataclass(frozen=True)
class Limits:
    """The limits of a home. Each has the same name in the home file."""

    connections: int = 256
    """The maximum number of open connections to the page."""

    listeners: int = 64
    """The maximum number of connections that listen to events."""

    waiting: int = 100
    """The maximum number of open requests, over HTTP and MQTT together."""

    messages: int = 100
    """The maximum number of requests over MQTT per second."""

    silence: float = 30.0
    """The number of seconds that a connection may take to send a request, to read the answer, and between two
    requests."""

    unread: float = 10.0
    """The number of seconds for which a listener may leave events unread."""


def one_line(text: str, most: int = LONGEST_TEXT) -> str:
    """A text from outside as a line of at most `most` characters. Characters that can't be printed are escaped, such as
    newlines and the control characters of terminals."""
    shown = text if len(text) <= most else f"{text[:most - 3]}..."
    return "".join(each if each.isprintable() else each.encode("unicode_escape").decode() for each in shown)


class Bucket:
    """A token bucket. It allows `burst` things at once, and `rate` things a second after that."""

    def __init__(self, burst: int, rate: float, clock: Clock | None = None) -> None:
        self._burst = burst
        self._rate = rate
        self._clock = clock or time.monotonic
        self._left = float(burst)
        self._at = self._clock()

    @property
    def is_empty(self) -> bool:
        """Whether the bucket is empty."""
        present = self._clock()
        self._left = min(self._burst, self._left + (present - self._at) * self._rate)
        self._at = present
        return self._left < 1

    def take(self) -> bool:
        """Takes one thing out. Returns False if the bucket is empty."""
        if self.is_empty:
            return False
        self._left -= 1
        return True
