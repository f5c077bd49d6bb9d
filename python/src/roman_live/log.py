"""The log: one line a minute of a repeated warning."""

from __future__ import annotations

import logging
import time

from .limits import Clock

MINUTE = 60.0

LINES = 600
"""The maximum number of different warnings in a minute. Further ones are left out."""


class OnceAMinute(logging.Filter):
    """A filter that passes the first of equal warnings in a minute. The first one after that minute has the number of
    those that were left out."""

    def __init__(self, clock: Clock = time.monotonic) -> None:
        super().__init__()
        self._clock = clock
        self._begun = clock()
        self._repeats: dict[tuple[str, str], int] = {}
        self._before: dict[tuple[str, str], int] = {}

    def filter(self, record: logging.LogRecord) -> bool:
        if record.levelno < logging.WARNING:
            return True
        if self._clock() - self._begun >= MINUTE:
            self._begun = self._clock()
            self._before, self._repeats = self._repeats, {}
        text = record.getMessage()
        key = record.name, text
        if key in self._repeats:
            self._repeats[key] += 1
            return False
        if len(self._repeats) >= LINES:
            return False
        self._repeats[key] = 0
        left_out = self._before.get(key, 0)
        if left_out:
            record.msg, record.args = f"{text} ({left_out} times more in a minute)", ()
        return True
