"""Compares the actions of plans with those of the environment and the services."""

from __future__ import annotations

import difflib
from collections.abc import Iterator, Mapping
from dataclasses import dataclass

from .findings import meant
from .reader import Span

Places = Mapping[str, Span]
"""Actions, each with its first place."""


@dataclass(frozen=True)
class Actions:
    """The actions that plans request, those on which the environment has a step, and those that services have."""

    planned: Places
    moved: Places
    served: Places
    idle: Mapping[str, str]
    """The actions that a behaviour has and no service, each with the name of the behaviour."""

    def faults(self) -> Iterator[tuple[Span, str]]:
        """The requests that can't be served, each with the mistake: a similar action that is used nowhere else, if
        there is one."""
        for action, span in self.planned.items():
            if action not in self.moved:
                fault = f'the environment has no step on "{action}"'
                yield self._stray(action, self.moved, self.served) or (span, fault + meant(action, self.moved))
            elif action not in self.served:
                yield self._stray(action, self.served, self.moved) or (span, self._unserved(action))

    def _stray(self, action: str, there: Places, elsewhere: Places) -> tuple[Span, str] | None:
        """The place of an action with a similar name that is used only in one part, if there is one."""
        lonely = [each for each in there if each not in elsewhere and each not in self.planned]
        for near in difflib.get_close_matches(action, lonely, 1):
            return there[near], f'"{near}" is used only here{meant(near, [action])}'
        return None

    def _unserved(self, action: str) -> str:
        if action in self.idle:
            return f'no service has a step on "{action}"; behaviour "{self.idle[action]}" has one, and no service'
        return f'no service has a step on "{action}"{meant(action, self.served)}'
