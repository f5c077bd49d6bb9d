"""The present activity of a home."""

from __future__ import annotations

from collections.abc import Callable
from dataclasses import dataclass, field

from roman_client import Call, Chosen, Failure
from roman_client.policies import Choice

from .config import PolicyName
from .errors import MovedMeanwhile, check_files
from .policies import Choose
from .sources import reason


@dataclass
class Activity:
    """The present activity: the service that was `chosen` for the open request, until its answer comes, the call that
    is under way with its time, and the failures at the request. It also has the reason of the last choice, and whether
    a change that a device reported comes before the next choice."""

    chosen: str | None = None
    call: tuple[Call, str] | None = None
    failures: list[Failure] = field(default_factory=list)
    reason: str = ""
    is_moving: Callable[[], bool] = lambda: False
    is_ahead: bool = False
    """Whether a service was chosen for the next request while the end of the last one isn't written."""

    def asked(self, call: Call, since: str) -> None:
        """Begins a call of the chosen service."""
        self.call, self.is_ahead = (call, since), False

    def is_at(self, service: str) -> bool:
        """Whether a call of this service is under way, or has been answered and isn't recorded yet."""
        return self.call is not None and self.call[0].service == service

    def ended(self) -> None:
        """Ends the call. A service that was chosen since then stays so."""
        self.call = None
        if not self.is_ahead:
            self.chosen = None


class Chooser:
    """The policy of a home. While something moves, it refuses to choose, because the offer may be outdated."""

    def __init__(self, policy: Choose, name: str, activity: Activity) -> None:
        self.policy = policy
        self._name = name
        self._activity = activity

    async def __call__(self, choice: Choice) -> Chosen:
        """Returns the chosen service, with the reason for the history. Raises `MovedMeanwhile`, and `NoSpace` if the
        system has no file for a call of a device."""
        self._check()
        check_files()
        service = await self.policy(choice)
        self._check()
        self._activity.chosen = service
        self._activity.is_ahead = self._activity.call is not None
        self._activity.reason = reason(choice, PolicyName(self._name))
        return Chosen(service, f"{self._name}, of {', '.join(choice.offered)}")

    def _check(self) -> None:
        if self._activity.is_moving():
            raise MovedMeanwhile("something moved by itself")
