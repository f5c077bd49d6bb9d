"""Notices of a dispatcher: requests that were served, services that failed, and changes."""

from __future__ import annotations

from collections.abc import Callable
from dataclasses import dataclass
from typing import Any, Union

from .devices import Call, Verdict


@dataclass(frozen=True)
class Failure:
    """A service failed at a request, and was frozen. Either its device raised `error`, or its `outcome` was
    impossible."""

    service: str
    action: str
    error: BaseException | None
    outcome: Any

    @property
    def text(self) -> str:
        """A description of the failure."""
        if self.error is not None:
            return str(self.error) or type(self.error).__name__
        words = self.outcome if isinstance(self.outcome, (tuple, list)) else (repr(self.outcome),)
        return f"answered {' '.join(map(str, words))}, which can't be"


@dataclass(frozen=True)
class Done:
    """A request was served: the service, the states after it, and the services that failed at it before."""

    action: str
    service: str
    state: str
    target: str
    environment: str
    failures: tuple[Failure, ...]


@dataclass(frozen=True)
class Asked:
    """A device is about to be asked."""

    call: Call


@dataclass(frozen=True)
class Changed:
    """A change was made. `words` are the words of its line, such as `("freeze", "window")`."""

    words: tuple[str, ...]


@dataclass(frozen=True)
class Recovery:
    """The result of the call that was under way when the dispatcher was killed.

    If the call was carried out, `done` has the states after it. If it wasn't, no state has changed, and the request can
    be made again. If it is in doubt, its service is frozen. If it turns out to have been carried out, thaw the service,
    and call `Dispatcher.record`.
    """

    call: Call
    verdict: Verdict
    done: Done | None


@dataclass(frozen=True)
class Restarted:
    """The program ended, or a request was interrupted, and another program continued from the store. Notices of changes
    just before may be missing. A report has the present states."""

    why: str


Notice = Union[Asked, Done, Failure, Changed, Recovery, Restarted]
Watch = Callable[[Notice], None]
