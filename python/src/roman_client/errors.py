"""Errors of the client: refusals, the end of the program, and errors of the store."""

from __future__ import annotations

from collections.abc import Sequence
from typing import TYPE_CHECKING

if TYPE_CHECKING:
    from .notices import Done, Failure
    from .replies import Explanation


class RomanError(Exception):
    """The base class of all errors of this client."""


class NotBegun(RomanError):
    """A session or a dispatcher was called before it began."""


class SessionOver(RomanError):
    """The session is over.

    If a dispatcher had a request open, `action` is the requested action, `service` is the service that was chosen, and
    `outcome` is the answer of its device. Each is None if the request didn't come so far.
    """

    action: str | None = None
    service: str | None = None
    outcome: tuple[str, str] | None = None


class ProgramEnded(SessionOver):
    """The program has ended.

    `status` is its exit status, or the negative number of the signal that ended it. `output` has lines that it wrote
    in place of a reply, such as `refused ..` for a document. `errors` has the last lines of its standard error.
    """

    def __init__(self, status: int, output: Sequence[str], errors: Sequence[str]) -> None:
        self.status = status
        self.output: tuple[str, ...] = tuple(output)
        self.errors: tuple[str, ...] = tuple(errors)
        said = "; ".join((*self.output, *self.errors))
        super().__init__(f"the program ended with status {status}" + (f": {said}" if said else ""))

    def again(self) -> ProgramEnded:
        """Returns the error for a later call."""
        return ProgramEnded(self.status, self.output, self.errors)


class NoReply(SessionOver):
    """The reply wasn't complete within the session's timeout. The client ended the program."""


class UnexpectedReply(SessionOver):
    """This client doesn't know the reply to a line. The client ended the program."""

    def __init__(self, line: str, reply: str) -> None:
        self.line = line
        self.reply = reply
        super().__init__(f"{line!r} was answered {reply!r}")


class Refusal(RomanError):
    """The program refused a line, which changed nothing. `line` is the line that was sent."""

    def __init__(self, line: str, reply: str) -> None:
        self.line = line
        self.reply = reply
        super().__init__(f"{line}: {reply}")


class BadLine(Refusal):
    """`error line`: the program doesn't know the line, or the line is too long."""


class UnknownName(Refusal):
    """`error name`: a word names an action, service, behaviour or state that doesn't exist, or isn't a valid name for a
    service that joins."""


class Busy(Refusal):
    """`error busy`: a request is open."""


class Idle(Refusal):
    """`error idle`: no open request expects this event."""


class NoComposition(Refusal):
    """`no composition`: there is no composition from the present states.

    A dispatcher sets the `explanation`, the `failures` of this request, and the names of the services that are
    `frozen`. A session leaves the explanation None, and `Session.explain` returns it.
    """

    def __init__(self, line: str, reply: str, explanation: Explanation | None = None) -> None:
        super().__init__(line, reply)
        self.explanation = explanation
        self.failures: tuple[Failure, ...] = ()
        self.frozen: tuple[str, ...] = ()


class NotAllowed(Refusal):
    """`not allowed`: the target doesn't allow that action in its present state."""


class NotOffered(Refusal):
    """`not offered`: the service is present, but isn't offered for this request."""


class Impossible(Refusal):
    """`impossible`: no transitions lead to these states."""


class AlreadyFrozen(Refusal):
    """`error frozen`: the service is already frozen."""


class NotFrozen(Refusal):
    """`error ready`: the service isn't frozen."""


class NameTaken(Refusal):
    """`error taken`: a service with this name is already present."""


class Full(Refusal):
    """`error full`: there are already as many services as the program allows."""


class OverLimit(Refusal):
    """`error limit`: with this service the system would exceed its document's limit."""


class Related(Refusal):
    """`error related`: there is a composition from the present states, and nothing to explain."""


REFUSALS: dict[str, type[Refusal]] = {
    "error line": BadLine,
    "error name": UnknownName,
    "error busy": Busy,
    "error idle": Idle,
    "no composition": NoComposition,
    "not allowed": NotAllowed,
    "not offered": NotOffered,
    "impossible": Impossible,
    "error frozen": AlreadyFrozen,
    "error ready": NotFrozen,
    "error taken": NameTaken,
    "error full": Full,
    "error limit": OverLimit,
    "error related": Related,
}
"""The exception for each refusal."""


class InDoubt(RomanError):
    """A request may have been served: its call was interrupted, or its device was late or lost, and the device can't
    report the result."""


class KeyTaken(RomanError):
    """The key of a request was used for another request, or for another outcome."""


class InsideRequest(RomanError):
    """A device, a policy or a listener made a call that would wait for its own request. Call `post` instead."""


class StoreError(RomanError):
    """The base class of errors of a dispatcher's store."""


class StoreLocked(StoreError):
    """Another dispatcher uses the store."""


class StoreBroken(StoreError):
    """The store can't be read, or belongs to another document."""


class StoreFailed(StoreError):
    """The store couldn't be written, for example because the disk is full.

    No device is asked until it can be written. The result of a device that was asked before is kept, and written
    later. If that result is that a request was served, `done` is set.
    """

    done: Done | None = None
