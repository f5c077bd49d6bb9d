"""The steps of a dispatcher that need input or output. Its generators yield them, and receive their results."""

from __future__ import annotations

from dataclasses import dataclass

from .devices import Call
from .notices import Notice
from .policies import Choice
from .position import Position
from .protocol import Effect
from .snapshots import Snapshot
from .store import Entry, Stored


@dataclass(slots=True)
class Restore(Effect):
    """Continue the session from a snapshot, in a new program."""

    snapshot: Snapshot


@dataclass(slots=True)
class Serve(Effect):
    """Call the device of the service, and return its answer."""

    call: Call


@dataclass(slots=True)
class AskState(Effect):
    """Ask the device of the call's service whether it did the call."""

    call: Call


@dataclass(slots=True)
class AskBack(Effect):
    """Ask whether a service is back."""

    service: str


@dataclass(slots=True)
class Choose(Effect):
    """Ask the policy for a choice."""

    choice: Choice


@dataclass(slots=True)
class Begin(Effect):
    """Create the store with this content."""

    stored: Stored


@dataclass(slots=True)
class Commit(Effect):
    """Write the position and the entries to the store, in one transaction."""

    position: Position
    entries: tuple[Entry, ...]


@dataclass(slots=True)
class Notify(Effect):
    """Send a notice to the listeners."""

    notice: Notice
