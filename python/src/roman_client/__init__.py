"""A client of `roman`, which composes behaviours.

`Session` talks to the program over pipes. It has a method for each event, returns replies as values, and raises
refusals as exceptions. `Dispatcher` uses a session to run real devices. `Document` reads system documents.
`roman_client.aio` has the same calls for asyncio.
"""

import logging

from .devices import (
    NOT_DONE,
    Act,
    Back,
    Call,
    Device,
    DeviceFailed,
    DeviceLost,
    DeviceTimeout,
    Did,
    Outcome,
    Verdict,
    device,
)
from .dispatcher import Dispatcher
from .documents import Document, DocumentError, Environment, Machine, ShortForm
from .errors import (
    AlreadyFrozen,
    BadLine,
    Busy,
    Full,
    Idle,
    Impossible,
    InDoubt,
    InsideRequest,
    KeyTaken,
    NameTaken,
    NoComposition,
    NoReply,
    NotAllowed,
    NotBegun,
    NotFrozen,
    NotOffered,
    OverLimit,
    ProgramEnded,
    Refusal,
    Related,
    RomanError,
    SessionOver,
    StoreBroken,
    StoreError,
    StoreFailed,
    StoreLocked,
    UnexpectedReply,
    UnknownName,
)
from .notices import Asked, Changed, Done, Failure, Notice, Recovery, Restarted
from .policies import Choice, Chosen, LeastCost, Policy, first_offered
from .position import Frozen, Position
from .remedies import Change, Remedy, mend
from .replies import Answer, Explanation, Lost, Move, Offer, Repair, Report, Service
from .session import Session
from .snapshots import Snapshot

__all__ = [
    "Act",
    "AlreadyFrozen",
    "Answer",
    "Asked",
    "Back",
    "BadLine",
    "Busy",
    "Call",
    "Change",
    "Changed",
    "Choice",
    "Chosen",
    "Device",
    "DeviceFailed",
    "DeviceLost",
    "DeviceTimeout",
    "Did",
    "Dispatcher",
    "Document",
    "DocumentError",
    "Done",
    "Environment",
    "Explanation",
    "Failure",
    "Frozen",
    "Full",
    "Idle",
    "Impossible",
    "InDoubt",
    "InsideRequest",
    "KeyTaken",
    "LeastCost",
    "Lost",
    "Machine",
    "Move",
    "NOT_DONE",
    "NameTaken",
    "NoComposition",
    "NoReply",
    "NotAllowed",
    "NotBegun",
    "NotFrozen",
    "NotOffered",
    "Notice",
    "Offer",
    "Outcome",
    "OverLimit",
    "Policy",
    "Position",
    "ProgramEnded",
    "Recovery",
    "Refusal",
    "Related",
    "Remedy",
    "Repair",
    "Report",
    "Restarted",
    "RomanError",
    "Service",
    "Session",
    "SessionOver",
    "ShortForm",
    "Snapshot",
    "StoreBroken",
    "StoreError",
    "StoreFailed",
    "StoreLocked",
    "UnexpectedReply",
    "UnknownName",
    "Verdict",
    "device",
    "first_offered",
    "mend",
]

__version__ = "1.0.0"

logging.getLogger(__name__).addHandler(logging.NullHandler())
