"""Imports a journal, the older form of a store: a line of JSON for each event.

The first line is a snapshot, and each other line is an event since then. The session replays the events, and the
resulting position is the first one of the database.
"""

from __future__ import annotations

import contextlib
import json
import logging
from dataclasses import dataclass
from pathlib import Path
from typing import Any

from . import protocol
from .devices import Call, DeviceFailed
from .documents import DocumentError
from .errors import BadLine, Impossible, StoreBroken, UnknownName
from .notices import Done, Failure
from .position import Frozen, Place, Position
from .protocol import Steps, Tell
from .snapshots import Snapshot

LOG = logging.getLogger("roman_client.store")

MAGIC = b"SQLite format 3\0"
"""The first bytes of a database."""


@dataclass(frozen=True)
class Journal:
    """A journal: its first line, and the events since then. `roman-live` stored two values beside it: the services that
    were frozen by hand, and the number from which its calls are counted. Both are None for another program."""

    path: Path
    snapshot: Snapshot
    failed: tuple[str, ...]
    served: int
    calls: int
    keys: dict[str, Done | Call]
    events: tuple[dict[str, Any], ...]
    by_hand: frozenset[str] | None
    first: int | None

    @classmethod
    def read(cls, path: Path) -> Journal:
        """Reads a journal. An incomplete last line is left out: the dispatcher ended while it was written. Raises
        `StoreBroken`."""
        lines = _lines(path)
        try:
            head = json.loads(lines[0])
            if head["journal"] != 1:
                raise ValueError(f"{head['journal']!r} isn't a version of a journal")
            snapshot = Snapshot.of_json(head["snapshot"])
            keys: dict[str, Done | Call] = {
                key: done_of(kept) if kind == "done" else call_of(kept) for key, kind, kept in head["keys"]
            }
            events = tuple(json.loads(line) for line in lines[1:])
            by_hand, first = _beside(path)
            failed = tuple(head["failed"])
            return cls(path, snapshot, failed, head["served"], head["calls"], keys, events, by_hand, first)
        except (DocumentError, IndexError, KeyError, TypeError, ValueError, RecursionError) as error:
            raise StoreBroken(f"{path} is neither a store nor a journal: {error!r}") from None

    def present(self) -> set[str]:
        """The services that are present at the end of the journal."""
        found = {each.name for each in self.snapshot.document.services}
        for event in self.events:
            word, service, *_ = event.get("words") or ("", "")
            if word == "join":
                found.add(service)
            elif word == "die":
                found.discard(service)
        return found

    def forget(self) -> None:
        """Removes the files beside the journal, once it is imported."""
        for ending in (".live", ".commands"):
            with contextlib.suppress(OSError):
                self.path.with_name(f"{self.path.name}{ending}").unlink()
        LOG.warning(
            "%s was a journal of an older form, and is a database now; %s.old is the journal", *2 * (self.path,)
        )


def is_database(path: Path) -> bool:
    """Whether a file is a database. Raises `StoreBroken` if it can't be read."""
    try:
        with path.open("rb") as file:
            return file.read(len(MAGIC)) == MAGIC
    except OSError as error:
        raise StoreBroken(f"{path}: {error.strerror}") from error


def _lines(path: Path) -> list[bytes]:
    """The complete lines of a journal."""
    try:
        data = path.read_bytes()
    except OSError as error:
        raise StoreBroken(f"{path}: {error.strerror}") from error
    *lines, rest = data.split(b"\n")
    if rest or lines and not _is_json(lines[-1]):
        LOG.warning("%s: the last line is incomplete, and is left out", path)
    return lines if not lines or len(lines) == 1 or _is_json(lines[-1]) else lines[:-1]


def _is_json(line: bytes) -> bool:
    try:
        return isinstance(json.loads(line), dict)
    except (ValueError, RecursionError):
        return False


def _beside(path: Path) -> tuple[frozenset[str] | None, int | None]:
    """The services that were frozen by hand, and the first number, from the file beside a journal."""
    try:
        value = json.loads(path.with_name(f"{path.name}.live").read_text(encoding="utf-8"))
    except FileNotFoundError:
        return None, None
    except OSError as error:
        raise StoreBroken(f"{path}.live: {error.strerror}") from error
    return frozenset(map(str, value["held"])), int(value["first"])


def call_of(value: Any) -> Call:
    """Reads a call from JSON."""
    return Call(value["service"], value["action"], value["request"], value["number"], value["key"])


def done_of(value: Any) -> Done:
    """Reads a request that was served from JSON."""
    failures = tuple(
        Failure(each["service"], each["action"], DeviceFailed(each["error"] or f"answered {each['outcome']}"), None)
        for each in value["failures"]
    )
    return Done(value["action"], value["service"], value["state"], value["target"], value["environment"], failures)


class Replay:
    """Replays a journal in a session that begins at its snapshot. Its attributes are then those of the dispatcher at
    the end of the journal."""

    def __init__(self, journal: Journal) -> None:
        document = journal.snapshot.document
        places = {each.name: Place(each.behaviour, each.state, each.loose) for each in document.services}
        self.position = Position(document.start, document.environment.start, places, journal.served, journal.calls)
        self.keys = dict(journal.keys)
        self.under_way: Call | None = None
        self.request = 0
        self.failures: list[Failure] = []
        self._journal = journal
        # A dispatcher froze services that failed, or by hand. A home also froze devices that were gone.
        self._unfailed = Frozen.BY_HAND if journal.by_hand is None else Frozen.GONE
        self._open = False

    def play(self) -> Steps[None]:
        """Replays all events."""
        for service in self._journal.snapshot.document.services:
            if service.frozen:
                cause = Frozen.FAILED if service.name in self._journal.failed else self._unfailed
                self._freeze(service.name, cause)
        for event in self._journal.events:
            yield from self._play(event)
        for name in self.position.frozen(*Frozen).intersection(self._journal.by_hand or ()):
            self._freeze(name, Frozen.BY_HAND)

    def _freeze(self, service: str, cause: Frozen) -> None:
        place = self.position.places[service]._replace(frozen=cause)
        self.position = self.position.with_place(service, place)

    def _play(self, event: Any) -> Steps[None]:
        kind = event["event"]
        if kind == "begun":
            yield from self._begin(call_of(event["call"]), event["again"])
        elif kind == "changed":
            words = tuple(event["words"])
            yield Tell(protocol.event_of(words))
            self.position = self.position.after(words, self._unfailed)
        elif self.under_way is None:
            raise ValueError("no call is under way")
        elif kind == "answered":
            yield from self._answer(self.under_way, *event["outcome"])
        elif kind == "failed":
            error = event["error"] or f"answered {event['answer']}, which can't be"
            yield from self._fail(self.under_way, Frozen.FAILED, error)
        elif kind == "doubted":
            self._keep(self.under_way, self.under_way)
            yield from self._fail(self.under_way, Frozen.IN_DOUBT, "in doubt")
        elif kind == "dropped":
            self.under_way, self._open = None, False
            yield Tell(protocol.abort())
        else:
            raise ValueError(f"{kind!r} isn't an event")

    def _begin(self, call: Call, again: bool) -> Steps[None]:
        if not self._open:
            yield Tell(protocol.do(call.request))
            self._open = True
        yield Tell(protocol.use(call.service))
        self.under_way = call
        self.position = self.position._replace(calls=call.number)
        if not again:
            self.request, self.failures = call.number, []

    def _answer(self, call: Call, state: str, environment: str) -> Steps[None]:
        try:
            move = yield Tell(protocol.saw(state, environment))
        except (BadLine, Impossible, UnknownName):
            yield from self._fail(call, Frozen.FAILED, f"answered {state} {environment}, which can't be")
            return
        place = self.position.places[call.service]._replace(state=state)
        position = self.position.with_place(call.service, place)
        served = position.served + 1
        self.position = position._replace(target=move.target, environment=move.environment, served=served)
        self.under_way, self._open = None, False
        failures, self.failures = tuple(self.failures), []
        self._keep(call, Done(call.request, call.service, state, move.target, move.environment, failures))

    def _fail(self, call: Call, cause: Frozen, error: str) -> Steps[None]:
        yield Tell(protocol.abort())
        yield Tell(protocol.freeze(call.service))
        self.under_way, self._open = None, False
        self._freeze(call.service, cause)
        if cause is Frozen.FAILED:
            self.failures.append(Failure(call.service, call.request, DeviceFailed(error), None))

    def _keep(self, call: Call, kept: Done | Call) -> None:
        if call.key is not None:
            self.keys.pop(call.key, None)
            self.keys[call.key] = kept
