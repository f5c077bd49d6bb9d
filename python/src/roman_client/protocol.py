"""The lines of a session and their replies, and the steps of a session, without a transport.

The steps of a session are generators of type `Steps`. They yield effects, which are subclasses of `Effect`. A transport
performs the effects, and sends the results back. So the blocking session and that of `roman_client.aio` share all but
the pipes.
"""

from __future__ import annotations

import logging
import os
import re
import tempfile
from collections.abc import Callable, Generator, Mapping, Sequence
from dataclasses import dataclass
from functools import lru_cache
from pathlib import Path
from typing import Any, Generic, TypeVar, Union

from .documents import Document, DocumentError, PathLike, ShortForm
from .errors import REFUSALS, ProgramEnded, UnexpectedReply
from .replies import Explanation, Move, Offer, Repair, Report, explanation_of, report_of
from .snapshots import Snapshot

Value = TypeVar("Value")
Program = Union[str, Sequence[str]]

LOG = logging.getLogger("roman_client.session")

LONGEST = 16_777_216
"""The maximum length of all lines for one program, in bytes. A longer session ends with status 8."""


RESERVE = 65_536
"""If fewer bytes are left, a session continues in a new program between two requests."""

REMEMBERED = 1024
"""The number of lines of each kind that are cached."""

WORD = re.compile(r"[^\s\x00-\x1f]+")
"""A word of a line: any characters but blanks and control characters."""


# Lines and replies.


@dataclass(frozen=True)
class Event(Generic[Value]):
    """A line of a session. `value` returns the value of its reply, or raises ValueError or IndexError. A reply of
    several lines begins with the word `opens`, and ends with the line `end`."""

    words: tuple[str, ...]
    value: Callable[[Sequence[str]], Value]
    opens: str | None = None
    changes: bool = False

    @property
    def line(self) -> str:
        """The line. Raises ValueError for an invalid word, and TypeError for one that isn't a text."""
        return self.data[:-1].decode()

    @property
    def data(self) -> bytes:
        """The line as it is sent. Raises the errors of `line`."""
        return _data(self.words)


@lru_cache(REMEMBERED)
def _data(words: tuple[str, ...]) -> bytes:
    line = " ".join(words)
    for word in words:
        if WORD.fullmatch(word) is None:
            raise ValueError(f"{word!r} is no word of a line")
    return f"{line}\n".encode()


def _words(first: str, count: int | None, lines: Sequence[str]) -> list[str]:
    """The words of a reply of one line. Raises ValueError unless it begins with `first`, and has `count` words."""
    words = lines[0].split()
    if words[:1] != [first] or (count is not None and len(words) != count):
        raise ValueError("another reply")
    return words


def _nothing(first: str, count: int) -> Callable[[Sequence[str]], None]:
    def value(lines: Sequence[str]) -> None:
        _words(first, count, lines)

    return value


@lru_cache(REMEMBERED)
def do(action: str) -> Event[Offer]:
    """Requests an action."""
    return Event(("do", action), lambda lines: Offer(action, tuple(_words("offer", None, lines)[1:])))


@lru_cache(REMEMBERED)
def use(service: str) -> Event[None]:
    """Delegates the request."""
    return Event(("use", service), _nothing("using", 2))


@lru_cache(REMEMBERED)
def saw(state: str, environment: str) -> Event[Move]:
    """Reports the outcome."""
    return Event(("saw", state, environment), lambda lines: Move(*_words("now", 3, lines)[1:]))


def abort() -> Event[None]:
    """Drops the request."""
    return Event(("abort",), _nothing("aborted", 1))


def _repair(*words: str) -> Event[Repair]:
    def value(lines: Sequence[str]) -> Repair:
        reply = _words("kept", 4, lines)
        return Repair(int(reply[1]), int(reply[3]))

    return Event(words, value, changes=True)


def freeze(service: str) -> Event[Repair]:
    """Takes a service out of use."""
    return _repair("freeze", service)


def thaw(service: str) -> Event[Repair]:
    """Takes a frozen service back into use."""
    return _repair("thaw", service)


def die(service: str) -> Event[Repair]:
    """Removes a service for good."""
    return _repair("die", service)


def join(service: str, behaviour: str, state: str, *, loose: bool = False) -> Event[Repair]:
    """Adds a service in a state of a behaviour of the catalogue."""
    return _repair("join", service, behaviour, state, *(["loose"] if loose else []))


def jump(service: str, state: str) -> Event[None]:
    """Sets the state of a service."""
    return Event(("jump", service, state), _nothing("jumped", 1), changes=True)


def jumpenv(environment: str) -> Event[None]:
    """Sets the state of the environment."""
    return Event(("jumpenv", environment), _nothing("jumped", 1), changes=True)


def report() -> Event[Report]:
    """Asks for the present states."""
    return Event(("report",), report_of, opens="pairs")


def explain() -> Event[Explanation]:
    """Asks why the present pair isn't related."""
    return Event(("explain",), explanation_of, opens="lost")


def quit() -> Event[None]:
    """Ends the session."""
    return Event(("quit",), _nothing("bye", 1))


def event_of(words: Sequence[str]) -> Event[Any]:
    """Returns the change that these words describe. Raises ValueError if they describe none."""
    first, *rest = words
    if first == "join" and len(rest) in (3, 4) and rest[3:] in ([], ["loose"]):
        return join(rest[0], rest[1], rest[2], loose=len(rest) == 4)
    if first == "jump" and len(rest) == 2:
        return jump(*rest)
    one: Mapping[str, Callable[[str], Event[Any]]] = {
        "freeze": freeze,
        "thaw": thaw,
        "die": die,
        "jumpenv": jumpenv,
    }
    if first in one and len(rest) == 1:
        return one[first](*rest)
    raise ValueError(f"{' '.join(words)} isn't a change")


# The effects of a transport.


@dataclass(slots=True)
class Effect:
    """An effect that `Steps` yields."""


@dataclass(slots=True)
class Start(Effect):
    """Start a program, and end the one before. Returns None."""

    words: tuple[str, ...]
    folder: PathLike | None


@dataclass(slots=True)
class Exchange(Effect):
    """Send a line, and read its whole reply. Returns the lines of the reply, or raises `ProgramEnded` or
    `NoReply`."""

    data: bytes
    opens: str | None

    def is_long(self, first: str) -> bool:
        """Whether a reply with this first line ends with the line `end`."""
        return self.opens is not None and first.split()[:1] == [self.opens]


@dataclass(slots=True)
class Stop(Effect):
    """End the program at once. Returns None."""


Steps = Generator[Effect, Any, Value]
"""A generator of effects, which returns a value."""


@dataclass(slots=True)
class Tell(Effect, Generic[Value]):
    """Send a line to a session. Returns the value of the reply."""

    event: Event[Value]


LAST_WORDS = ("refused", "limit", "usage:")
"""The beginnings of lines that replace a reply if the program is about to end."""


def is_farewell(line: str) -> bool:
    """Whether a line replaces a reply, and states why the program ends."""
    words = line.split(maxsplit=1)
    return bool(words) and words[0] in LAST_WORDS


# The session.


class Conversation:
    """The state and the steps of a session, for any transport."""

    def __init__(self, system: PathLike, program: Program, folder: PathLike | None, longest: int) -> None:
        self.words = (program,) if isinstance(program, str) else tuple(program)
        self.system = os.fspath(system)
        self.folder = folder
        self.longest = longest
        self.sent = 0
        """The number of bytes that were sent to the present program."""
        self.changes = 0
        self.request: str | None = None
        """The action of the open request, None if there is none."""
        self.service: str | None = None
        """The service that was used for it, None before `use`."""
        self.document: Document | None = None
        self.unread: DocumentError | None = None
        """The reason why the document couldn't be read."""

    def start(self) -> Steps[Report]:
        """Starts the program on the document, and returns its first report. If the document can be read from here, it
        is stored for snapshots. Raises `ShortForm` if it is in the short form, which the program refuses."""
        try:
            self.document = Document.load(self.system, self.folder)
        except DocumentError as error:
            self.unread = error
        try:
            return (yield from self._begin(self.system))
        except ProgramEnded as ended:
            if isinstance(self.unread, ShortForm):
                raise self.unread from ended
            raise

    def resume(self, snapshot: Snapshot) -> Steps[Report]:
        """Continues from a snapshot in a new program, and returns the report of its states."""
        with tempfile.TemporaryDirectory(prefix="roman-") as folder:
            system = os.path.join(folder, Path(self.system).name)
            snapshot.document.write(system)
            opening = yield from self._begin(system)
        self.document, self.unread = snapshot.document, None
        if snapshot.request is not None:
            yield from self._told(do(snapshot.request))
            if snapshot.service is not None:
                yield from self._told(use(snapshot.service))
        return opening

    def _begin(self, system: str) -> Steps[Report]:
        yield Start((*self.words, "run", system), self.folder)
        self.sent, self.request, self.service = 0, None, None
        return (yield from self._told(report()))

    def snapshot(self) -> Steps[Snapshot]:
        """Returns a snapshot with the present states and the open request."""
        if self.document is None:
            raise self.unread or DocumentError("the session wasn't begun")
        present = yield from self.tell(report())
        return self._snapshot_of(present)

    def _snapshot_of(self, present: Report) -> Snapshot:
        assert self.document is not None
        return Snapshot(self.document.with_states(present), self.request, self.service)

    def tell(self, event: Event[Value]) -> Steps[Value]:
        """Sends a line, and returns the value of the reply. If the program accepts few further bytes, the session first
        continues in a new program: between two requests while there is some room, and otherwise when there is none."""
        data = event.data
        needed = self.sent + len(data) + len(REPORT)
        if needed > self.longest:
            yield from self._go_on()
        elif self.request is None and needed + min(RESERVE, self.longest // 4) > self.longest:
            try:
                yield from self._go_on()
            except (OSError, DocumentError) as error:
                LOG.warning("%s can't continue in a new program yet: %s", self.system, error)
        return (yield from self._sent(event, data))

    def _go_on(self) -> Steps[None]:
        """Continues in a new program, if the document is known."""
        if self.document is None:
            LOG.warning("%s can't continue in a new program: %s", self.system, self.unread)
            return
        snapshot = self._snapshot_of((yield from self._told(report())))
        LOG.info("%s continues in a new program after %s bytes", self.system, self.sent)
        yield from self.resume(snapshot)

    def _told(self, event: Event[Value]) -> Steps[Value]:
        """Sends a line, and returns the value of the reply."""
        return self._sent(event, event.data)

    def _sent(self, event: Event[Value], data: bytes) -> Steps[Value]:
        """Sends a line as these bytes, and returns the value of the reply."""
        self.sent += len(data)
        lines: list[str] = yield Exchange(data, event.opens)
        LOG.debug("%s: %s", data, lines[0])
        refusal = REFUSALS.get(lines[0])
        if refusal is not None:
            raise refusal(event.line, lines[0])
        try:
            value = event.value(lines)
        except (ValueError, IndexError):
            yield Stop()
            raise UnexpectedReply(event.line, lines[0]) from None
        self._note(event)
        return value

    def _note(self, event: Event[Any]) -> None:
        """Counts a change, and tracks the open request."""
        self.changes += event.changes
        if event.words[0] == "do":
            self.request = event.words[1]
        elif event.words[0] == "use":
            self.service = event.words[1]
        elif event.words[0] in ("saw", "abort"):
            self.request = self.service = None


REPORT = report().data
"""The line that asks for the present states, as it is sent."""


def run(steps: Steps[Value], perform: Callable[[Effect], Any]) -> Value:
    """Performs the effects one by one, and returns the value of the steps."""
    try:
        effect = next(steps)
        while True:
            try:
                result = perform(effect)
            except BaseException as error:
                effect = steps.throw(error)
            else:
                effect = steps.send(result)
    except StopIteration as end:
        value: Value = end.value
        return value
