"""A session with the program, for callers that block."""

from __future__ import annotations

import threading
from types import TracebackType
from typing import Any

from . import protocol
from .documents import PathLike
from .errors import NotBegun
from .library import UNLIMITED, InProcess, Library
from .pipes import Pipes
from .protocol import LONGEST, Conversation, Effect, Event, Exchange, Program, Start, Steps, Stop, Value
from .replies import Explanation, Move, Offer, Repair, Report
from .snapshots import Snapshot

PATIENCE = 5.0
"""The number of seconds that `close` waits for the call of another thread before it interrupts that call."""


class Session:
    """A running program that answers the lines of a session.

    A session is a context manager, which ends the program at the end of the block. Each event has a method, which sends
    one line and waits for the whole reply. Calls of several threads take turns.

    If the program refuses a line, the method raises a `Refusal`, and nothing changes. A word that is empty, has a space
    or can't be encoded raises ValueError, and one that isn't a text raises TypeError. Nothing is sent then. If the
    program has ended, each call raises `ProgramEnded` at once. If an exchange with the program fails or is interrupted,
    the session ends the program, because the rest of its reply would be taken for the next one.

    A program accepts 16,777,216 bytes of lines. When few are left, the session continues in a new program from the
    present states, which callers don't notice. Only the split between `Repair.kept` and `Repair.added`, and the entries
    of an explanation, may differ. The session needs its document for this. If the document can't be read from here, a
    session of that length ends.
    """

    def __init__(
        self,
        system: PathLike,
        *,
        program: Program = "roman",
        folder: PathLike | None = None,
        timeout: float | None = None,
        longest: int = LONGEST,
        library: Library = False,
    ) -> None:
        """Starts the program on a document, and waits for its first report.

        `program` is its name, or a list of the words that call it. `folder` is the folder in which it runs, and names
        of files are relative to it. `timeout` is the number of seconds that a reply may take, None for no limit.
        `longest` is the number of bytes of lines after which the session continues in a new program. Raises
        `ProgramEnded` if the document is refused or exceeds its limit, and OSError if the program can't be started.

        If `library` is true, the session runs within this process, by libroman, and a request takes microseconds. It
        needs no program, ignores `timeout` and `longest`, and ends if this process crashes. A path names the shared
        library. Raises OSError if the library can't be loaded.
        """
        self.core = Conversation(system, program, folder, UNLIMITED if library else longest)
        self._begin(timeout, library, self.core.start())

    @classmethod
    def resume(
        cls,
        snapshot: Snapshot,
        *,
        program: Program = "roman",
        folder: PathLike | None = None,
        timeout: float | None = None,
        longest: int = LONGEST,
        library: Library = False,
    ) -> Session:
        """Returns a session that continues from a snapshot, with its open request. The arguments are those of
        `Session`."""
        session = cls.__new__(cls)
        session.core = Conversation("system.json", program, folder, UNLIMITED if library else longest)
        session._begin(timeout, library, session.core.resume(snapshot))
        return session

    def _begin(self, timeout: float | None, library: Library, opening: Steps[Report]) -> None:
        self._timeout = timeout
        self._library = library
        self._turn = threading.RLock()
        self._pipes: Pipes | InProcess | None = None
        try:
            self.opening: Report = self.run(opening)
            """The first report of the session."""
        except BaseException:
            if self._pipes is not None:
                self._pipes.stop()
            raise

    # The events.

    def do(self, action: str) -> Offer:
        """Requests an action, and returns the services that may serve it. The next event is `use` or `abort`."""
        return self.tell(protocol.do(action))

    def use(self, service: str) -> None:
        """Delegates the request to a service that was offered. The next event is `saw` or `abort`."""
        self.tell(protocol.use(service))

    def saw(self, state: str, environment: str) -> Move:
        """Reports the outcome: the state of the service that was used, and that of the environment."""
        return self.tell(protocol.saw(state, environment))

    def abort(self) -> None:
        """Drops the open request. No state changes."""
        self.tell(protocol.abort())

    def freeze(self, service: str) -> Repair:
        """Takes a service out of use. It keeps its state."""
        return self.tell(protocol.freeze(service))

    def thaw(self, service: str) -> Repair:
        """Takes a frozen service back into use."""
        return self.tell(protocol.thaw(service))

    def die(self, service: str) -> Repair:
        """Removes a service for good."""
        return self.tell(protocol.die(service))

    def join(self, service: str, behaviour: str, state: str, *, loose: bool = False) -> Repair:
        """Adds a service in a state of a behaviour of the catalogue. A `loose` service needn't be in a final state when
        the target is."""
        return self.tell(protocol.join(service, behaviour, state, loose=loose))

    def jump(self, service: str, state: str) -> None:
        """Sets the state of a service. No transition has to lead there."""
        self.tell(protocol.jump(service, state))

    def jumpenv(self, environment: str) -> None:
        """Sets the state of the environment. No transition has to lead there."""
        self.tell(protocol.jumpenv(environment))

    def report(self) -> Report:
        """Returns the present states, and the offers."""
        return self.tell(protocol.report())

    def explain(self) -> Explanation:
        """Returns why the present pair isn't related. Raises `Related` if it is."""
        return self.tell(protocol.explain())

    def quit(self) -> int:
        """Ends the session, and returns the program's status."""
        self.tell(protocol.quit())
        return self.close()

    def tell(self, event: Event[Value]) -> Value:
        """Sends the line of any event of `roman_client.protocol`, and returns the value of its reply."""
        return self.run(self.core.tell(event))

    def restore(self, snapshot: Snapshot) -> Report:
        """Continues from a snapshot in a new program, and returns the report of its states."""
        return self.run(self.core.resume(snapshot))

    def snapshot(self) -> Snapshot:
        """Returns a snapshot, with which `resume` continues. Raises `DocumentError` if the document couldn't be read
        from here."""
        return self.run(self.core.snapshot())

    # State, and the end.

    @property
    def changes(self) -> int:
        """The number of changes: freezes, thaws, deaths, joins and jumps."""
        return self.core.changes

    @property
    def status(self) -> int | None:
        """The program's status, or None while it runs."""
        return self._running().poll()

    @property
    def pid(self) -> int:
        """The process ID of the program. In a session by the library, it is that of this process."""
        return self._running().pid

    @property
    def room(self) -> int:
        """The number of bytes of lines that the present program still accepts."""
        return self.core.longest - self.core.sent

    def close(self) -> int:
        """Closes the input, ends the program if it doesn't end by itself, and returns its status. A call of another
        thread that waits for a long reply is interrupted, and raises `ProgramEnded`."""
        while not self._turn.acquire(timeout=PATIENCE):
            self._running().interrupt()
        try:
            return self._running().close()
        finally:
            self._turn.release()

    def __enter__(self) -> Session:
        return self

    def __exit__(
        self,
        kind: type[BaseException] | None,
        error: BaseException | None,
        trace: TracebackType | None,
    ) -> None:
        self.close()

    # Steps.

    def run(self, steps: Steps[Value]) -> Value:
        """Performs steps of the session, and returns their value."""
        with self._turn:
            return protocol.run(steps, self._perform)

    def _perform(self, effect: Effect) -> Any:
        """Performs one effect."""
        if isinstance(effect, Exchange):
            return self._running().exchange(effect)
        if isinstance(effect, Start):
            before, self._pipes = self._pipes, self._started(effect)
            if before is not None:
                before.close()
            return None
        if isinstance(effect, Stop):
            return self._running().stop()
        raise TypeError(f"{effect!r} isn't an effect of a session")

    def _started(self, start: Start) -> Pipes | InProcess:
        return InProcess(start, self._library) if self._library else Pipes(start, self._timeout)

    def _running(self) -> Pipes | InProcess:
        if self._pipes is None:
            raise NotBegun("the session wasn't begun")
        return self._pipes
