"""A session with the program, for asyncio."""

from __future__ import annotations

import asyncio
from collections.abc import Callable, Coroutine
from types import CoroutineType, TracebackType
from typing import Any

from .. import protocol
from ..documents import PathLike
from ..errors import NotBegun
from ..library import UNLIMITED, Library
from ..protocol import LONGEST, Conversation, Effect, Event, Exchange, Program, Start, Steps, Stop, Value
from ..replies import Explanation, Move, Offer, Repair, Report
from ..snapshots import Snapshot
from .library import LibraryStreams
from .streams import Streams, advance, run

IN_A_ROW = 100
"""The number of calls after which other tasks have a turn of the loop, even if each reply comes at once."""


class Session:
    """A running program that answers the lines of a session, as `roman_client.Session` does.

    `async with` begins it, and ends the program at the end of the block. Alternatively, call `begin` and `close`. Calls
    of several tasks take turns. A call that is cancelled while it waits for a reply ends the program.
    """

    def __init__(
        self,
        system: PathLike,
        *,
        program: Program = "roman",
        folder: PathLike | None = None,
        timeout: float | None = None,
        longest: int = LONGEST,
        library: Library = False,
    ) -> None:
        """The arguments are those of `roman_client.Session`. `begin` starts the program."""
        self.core = Conversation(system, program, folder, UNLIMITED if library else longest)
        self._timeout = timeout
        self._library = library
        self._turn: asyncio.Lock | None = None
        self._calls = 0
        self._streams: Streams | LibraryStreams | None = None
        self._first: Callable[[], Steps[Report]] = self.core.start
        self.opening: Report
        """The first report of the session."""

    @classmethod
    def resume(
        cls,
        snapshot: Snapshot,
        *,
        program: Program = "roman",
        folder: PathLike | None = None,
        timeout: float | None = None,
        longest: int = LONGEST,
        library: Library = False,
    ) -> Session:
        """Returns a session that continues from a snapshot, with its open request. `begin` starts the program."""
        session = cls("system.json", program=program, folder=folder, timeout=timeout, longest=longest, library=library)
        session._first = lambda: session.core.resume(snapshot)
        return session

    async def begin(self) -> Session:
        """Starts the program on the document, and waits for its first report. Raises `ProgramEnded` if the document is
        refused or exceeds its limit, and OSError if the program can't be started."""
        self._turn = asyncio.Lock()
        try:
            self.opening = await self.run(self._first())
        except BaseException:
            if self._streams is not None:
                await self._streams.stop()
            raise
        return self

    # The events.

    async def do(self, action: str) -> Offer:
        """Requests an action, and returns the services that may serve it. The next event is `use` or `abort`."""
        return await self.tell(protocol.do(action))

    async def use(self, service: str) -> None:
        """Delegates the request to a service that was offered. The next event is `saw` or `abort`."""
        await self.tell(protocol.use(service))

    async def saw(self, state: str, environment: str) -> Move:
        """Reports the outcome: the state of the service that was used, and that of the environment."""
        return await self.tell(protocol.saw(state, environment))

    async def abort(self) -> None:
        """Drops the open request. No state changes."""
        await self.tell(protocol.abort())

    async def freeze(self, service: str) -> Repair:
        """Takes a service out of use. It keeps its state."""
        return await self.tell(protocol.freeze(service))

    async def thaw(self, service: str) -> Repair:
        """Takes a frozen service back into use."""
        return await self.tell(protocol.thaw(service))

    async def die(self, service: str) -> Repair:
        """Removes a service for good."""
        return await self.tell(protocol.die(service))

    async def join(self, service: str, behaviour: str, state: str, *, loose: bool = False) -> Repair:
        """Adds a service in a state of a behaviour of the catalogue. A `loose` service needn't be in a final state when
        the target is."""
        return await self.tell(protocol.join(service, behaviour, state, loose=loose))

    async def jump(self, service: str, state: str) -> None:
        """Sets the state of a service. No transition has to lead there."""
        await self.tell(protocol.jump(service, state))

    async def jumpenv(self, environment: str) -> None:
        """Sets the state of the environment. No transition has to lead there."""
        await self.tell(protocol.jumpenv(environment))

    async def report(self) -> Report:
        """Returns the present states, and the offers."""
        return await self.tell(protocol.report())

    async def explain(self) -> Explanation:
        """Returns why the present pair isn't related. Raises `Related` if it is."""
        return await self.tell(protocol.explain())

    async def quit(self) -> int:
        """Ends the session, and returns the program's status."""
        await self.tell(protocol.quit())
        return await self.close()

    async def tell(self, event: Event[Value]) -> Value:
        """Sends the line of any event of `roman_client.protocol`, and returns the value of its reply."""
        return await self.run(self.core.tell(event))

    def _told(self, event: Event[Value]) -> Value | Coroutine[Any, Any, Value]:
        """Like `tell`, but returns the value itself if it comes at once. Otherwise it returns a coroutine, which has to
        be awaited before the next call."""
        if self._turn is None or self._turn.locked() or (self._calls + 1) % IN_A_ROW == 0:
            return self.tell(event)
        self._calls += 1
        value = advance(self.core.tell(event), self._perform)
        return self._in_turn(value) if isinstance(value, CoroutineType) else value

    async def restore(self, snapshot: Snapshot) -> Report:
        """Continues from a snapshot in a new program, and returns the report of its states."""
        return await self.run(self.core.resume(snapshot))

    async def snapshot(self) -> Snapshot:
        """Returns a snapshot, with which `resume` continues. Raises `DocumentError` if the document couldn't be read
        from here."""
        return await self.run(self.core.snapshot())

    # State, and the end.

    @property
    def changes(self) -> int:
        """The number of changes: freezes, thaws, deaths, joins and jumps."""
        return self.core.changes

    @property
    def status(self) -> int | None:
        """The program's status, or None while it runs."""
        return self._running().poll()

    @property
    def pid(self) -> int:
        """The process ID of the program. In a session by the library, it is that of this process."""
        return self._running().pid

    @property
    def room(self) -> int:
        """The number of bytes of lines that the present program still accepts."""
        return self.core.longest - self.core.sent

    async def close(self) -> int:
        """Closes the input, ends the program if it doesn't end by itself, and returns its status."""
        return await self._running().close()

    async def __aenter__(self) -> Session:
        return await self.begin()

    async def __aexit__(
        self,
        kind: type[BaseException] | None,
        error: BaseException | None,
        trace: TracebackType | None,
    ) -> None:
        await self.close()

    # Steps.

    async def run(self, steps: Steps[Value]) -> Value:
        """Performs steps of the session, and returns their value."""
        if self._turn is None:
            raise NotBegun("the session wasn't begun")
        self._calls += 1
        if self._calls % IN_A_ROW == 0:
            await asyncio.sleep(0)
        return await self._in_turn(run(steps, self._perform))

    async def _in_turn(self, work: Coroutine[Any, Any, Value]) -> Value:
        assert self._turn is not None
        async with self._turn:
            return await work

    def _perform(self, effect: Effect) -> Any:
        """Performs one effect, or returns the coroutine that performs it."""
        if isinstance(effect, Exchange):
            return self._running().exchange(effect)
        if isinstance(effect, Start):
            return self._start(effect)
        if isinstance(effect, Stop):
            return self._running().stop()
        raise TypeError(f"{effect!r} isn't an effect of a session")

    async def _start(self, start: Start) -> None:
        before = self._streams
        if self._library:
            self._streams = LibraryStreams(start, self._library)
        else:
            self._streams = await Streams.start(start, self._timeout)
        if before is not None:
            await before.close()

    def _running(self) -> Streams | LibraryStreams:
        if self._streams is None:
            raise NotBegun("the session wasn't begun")
        return self._streams
