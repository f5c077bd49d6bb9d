"""Requests to a home: they wait for their turn, are served, and expire or are cancelled if they wait too long."""

from __future__ import annotations

import asyncio
import contextlib
import time
from collections import deque
from collections.abc import Callable, Coroutine, Iterator
from dataclasses import dataclass, replace
from typing import Any

from roman_client import Document, Done, Failure, NoComposition, Refusal, StoreFailed
from roman_client.aio.dispatcher import settle
from roman_client.devices import Outcome

from .activity import Activity
from .ahead import HomeDispatcher
from .background import Background
from .devices import Answer, Simulated
from .errors import Busy, Cancelled, Expired, HomeEnding, MovedMeanwhile, TooManyRequests, UnknownAction
from .events import EventLog
from .fleet import Fleet
from .metrics import Metrics
from .states import done_to_json

PATIENCE = 300.0
"""The default number of seconds that a request waits for its turn."""

MOVES = 1
"""The number of times that a request is repeated because something moved by itself. After that, moves wait for the
request."""

EXPIRED, CANCELLED = "expired", "cancelled"


@dataclass(eq=False)
class Waiting:
    """A request that waits for its turn. `given_up` is the reason why it was given up, if it was."""

    key: str | None
    task: asyncio.Task[Any]
    given_up: str | None = None

    def give_up(self, why: str) -> None:
        """Ends the wait, for that reason."""
        self.given_up = why
        self.task.cancel()


class Requests:
    """The requests of a home."""

    def __init__(
        self,
        document: Document,
        dispatcher: HomeDispatcher,
        fleet: Fleet,
        activity: Activity,
        events: EventLog,
        metrics: Metrics,
        noticed: asyncio.Event,
        changed: Callable[[], None],
        most: int,
        *,
        shares: bool,
    ) -> None:
        """At most `most` requests are open. With `shares` the end of one is written with the call of the next one; this
        requires a home without advice and without a sensor of the environment. `noticed` is set at each notice of the
        dispatcher. `changed` is called when the state that is shown has changed."""
        self.ending = False
        self.open = 0
        """The number of open requests, including those that wait."""
        self.background = Background()
        self._document = document
        self._dispatcher = dispatcher
        self._fleet = fleet
        self._activity = activity
        self._events = events
        self._metrics = metrics
        self._noticed = noticed
        self._changed = changed
        self._most = most
        self._shares = shares
        self._turn = asyncio.Lock()
        self._waiting: set[Waiting] = set()
        self._held_back: set[Waiting] = set()
        self._numbers: deque[tuple[Done, int]] = deque(maxlen=most)

    async def serve(
        self,
        action: str,
        key: str | None = None,
        wait: bool = True,
        *,
        expires: float = PATIENCE,
        source: str | None = None,
    ) -> dict[str, Any]:
        """Serves an action, and returns the result as JSON. If another request is open, it waits for its turn, for
        `expires` seconds at most; if `wait` is false, it raises `Busy`. It continues if its caller goes away."""
        self._check(action, wait)
        answer: asyncio.Future[dict[str, Any]] = asyncio.get_running_loop().create_future()
        work = self.background.run(self._answer(answer, action, key, expires, source))
        work.add_done_callback(lambda work: answer.cancel())  # It may be cancelled before it begins.
        return await answer

    async def serve_here(
        self,
        action: str,
        key: str | None = None,
        wait: bool = True,
        *,
        expires: float = PATIENCE,
        source: str | None = None,
    ) -> dict[str, Any]:
        """Like `serve`, but in the present task, which is quicker. If that is cancelled, the request is."""
        self._check(action, wait)
        return await self.background.run_here(self._served(action, key, expires, source))

    def _check(self, action: str, wait: bool) -> None:
        """Admits a request, or raises the reason why it can't be served."""
        if action not in self._document.actions:
            raise UnknownAction(f"{action} is no action that may be requested")
        if self.ending:
            raise HomeEnding("the home is about to end")
        if self.open and not wait:
            self._metrics.requests.labels("busy").inc()
            raise Busy("a request is open")
        if self.open >= self._most:
            self._metrics.requests.labels("busy").inc()
            raise TooManyRequests(f"{self.open} requests wait already; try again later")
        self.open += 1

    async def _answer(
        self, answer: asyncio.Future[dict[str, Any]], action: str, key: str | None, expires: float, source: str | None
    ) -> None:
        """Passes the result of a request to its caller, unless the caller has gone away."""
        try:
            settle(answer, await self._served(action, key, expires, source), None)
        except BaseException as error:
            settle(answer, None, error)
            raise

    def cancel(self, key: str) -> int:
        """Cancels the requests with that key that wait for their turn, or are held back, and returns their number. A
        request whose device is at work continues."""
        found = [each for each in (*self._waiting, *self._held_back) if each.key == key]
        for each in found:
            each.give_up(CANCELLED)
        return len(found)

    async def hold_back(self, action: str, key: str, room: Coroutine[Any, Any, None]) -> None:
        """Waits until there is room for a request that isn't open yet. Raises `Cancelled`."""
        with self._cancellable(self._held_back, action, key):
            await room

    @contextlib.contextmanager
    def _cancellable(
        self, waiting: set[Waiting], action: str, key: str | None, expires: float | None = None
    ) -> Iterator[None]:
        """A wait of the present task. `cancel` ends it with `Cancelled`, and `expires` seconds with `Expired`."""
        task = asyncio.current_task()
        assert task is not None
        found = Waiting(key, task)
        loop = asyncio.get_running_loop()
        timer = None if expires is None else loop.call_later(expires, found.give_up, EXPIRED)
        waiting.add(found)
        try:
            yield
        except asyncio.CancelledError:
            if found.given_up is None:
                raise
            task.uncancel()
            if found.given_up == EXPIRED:
                raise Expired(f"{action} waited {expires:g} seconds, and wasn't asked of a device") from None
            raise Cancelled(f"{action} was cancelled before a device was asked") from None
        finally:
            if timer:
                timer.cancel()
            waiting.discard(found)

    async def record(
        self, action: str, service: str, outcome: Outcome, key: str | None, source: str | None = None
    ) -> None:
        """Records that a request in doubt was served with that outcome. No device is asked."""
        await self._dispatcher.record(action, service, *outcome, key, source)

    def done(self, done: Done, number: int) -> None:
        """Stores the number of the call that served a request."""
        self._numbers.append((done, number))

    def _number(self, done: Done) -> int | None:
        """The number of the call that served a request, if it is stored."""
        return next((number for each, number in reversed(self._numbers) if each is done), None)

    def _is_awaited(self) -> bool:
        """Whether another request waits whose call will follow soon."""
        return self._shares and bool(self._waiting) and not self._fleet.moves.is_open

    async def _served(self, action: str, key: str | None, expires: float, source: str | None) -> dict[str, Any]:
        started = time.monotonic()
        result = "failed"
        try:
            done, failures = await self._in_turn(action, key, expires, source)
            result = "served"
            self._metrics.seconds.observe(time.monotonic() - started)
            number = self._number(done)
            return done_to_json(replace(done, failures=(*failures, *done.failures)) if failures else done, number)
        except Refusal as refusal:
            result = refusal.reply
            self._events.add("refused", f"{action}: {refusal.reply}", action=action, error=refusal.reply)
            raise
        except Exception as error:
            self._events.add("error", f"{action}: {error}", action=action, error=str(error))
            raise
        finally:
            self.open -= 1
            if not self.open:
                self._activity.ended()
            self._metrics.requests.labels(result).inc()
            self._changed()

    async def _in_turn(
        self, action: str, key: str | None, expires: float, source: str | None
    ) -> tuple[Done, list[Failure]]:
        """Waits for a turn, and serves an action. Also returns the failures of earlier attempts. Raises `Expired` or
        `Cancelled` if the request gets no turn."""
        await self._wait(action, key, expires)
        failures: list[Failure] = []
        try:
            try:
                written = await self._request(action, key, source, failures)
            finally:
                self._turn.release()
            return await written, failures
        except StoreFailed as error:
            if error.done is None:
                raise
            self._events.add("journal", f"{error}; {action} was served, and is written later")
            return error.done, failures

    async def _wait(self, action: str, key: str | None, expires: float) -> None:
        if not self._turn.locked() and not self._waiting:
            await self._turn.acquire()
            return
        with self._cancellable(self._waiting, action, key, expires):
            await self._turn.acquire()

    async def _request(
        self, action: str, key: str | None, source: str | None, failures: list[Failure]
    ) -> asyncio.Future[Done]:
        """Serves an action, and tries again if something moved by itself before a device was asked."""
        try:
            return await self._after_moves(action, key, source, failures)
        finally:
            self._fleet.moves.go_on()

    async def _after_moves(
        self, action: str, key: str | None, source: str | None, failures: list[Failure]
    ) -> asyncio.Future[Done]:
        """Serves an action after all reported moves are made. If moves keep coming, the newest ones wait."""
        attempts = 0
        while True:
            attempts += 1
            if attempts > MOVES:
                self._fleet.moves.hold()
            else:
                self._fleet.moves.make_all()
            try:
                return await self._dispatcher.serve(action, key, source, self._is_awaited)
            except MovedMeanwhile:
                failures += self._activity.failures
                self._activity.failures.clear()
                await asyncio.sleep(0)  # The moves get a turn.
            except NoComposition as refusal:
                refusal.failures = (*failures, *refusal.failures)
                raise

    async def answer(self, service: str, outcome: Outcome | None) -> None:
        """Ends the call that is under way at a simulated device, with an outcome, or with a failure if it is None.
        Raises LookupError if there is no such call."""
        device = self._fleet.devices.get(service)
        reach = None if device is None else device.reach
        if not isinstance(reach, Simulated) or not reach.waiting:
            raise LookupError(f"nothing is under way at {service}")
        self._noticed.clear()
        reach.answer(None if outcome is None else Answer(*outcome))
        await self._noticed.wait()

    async def settle(self, seconds: float) -> bool:
        """Refuses new requests, and waits for the open ones for so many seconds. Returns whether all have ended."""
        self.ending = True
        end = time.monotonic() + seconds
        while self.open and time.monotonic() < end:
            await asyncio.sleep(0.05)
        return not self.open
