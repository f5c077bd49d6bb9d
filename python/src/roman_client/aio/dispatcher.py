"""Runs devices by the offers of a session, for asyncio."""

from __future__ import annotations

import asyncio
import functools
import inspect
import logging
from collections.abc import Awaitable, Callable, Coroutine, Mapping
from types import CoroutineType, TracebackType
from typing import Any

from .. import protocol
from ..core import Dispatching, Posted
from ..devices import Call, DeviceTimeout
from ..documents import PathLike
from ..effects import AskBack, AskState, Begin, Choose, Commit, Notify, Restore, Serve
from ..errors import InsideRequest, NotBegun, SessionOver
from ..notices import Done, Failure, Notice, Recovery, Watch
from ..policies import first_offered
from ..position import Frozen
from ..protocol import Effect, Event, Steps, Tell, Value
from ..replies import Explanation, Repair, Report
from ..store import Store
from .devices import Act, Back, Device, Policy, as_device
from .session import Session
from .streams import run, to_its_end

LOG = logging.getLogger("roman_client.dispatcher")

AT_ONCE = 0.0005
"""If a commit takes fewer seconds, it isn't worth a thread."""


class Dispatcher:
    """Serves requests by devices, as `roman_client.Dispatcher` does.

    `async with` begins it, and closes its store at the end of the block. Alternatively, call `begin` and `close`.
    Several tasks can make requests and changes, which take turns. If a request is cancelled while a device is at work,
    the device may have carried it out. The request is then in doubt, and the service is frozen.
    """

    def __init__(
        self,
        session: Session,
        devices: Mapping[str, Device | Act],
        *,
        policy: Policy = first_offered,
        back: Back | None = None,
        on_failure: Callable[[Failure], None] | None = None,
        store: PathLike | Store | None = None,
        watch: Watch | None = None,
    ) -> None:
        """The arguments are those of `roman_client.Dispatcher`. The session must begin before the dispatcher does.
        `store` can also be an open store, which the dispatcher closes."""
        self.session = session
        self.policy = policy
        self._back = back
        self._on_failure = on_failure
        self._watch = watch
        self._store = store if isinstance(store, Store) or store is None else Store(store)
        self._core: Dispatching[Device] = Dispatching(
            {name: as_device(each) for name, each in devices.items()}, back is not None, self._store
        )
        self._begun = False
        self._turn = asyncio.Lock()
        self._inside: asyncio.Task[Any] | None = None
        self._draining: set[asyncio.Task[None]] = set()

    async def begin(self) -> Dispatcher:
        """Begins with the present session, or continues from the store. Raises `StoreBroken` if the store belongs to
        another document, `StoreFailed` if it can't be written, and ValueError if a service has no device."""
        self._begun = True
        try:
            await self._in_turn(lambda: self._core.begin(self.session.core.document))
        except BaseException:
            await self.close()
            raise
        return self

    # State.

    @property
    def core(self) -> Dispatching[Device]:
        """The part that doesn't depend on the transport."""
        if not self._begun:
            raise NotBegun("the dispatcher wasn't begun")
        return self._core

    @property
    def devices(self) -> dict[str, Device]:
        """The devices by service. Devices can be added before the dispatcher begins."""
        return self._core.devices

    @property
    def failed(self) -> frozenset[str]:
        """The services that are frozen, and weren't frozen by hand."""
        return self.core.failed

    @property
    def served(self) -> int:
        """The number of requests served, over all runs with this store."""
        return self.core.position.served

    @property
    def under_way(self) -> Call | None:
        """The call that is under way, None if there is none."""
        return self.core.under_way

    @property
    def recovered(self) -> Recovery | None:
        """The result of the call that was under way when the dispatcher was killed, None if there was none."""
        return self.core.recovered

    async def report(self) -> Report:
        """Returns the present states. It may be called while a request is open."""
        try:
            return await self.session.report()
        except SessionOver:
            return await self._in_turn(lambda: self.core.event(protocol.report()))

    async def explain(self) -> Explanation:
        """Returns why the present pair isn't related. Raises `Related` if it is."""
        return await self._in_turn(lambda: self.core.event(protocol.explain()))

    # Requests.

    async def request(self, action: str, key: str | None = None, source: str | None = None) -> Done:
        """Serves an action, as `roman_client.Dispatcher.request` does."""
        return await self._in_turn(lambda: self.core.request(action, key, source))

    async def record(
        self,
        action: str,
        service: str,
        state: str,
        environment: str,
        key: str | None = None,
        source: str | None = None,
    ) -> Done:
        """Records that a request was served, as `roman_client.Dispatcher.record` does."""
        return await self._in_turn(lambda: self.core.record(action, service, (state, environment), key, source))

    # Changes.

    async def change(self, event: Event[Value], source: str | None = None) -> Value:
        """Makes a change, which is an event of `roman_client.protocol`. `source` names its sender for the history."""
        return await self._in_turn(lambda: self.core.event(event, source=source))

    async def thaw(self, service: str, state: str | None = None, source: str | None = None) -> Repair:
        """Takes a frozen service back into use, in the given state, or in the one that it had."""
        return await self._in_turn(lambda: self.core.thaw(service, state, source))

    async def freeze(self, service: str) -> Repair:
        """Takes a service out of use by hand, until `thaw`. The service may be frozen already because it failed."""
        return await self.change(protocol.freeze(service))

    async def die(self, service: str) -> Repair:
        """Removes a service for good."""
        return await self.change(protocol.die(service))

    async def join(
        self,
        service: str,
        behaviour: str,
        state: str,
        device: Device | Act,
        *,
        loose: bool = False,
        source: str | None = None,
    ) -> Repair:
        """Adds a service with its device."""
        return await self._in_turn(lambda: self.core.join(service, behaviour, state, loose, as_device(device), source))

    async def jump(self, service: str, state: str) -> None:
        """Sets the state of a service. No transition has to lead there."""
        await self.change(protocol.jump(service, state))

    async def jumpenv(self, environment: str) -> None:
        """Sets the state of the environment. No transition has to lead there."""
        await self.change(protocol.jumpenv(environment))

    def post(
        self, event: Event[Value], cause: Frozen = Frozen.BY_HAND, source: str | None = None
    ) -> asyncio.Future[Value]:
        """Schedules a change, such as `protocol.jumpenv("dusk")`, and returns at once. If a request is open, the change
        waits for its turn. Devices and policies may call this. `cause` is the reason of a freeze."""
        future: asyncio.Future[Value] = asyncio.get_running_loop().create_future()
        self.core.inbox.append(Posted(event, cause, source, functools.partial(settle, future)))
        self._drain_later()
        return future

    async def close(self) -> None:
        """Waits for the posted changes, and closes the store. The session continues."""
        while self._draining:
            await asyncio.wait(set(self._draining))
        if self._store is not None:
            self._store.close()

    async def __aenter__(self) -> Dispatcher:
        return await self.begin()

    async def __aexit__(
        self,
        kind: type[BaseException] | None,
        error: BaseException | None,
        trace: TracebackType | None,
    ) -> None:
        await self.close()

    # Turns.

    async def _in_turn(self, steps: Callable[[], Steps[Value]]) -> Value:
        """Waits for a turn, and returns the value of the steps."""
        if self._inside is not None and self._inside is asyncio.current_task():
            raise InsideRequest("the request of this device or policy is open: call post")
        try:
            async with self._turn:
                return await run(self.core.turn(steps), self._perform)
        finally:
            self._drain_later()

    def _drain_later(self) -> None:
        """Starts to make the posted changes, if there are some."""
        if self.core.inbox:
            draining = asyncio.ensure_future(self._drain())
            self._draining.add(draining)
            draining.add_done_callback(self._drained)

    def _drained(self, draining: asyncio.Task[None]) -> None:
        self._draining.discard(draining)
        if not draining.cancelled() and draining.exception() is not None:
            LOG.warning("what was posted waits for the next turn: %r", draining.exception())

    async def _drain(self) -> None:
        """Makes the posted changes in a turn of their own."""
        async with self._turn:
            await run(self.core.turn(_nothing), self._perform)

    async def _within(self, work: Coroutine[Any, Any, Value], timeout: float | None) -> Value:
        """Awaits a call of a device or a policy, until its deadline. Such a call can't make a request itself. With a
        deadline it runs in a task of its own. If it is late, the task is cancelled and not awaited."""
        if timeout is None:
            self._inside = asyncio.current_task()
            try:
                return await work
            finally:
                self._inside = None
        loop = asyncio.get_running_loop()
        answer: asyncio.Future[Value] = loop.create_future()
        task = loop.create_task(_answering(work, answer))
        timer = loop.call_later(timeout, _expire, answer, timeout)
        self._inside = task
        try:
            return await answer
        finally:
            self._inside = None
            timer.cancel()
            task.cancel()

    # Steps.

    def _perform(self, effect: Effect) -> Any:
        """Performs one effect, or returns the coroutine that performs it."""
        return self._performers[type(effect)](self, effect)

    def _serve(self, effect: Serve) -> Any:
        device = self.core.devices[effect.call.service]
        return self._within(device.serve(effect.call), device.timeout)

    def _state(self, effect: AskState) -> Any:
        device = self.core.devices[effect.call.service]
        return self._within(device.state(effect.call), device.timeout)

    def _ask_back(self, effect: AskBack) -> Any:
        assert self._back is not None
        timeout = self.core.devices[effect.service].timeout
        return self._within(_called(self._back, effect.service), timeout)

    def _choose(self, effect: Choose) -> Any:
        self._inside = asyncio.current_task()
        try:
            chosen = self.policy(effect.choice)
        finally:
            self._inside = None
        if isinstance(chosen, CoroutineType):
            return self._within(chosen, None)
        return self._within(_value(chosen), None) if inspect.isawaitable(chosen) else chosen

    def _begin_store(self, effect: Begin) -> Any:
        assert self._store is not None
        return _in_a_thread(functools.partial(self._store.begin, effect.stored))

    def _commit(self, effect: Commit) -> Any:
        assert self._store is not None
        if self._store.pace >= AT_ONCE:
            self._store.write(effect.position, effect.entries)
            return _in_a_thread(self._store.sync)
        self._store.commit(effect.position, effect.entries)
        return None

    def _notify(self, effect: Notify) -> None:
        self._told(self._watch, effect.notice)
        if isinstance(effect.notice, Failure):
            self._told(self._on_failure, effect.notice)

    def _told(self, listener: Callable[[Any], None] | None, notice: Notice) -> None:
        """Calls a listener, and logs its errors."""
        if listener is None:
            return
        try:
            listener(notice)
        except Exception:
            LOG.exception("a listener failed at %r", notice)

    _performers: Mapping[type[Effect], Callable[[Any, Any], Any]] = {
        Tell: lambda self, effect: self.session._told(effect.event),
        Restore: lambda self, effect: self.session.restore(effect.snapshot),
        Serve: _serve,
        AskState: _state,
        AskBack: _ask_back,
        Choose: _choose,
        Begin: _begin_store,
        Commit: _commit,
        Notify: _notify,
    }


def settle(future: asyncio.Future[Any], value: Any, error: BaseException | None) -> None:
    """Sets the value, or the error, of a future, unless it is done."""
    if future.done():
        return
    if error is None:
        future.set_result(value)
    else:
        future.set_exception(error)


def _nothing() -> Steps[None]:
    """Takes no steps."""
    yield from ()


async def _in_a_thread(write: Callable[[], None]) -> None:
    """Waits for the disk in a thread. A write that was begun ends, even if the task is cancelled."""
    # If it fails after a cancellation, its entries are written later.
    _, interrupt = await to_its_end(asyncio.get_running_loop().run_in_executor(None, write))
    if interrupt is not None:
        raise interrupt


async def _value(later: Awaitable[Value]) -> Value:
    """Awaits a future, as a coroutine."""
    return await later


async def _called(call: Callable[..., Any], *words: Any) -> Any:
    """Returns the value of a call, which may be awaitable."""
    value = call(*words)
    return await value if inspect.isawaitable(value) else value


def _expire(answer: asyncio.Future[Any], timeout: float) -> None:
    settle(answer, None, DeviceTimeout(f"no answer within {timeout} seconds"))


async def _answering(work: Coroutine[Any, Any, Value], answer: asyncio.Future[Value]) -> None:
    """Sets the result of the work in a future. Logs an error that comes after the deadline."""
    value, error = None, None
    try:
        value = await work
    except BaseException as raised:
        error = raised
    if not answer.done():
        settle(answer, value, error)
    elif error is not None and not isinstance(error, asyncio.CancelledError):
        LOG.info("a device that was late ended with %r", error)
