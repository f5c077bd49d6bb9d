"""Runs devices by the offers of a session, for callers that wait."""

from __future__ import annotations

import functools
import logging
import queue
import threading
from collections.abc import Callable, Mapping
from concurrent.futures import Future
from types import TracebackType
from typing import Any

from . import protocol
from .core import Dispatching, Posted
from .devices import Act, Back, Call, Device, DeviceFailed, DeviceTimeout, FunctionDevice
from .documents import PathLike
from .effects import AskBack, AskState, Begin, Choose, Commit, Notify, Restore, Serve
from .errors import InsideRequest, SessionOver
from .notices import Done, Failure, Notice, Recovery, Watch
from .policies import Chosen, Policy, first_offered
from .position import Frozen
from .protocol import Effect, Event, Steps, Tell, Value
from .replies import Explanation, Repair, Report
from .session import Session
from .store import Store

LOG = logging.getLogger("roman_client.dispatcher")


class Dispatcher:
    """Serves requests by devices.

    Each request goes to an offered service that the policy chooses. If the device of this service fails, misses its
    deadline or returns an impossible outcome, the service is frozen, and the request goes to another one. A service
    is thawed when it is back. With `back`, the dispatcher asks for this before each request. Without it, call `thaw`.
    If there is no composition, `request` raises `NoComposition` with an explanation, and no state changes.

    With a `store`, the dispatcher continues from its last position after it or the program was killed.

    Several threads can make requests and changes, which take turns. A change that is posted while a request is open
    is made between two calls of devices, or after the request. Make all changes through the dispatcher, and none
    through its session.
    """

    def __init__(
        self,
        session: Session,
        devices: Mapping[str, Device | Act],
        *,
        policy: Policy = first_offered,
        back: Back | None = None,
        on_failure: Callable[[Failure], None] | None = None,
        store: PathLike | None = None,
        watch: Watch | None = None,
    ) -> None:
        """`session` has no open request, and `devices` has a device for each of its services.

        `store` is the path of a database. If it exists, the session continues from it, and not from its own states.
        `recovered` then has the result of the call that was under way. `on_failure` receives each `Failure`, and
        `watch` each notice.

        Raises ValueError if a service has no device. Raises `StoreLocked` if another dispatcher uses the store,
        `StoreBroken` if the store can't be read or belongs to another document, and `StoreFailed` if it can't be
        written.
        """
        self.session = session
        self.policy = policy
        self._back = back
        self._on_failure = on_failure
        self._watch = watch
        self._turn = threading.Lock()
        self._inside = threading.local()
        self._late: dict[tuple[type[Effect], str], threading.Thread] = {}
        self._store = None if store is None else Store(store)
        self.core: Dispatching[Device] = Dispatching(
            {name: as_device(each) for name, each in devices.items()},
            back is not None,
            self._store,
        )
        try:
            self._in_turn(lambda: self.core.begin(session.core.document))
        except BaseException:
            self.close()
            raise

    # State.

    @property
    def devices(self) -> dict[str, Device]:
        """The devices by service."""
        return self.core.devices

    @property
    def failed(self) -> frozenset[str]:
        """The services that are frozen, and weren't frozen by hand."""
        return self.core.failed

    @property
    def served(self) -> int:
        """The number of requests served, over all runs with this store."""
        return self.core.position.served

    @property
    def under_way(self) -> Call | None:
        """The call that is under way, None if there is none."""
        return self.core.under_way

    @property
    def recovered(self) -> Recovery | None:
        """The result of the call that was under way when the dispatcher was killed, None if there was none."""
        return self.core.recovered

    def report(self) -> Report:
        """Returns the present states. It may be called while a request is open."""
        try:
            return self.session.report()
        except SessionOver:
            return self._in_turn(lambda: self.core.event(protocol.report()))

    def explain(self) -> Explanation:
        """Returns why the present pair isn't related. Raises `Related` if it is."""
        return self._in_turn(lambda: self.core.event(protocol.explain()))

    # Requests.

    def request(self, action: str, key: str | None = None, source: str | None = None) -> Done:
        """Serves an action.

        Raises `NoComposition`, `NotAllowed` if the target doesn't allow the action in the present states, or
        `UnknownName` if the document doesn't have it. Raises `InDoubt` if a device may have carried it out.

        A request that has a `key` of its own can be repeated after the dispatcher was killed. If it was served, its
        `Done` is returned again, and no device is asked. If it is in doubt, `InDoubt` is raised. `KeyTaken` is raised
        if the key was used for another action. A key has at most 256 bytes, and the last thousand keys are stored.
        `source` names the sender of the request for the history.
        """
        return self._in_turn(lambda: self.core.request(action, key, source))

    def record(
        self,
        action: str,
        service: str,
        state: str,
        environment: str,
        key: str | None = None,
        source: str | None = None,
    ) -> Done:
        """Records that a request was served, with that outcome. No device is asked. If a request in doubt turns out to
        have been carried out, thaw its service, and record it. A request with a key is counted once."""
        return self._in_turn(lambda: self.core.record(action, service, (state, environment), key, source))

    # Changes.

    def change(self, event: Event[Value], source: str | None = None) -> Value:
        """Makes a change, which is an event of `roman_client.protocol`. `source` names its sender for the history."""
        return self._in_turn(lambda: self.core.event(event, source=source))

    def thaw(self, service: str, state: str | None = None, source: str | None = None) -> Repair:
        """Takes a frozen service back into use, in the given state, or in the one that it had."""
        return self._in_turn(lambda: self.core.thaw(service, state, source))

    def freeze(self, service: str) -> Repair:
        """Takes a service out of use by hand, until `thaw`. The service may be frozen already because it failed."""
        return self.change(protocol.freeze(service))

    def die(self, service: str) -> Repair:
        """Removes a service for good."""
        return self.change(protocol.die(service))

    def join(
        self,
        service: str,
        behaviour: str,
        state: str,
        device: Device | Act,
        *,
        loose: bool = False,
        source: str | None = None,
    ) -> Repair:
        """Adds a service with its device."""
        return self._in_turn(lambda: self.core.join(service, behaviour, state, loose, as_device(device), source))

    def jump(self, service: str, state: str) -> None:
        """Sets the state of a service. No transition has to lead there."""
        self.change(protocol.jump(service, state))

    def jumpenv(self, environment: str) -> None:
        """Sets the state of the environment. No transition has to lead there."""
        self.change(protocol.jumpenv(environment))

    def post(self, event: Event[Value], cause: Frozen = Frozen.BY_HAND, source: str | None = None) -> Future[Value]:
        """Makes a change, such as `protocol.jumpenv("dusk")`. If a request is open, this returns at once, and the
        change waits for its turn. Devices and policies may call this. `cause` is the reason of a freeze."""
        future = self._posted(event, cause, source)
        if not self._is_inside():
            self._drain()
        return future

    def close(self) -> None:
        """Closes the store. The session continues."""
        if self._store is not None:
            self._store.close()

    def __enter__(self) -> Dispatcher:
        return self

    def __exit__(
        self,
        kind: type[BaseException] | None,
        error: BaseException | None,
        trace: TracebackType | None,
    ) -> None:
        self.close()

    # Turns.

    def _in_turn(self, steps: Callable[[], Steps[Value]]) -> Value:
        """Waits for a turn, and returns the value of the steps."""
        if self._is_inside():
            raise InsideRequest("the request of this device or policy is open: call post")
        try:
            with self._turn:
                return protocol.run(self.core.turn(steps), self._perform)
        finally:
            self._drain()

    def _posted(self, event: Event[Value], cause: Frozen, source: str | None) -> Future[Value]:
        future: Future[Value] = Future()

        def settle(value: Value, error: BaseException | None) -> None:
            if not future.set_running_or_notify_cancel():
                return
            if error is None:
                future.set_result(value)
            else:
                future.set_exception(error)

        self.core.inbox.append(Posted(event, cause, source, settle))
        return future

    def _drain(self) -> None:
        """Makes the posted changes, unless another thread has the turn and will make them. An error of the session or
        the store isn't raised here, since it would hide the result of a request."""
        while self.core.inbox and self._turn.acquire(blocking=False):
            try:
                protocol.run(self.core.turn(_nothing), self._perform)
            except Exception as error:
                LOG.warning("what was posted waits for the next turn: %r", error)
                return
            finally:
                self._turn.release()

    def _is_inside(self) -> bool:
        return getattr(self._inside, "here", False)

    def _within(self, call: Callable[[], Value]) -> Value:
        """Calls a device, a policy or a listener. Such a call can't make a request itself."""
        self._inside.here = True
        try:
            return call()
        finally:
            self._inside.here = False

    # Steps.

    def _perform(self, effect: Effect) -> Any:
        """Performs one effect."""
        return self._performers[type(effect)](self, effect)

    def _tell(self, effect: Tell[Any]) -> Any:
        return self.session.tell(effect.event)

    def _serve(self, effect: Serve) -> Any:
        device = self.core.devices[effect.call.service]
        return self._by(effect, effect.call.service, lambda: device.serve(effect.call))

    def _state(self, effect: AskState) -> Any:
        device = self.core.devices[effect.call.service]
        return self._by(effect, effect.call.service, lambda: device.state(effect.call))

    def _ask_back(self, effect: AskBack) -> Any:
        assert self._back is not None
        return self._by(effect, effect.service, functools.partial(self._back, effect.service))

    def _choose(self, effect: Choose) -> str | Chosen:
        return self._within(lambda: self.policy(effect.choice))

    def _begin(self, effect: Begin) -> None:
        assert self._store is not None
        self._store.begin(effect.stored)

    def _commit(self, effect: Commit) -> None:
        assert self._store is not None
        self._store.commit(effect.position, effect.entries)

    def _notify(self, effect: Notify) -> None:
        self._told(self._watch, effect.notice)
        if isinstance(effect.notice, Failure):
            self._told(self._on_failure, effect.notice)

    def _told(self, listener: Callable[[Any], None] | None, notice: Notice) -> None:
        """Calls a listener, and logs its errors."""
        if listener is None:
            return
        try:
            self._within(functools.partial(listener, notice))
        except Exception:
            LOG.exception("a listener failed at %r", notice)

    _performers: Mapping[type[Effect], Callable[[Any, Any], Any]] = {
        Tell: _tell,
        Restore: lambda self, effect: self.session.restore(effect.snapshot),
        Serve: _serve,
        AskState: _state,
        AskBack: _ask_back,
        Choose: _choose,
        Begin: _begin,
        Commit: _commit,
        Notify: _notify,
    }

    def _by(self, effect: Effect, service: str, call: Callable[[], Value]) -> Value:
        """Calls a device for an effect, and waits until its deadline. While a late call still runs, the device isn't
        called for an effect of this kind, so that threads don't pile up."""
        timeout = self.core.devices[service].timeout
        if timeout is None:
            return self._within(call)
        late = self._late.get((type(effect), service))
        if late is not None and late.is_alive():
            raise DeviceFailed("is still at work on an earlier call")
        answers: queue.SimpleQueue[tuple[Any, BaseException | None]] = queue.SimpleQueue()

        def answer() -> None:
            try:
                answers.put((self._within(call), None))
            except BaseException as error:
                answers.put((None, error))

        thread = threading.Thread(target=answer, name="device", daemon=True)
        thread.start()
        try:
            value, error = answers.get(timeout=timeout)
        except queue.Empty:
            self._late[type(effect), service] = thread
            raise DeviceTimeout(f"no answer within {timeout} seconds") from None
        if error is not None:
            raise error
        result: Value = value
        return result


def _nothing() -> Steps[None]:
    """Takes no steps."""
    yield from ()


def as_device(given: Device | Act) -> Device:
    """Returns the device itself, or a device that calls the function."""
    return given if isinstance(given, Device) else FunctionDevice(given, None, None, False)
