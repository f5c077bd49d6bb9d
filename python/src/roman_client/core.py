"""The steps of a dispatcher, without transport, threads or tasks.

Like those of the session in `protocol`, they are generators. They yield effects, which `Dispatcher` and
`aio.Dispatcher` perform, and receive the results.
"""

from __future__ import annotations

import contextlib
import logging
from collections import deque
from collections.abc import Callable, Mapping
from dataclasses import dataclass
from typing import Any, Generic, NamedTuple, Protocol, TypeVar

from . import protocol, takeover
from .devices import NOT_DONE, Call, DeviceLost, DeviceTimeout, Did, Outcome, Told, Verdict
from .documents import Document, DocumentError
from .effects import AskBack, AskState, Begin, Choose, Commit, Notify, Restore, Serve
from .errors import (
    AlreadyFrozen,
    BadLine,
    Idle,
    Impossible,
    InDoubt,
    KeyTaken,
    NoComposition,
    NotFrozen,
    Refusal,
    SessionOver,
    StoreBroken,
    StoreFailed,
    UnknownName,
)
from .notices import Asked, Changed, Done, Failure, Notice, Recovery, Restarted
from .policies import Choice, Chosen
from .position import Frozen, Position
from .protocol import Effect, Event, Steps, Tell, Value
from .replies import Offer, Repair, Report
from .snapshots import Snapshot
from .store import (
    FAILED,
    IN_DOUBT,
    RECORDED,
    SERVED,
    CallBegun,
    CallEnded,
    ChangeMade,
    Entry,
    Kept,
    KeyStored,
    Store,
    Stored,
    result_of,
    storable,
)

LOG = logging.getLogger("roman_client.dispatcher")

KEYS = 1000
"""The maximum number of keys whose values are stored."""

LONGEST_KEY = 256
"""The maximum length of a key, in bytes."""

BATCH = 256
"""The maximum number of posted changes that are made before a request, and written in one transaction."""

RESTARTS = 8
"""The number of times that the program is restarted for one step."""


class AnyDevice(Protocol):
    """The attributes of a device that a dispatcher reads itself."""

    timeout: float | None
    repeatable: bool
    late_is_doubt: bool


DeviceKind = TypeVar("DeviceKind", bound=AnyDevice)


Settle = Callable[[Any, BaseException | None], None]
"""Receives a value, or an error."""


@dataclass(frozen=True)
class Posted:
    """A change that waits for its turn. `settle` receives its value, or its error."""

    event: Event[Any]
    cause: Frozen
    source: str | None
    settle: Settle


class Ahead(NamedTuple):
    """How a request may share a sync with the next one. If `is_awaited` returns true at its end, that end is written
    with the call of the next request. `settle` receives its `Done` when it is written."""

    settle: Settle
    is_awaited: Callable[[], bool]


class NewRequest(NamedTuple):
    """A request: the action, its key, its sender, the number of its first call, and how it may share a sync."""

    action: str
    key: str | None
    source: str | None
    number: int
    ahead: Ahead | None


class Dispatching(Generic[DeviceKind]):
    """The state and the steps of a dispatcher. One generator runs at a time."""

    def __init__(self, devices: Mapping[str, DeviceKind], asks_back: bool, store: Store | None) -> None:
        self.devices: dict[str, DeviceKind] = dict(devices)
        self.position = Position("", "")
        self.keys: dict[str, Kept] = {}
        self.under_way: Call | None = None
        self.recovered: Recovery | None = None
        self.inbox: deque[Posted] = deque()
        self.document: Document | None = None
        self._asks_back = asks_back
        self._store = store
        self._open: str | None = None
        self._request = 0
        self._torn = False
        self._failures: list[Failure] = []
        self._unwritten: list[Entry] = []
        self._owed: list[tuple[Done, Settle]] = []

    @property
    def failed(self) -> frozenset[str]:
        """The services that are frozen, and weren't frozen by hand."""
        return self.position.frozen(*(each for each in Frozen if each is not Frozen.BY_HAND))

    # Turns.

    def turn(self, steps: Callable[[], Steps[Value]]) -> Steps[Value]:
        """Makes the posted changes, and then takes the steps. No request is open before or after a turn. If the steps
        are interrupted, the next turn begins with `_mend`."""
        if self._torn:
            yield from self._mend()
        try:
            if self.inbox:
                yield from self.drain()
            return (yield from steps())
        except GeneratorExit:
            raise
        except Exception:
            self._torn = self._open is not None or self.under_way is not None
            raise
        except BaseException:
            self._torn = True
            raise

    def drain(self) -> Steps[None]:
        """Makes the posted changes in their order, and writes them in one transaction."""
        made: list[tuple[Posted, Any, Notice | None]] = []
        interrupt: BaseException | None = None
        while interrupt is None and self.inbox and len(made) < BATCH:
            posted = self.inbox.popleft()
            try:
                made.append((posted, *(yield from self._make(posted.event, posted.cause, posted.source))))
            except GeneratorExit:
                raise
            except Exception as error:
                posted.settle(None, error)
            except BaseException as error:
                self.inbox.appendleft(posted)  # The next turn makes it.
                interrupt = error
        trouble: BaseException | None = None
        if made:
            try:
                trouble = yield from self._written()
            except GeneratorExit:
                raise
            except Exception as error:
                trouble = error
            except BaseException as error:
                trouble = StoreFailed("the write was interrupted; it is repeated with the next one")
                interrupt = interrupt or error
        for posted, value, notice in made:
            try:
                if notice is not None:
                    yield Notify(notice)
            except GeneratorExit:
                raise
            except BaseException as error:
                interrupt = interrupt or error
            posted.settle(value, trouble)
        if interrupt is not None:
            raise interrupt
        if trouble is not None and not isinstance(trouble, StoreFailed):
            raise trouble

    def _written(self) -> Steps[StoreFailed | None]:
        """Writes what isn't written yet. Returns the error if this fails."""
        try:
            yield from self._write()
        except StoreFailed as error:
            return error
        return None

    def _mend(self) -> Steps[None]:
        """Restores the session after an interruption. With a store another program continues from the position, and a
        device is asked about the call that was under way. Without a store the service of that call is frozen."""
        call = self.under_way
        if self._store is not None:
            self._open = None if call is None else call.request
            yield from self._restore_surely()
            if call is not None:
                yield from self._recover(call)
        elif call is not None:
            yield from self._drop_and_freeze(call.service, Frozen.FAILED)
        elif self._open is not None:
            with contextlib.suppress(Idle):
                yield from self._surely(protocol.abort())
            self._open = None
        if self._store is not None:
            yield from self._written()
            yield Notify(Restarted("it was interrupted"))
        self._torn = False

    # The beginning.

    def begin(self, document: Document | None) -> Steps[None]:
        """Begins with the present session, or continues from the store. The document is that of the session, None if
        it couldn't be read."""
        self.document = document
        store = self._store
        if store is not None and store.stored is not None:
            yield from self._go_on(store, store.stored)
            return
        if store is not None and store.journal is not None:
            yield from self._take_over(store, store.journal)
            return
        self.position = Position.of_report((yield Tell(protocol.report())))
        self._check_devices()
        if store is not None:
            yield Begin(self._stored())

    def _stored(self) -> Stored:
        """The content of a new store."""
        if self.document is None:
            raise DocumentError("a store needs the document, which can't be read from here")
        failures = tuple(self._failures)
        return Stored(self.document, self.position, self.under_way, self._request, failures, dict(self.keys))

    def _go_on(self, store: Store, stored: Stored) -> Steps[None]:
        """Continues from the store, and finds out the result of a call that was under way."""
        self._check_document(store, stored.document)
        self.position, self.keys = stored.position, dict(stored.keys)
        self.under_way, self._request, self._failures = stored.under_way, stored.request, list(stored.failures)
        self._open = None if self.under_way is None else self.under_way.request
        self._check_devices()
        yield from self._restore_surely()
        LOG.info("%s: continues after %s requests", store.path, self.position.served)
        if self.under_way is not None:
            yield from self._recover(self.under_way)

    def _check_document(self, store: Store, document: Document) -> None:
        if self.document is None:
            self.document = document
        if not self.document.has_same_machines(document):
            raise StoreBroken(f"{store.path} is the store of another document, or of this one before an edit")

    def _check_devices(self) -> None:
        for name in self.position.places:
            if name not in self.devices:
                raise ValueError(f"there is no device for the service {name}")

    # Requests.

    def request(
        self, action: str, key: str | None, source: str | None = None, ahead: Ahead | None = None
    ) -> Steps[Done]:
        """Serves an action. With `ahead` its end may still be unwritten when this returns."""
        if self._unwritten and not self._owed:
            yield from self._write()
        kept = self._look_up(action, key)
        if kept is not None:
            yield from self._catch_up()
        if isinstance(kept, Done):
            return kept
        if kept is not None:
            raise InDoubt(f"{kept.service} was asked for {kept.request}, and may have done it")
        self._failures = []
        asking = NewRequest(action, key, source, self.position.calls + 1, ahead)
        try:
            if self._asks_back:
                yield from self._ask_back()
            while True:
                if self.inbox:
                    yield from self.drain()
                result = yield from self._attempt(asking)
                if isinstance(result, Done):
                    break
        except SessionOver as over:
            over.action = over.action or action
            raise
        except StoreFailed as error:
            if error.done is not None:
                yield from self._tell_served(error.done)
            raise
        if not self.is_owed(result):
            yield from self._tell_served(result)
        return result

    def is_owed(self, done: Done) -> bool:
        """Whether a request was served and isn't written yet."""
        return bool(self._owed) and any(each is done for each, _ in self._owed)

    @property
    def owes(self) -> bool:
        """Whether some request was served and isn't written yet."""
        return bool(self._owed)

    def flush(self) -> Steps[None]:
        """Writes the ends of requests that were served and aren't written yet."""
        if self._owed:
            yield from self._written()

    def _look_up(self, action: str, key: str | None) -> Kept | None:
        """The value that is stored for a key. Raises `KeyTaken` if the key was used for another action, and ValueError
        if it is too long or can't be stored."""
        if key is None:
            return None
        if len(key.encode(errors="surrogatepass")) > LONGEST_KEY:
            raise ValueError(f"a key has at most {LONGEST_KEY} bytes")
        if storable(key) != key:
            raise ValueError("a key has no letter that UTF-8 can't encode")
        kept = self.keys.get(key)
        if kept is not None and (kept.action if isinstance(kept, Done) else kept.request) != action:
            raise KeyTaken(f"the key {key} was used for another request")
        return kept

    def _tell_served(self, done: Done) -> Steps[None]:
        """Logs and notifies that a request was served."""
        LOG.info("%s served %s", done.service, done.action)
        yield Notify(done)

    def _attempt(self, asking: NewRequest) -> Steps[Done | None]:
        """Delegates the request to one service. Returns None if this fails."""
        chosen = yield from self._choose((yield from self._offered(asking.action)))
        call = Call(chosen.service, self._delegated(asking.action), asking.action, self.position.calls + 1, asking.key)
        try:
            yield from self._begin_call(CallBegun(call, asking.number, asking.source, chosen.reason))
            try:
                answer = yield Serve(call)
            except GeneratorExit:
                raise
            except Exception as error:
                return (yield from self._judge_error(call, error))
            except BaseException as interrupt:
                yield from _after(interrupt, self._doubt(call, interrupt))
                raise
            outcome = _outcome(answer)
            if outcome is None:
                yield from self._fail(Failure(call.service, call.request, None, answer))
                return None
            try:
                return (yield from self._answer(call, outcome, asking.ahead))
            except SessionOver as over:
                over.outcome = outcome
                raise
        except SessionOver as over:
            over.service = call.service
            raise

    def _begin_call(self, begun: CallBegun) -> Steps[None]:
        """Writes the call to the disk before the device is asked."""
        call = begun.call
        self.position = self.position._replace(calls=call.number)
        try:
            yield from self._write(begun)
            yield from self._surely(protocol.use(call.service))
        except StoreFailed:
            self._unwritten.remove(begun)
            yield from self._drop()
            raise
        except BaseException:
            # The call may be on the disk, but the device isn't asked.
            self._unwritten.append(CallEnded(call.number, result_of(NOT_DONE)))
            raise
        self.under_way, self._request = call, begun.request
        yield Notify(Asked(call))

    def _judge_error(self, call: Call, error: Exception) -> Steps[Done | None]:
        """Handles an error of a device. With `late_is_doubt` a late device is asked whether it did the call, before
        another device is asked."""
        device = self.devices[call.service]
        if not (device.late_is_doubt and isinstance(error, (DeviceTimeout, DeviceLost))):
            yield from self._fail(Failure(call.service, call.request, error, None))
            return None
        told = yield from self._told(call, AskState(call))
        if told is NOT_DONE:
            yield from self._fail(Failure(call.service, call.request, error, None))
            return None
        outcome = self._judged(call, told, False)
        if isinstance(outcome, tuple):
            return (yield from self._answer(call, outcome))
        if outcome is NOT_DONE:
            yield from self._fail(Failure(call.service, call.request, error, None))
            return None
        yield from self._doubt(call, error)
        raise InDoubt(f"{call.service} was asked for {call.request}, and may have done it: {error}")

    def _doubt(self, call: Call, error: BaseException) -> Steps[None]:
        """Freezes the service of a call that may have been done."""
        LOG.warning("%s is in doubt: %s was asked, and %r", call.request, call.service, error)
        yield from self._drop_and_freeze(call.service, Frozen.IN_DOUBT)
        entries = [CallEnded(call.number, IN_DOUBT, error=str(error) or type(error).__name__), *self._keep(call, call)]
        try:
            yield from self._write(*entries)
        except StoreFailed as trouble:
            LOG.warning("the doubt about %s is written later: %s", call.request, trouble)
        yield Notify(Failure(call.service, call.request, error, None))

    def _answer(self, call: Call, outcome: Outcome, ahead: Ahead | None = None) -> Steps[Done | None]:
        """Moves the session by the answer of a device. Returns None if the answer is impossible."""
        try:
            move = yield from self._surely(protocol.saw(*outcome))
        except DocumentError:
            raise
        except (BadLine, Impossible, UnknownName, TypeError, ValueError):
            yield from self._fail(Failure(call.service, call.request, None, outcome))
            return None
        done = self._served(call, outcome, move)
        entries = (CallEnded(call.number, SERVED, outcome, done.target), *self._keep(call, done))
        if ahead is not None and self._store is not None and ahead.is_awaited():
            self._unwritten += entries
            self._owed.append((done, ahead.settle))
            return done
        try:
            yield from self._write(*entries)
        except StoreFailed as error:
            error.done = done
            raise
        return done

    def _served(self, call: Call, outcome: Outcome, move: Any) -> Done:
        """Moves the position by a request that was served."""
        state, environment = outcome
        before = self.position
        places = {**before.places, call.service: before.places[call.service]._replace(state=state)}
        self.position = Position(move.target, move.environment, places, before.served + 1, before.calls, before.changes)
        self.under_way, self._open = None, None
        failures, self._failures = tuple(self._failures), []
        return Done(call.request, call.service, state, move.target, move.environment, failures)

    def _fail(self, failure: Failure) -> Steps[None]:
        """Freezes a service whose device has failed."""
        call = self.under_way
        assert call is not None
        yield from self._drop_and_freeze(call.service, Frozen.FAILED)
        self._failures.append(failure)
        LOG.warning("%s failed at %s: %s", failure.service, failure.action, failure.text)
        trouble = None
        try:
            yield from self._write(CallEnded(call.number, FAILED, error=failure.text))
        except StoreFailed as error:
            trouble = error
        yield Notify(failure)
        if trouble is not None:
            raise trouble

    def _drop_and_freeze(self, service: str, cause: Frozen) -> Steps[None]:
        """Drops the open request, and freezes a service. Until this has ended, the call is under way."""
        yield from self._abort()
        with contextlib.suppress(AlreadyFrozen):
            yield from self._surely(protocol.freeze(service))
        place = self.position.places[service]
        self.position = self.position.with_place(service, place._replace(frozen=cause))
        self.under_way = None

    def _drop(self) -> Steps[None]:
        """Drops the open request."""
        yield from self._abort()
        self.under_way = None

    def _abort(self) -> Steps[None]:
        """Drops the open request of the session."""
        if self._open is not None:
            with contextlib.suppress(Idle):
                yield from self._surely(protocol.abort())
        self._open = None

    def _offered(self, action: str) -> Steps[Offer]:
        """Requests an action, and returns the offer. If there is no composition, the error has the explanation."""
        try:
            offer = yield from self._surely(protocol.do(action))
        except NoComposition as refusal:
            refusal.explanation = yield from self._surely(protocol.explain())
            refusal.frozen = tuple(name for name, each in self.position.places.items() if each.frozen is not None)
            refusal.failures = tuple(self._failures)
            LOG.warning("%s has no composition; frozen: %s", action, ", ".join(refusal.frozen) or "none")
            raise
        self._open = action
        return offer

    def _choose(self, offer: Offer) -> Steps[Chosen]:
        """The policy's choice. The request is dropped if the policy fails."""
        try:
            behaviours = {name: each.behaviour for name, each in self.position.places.items()}
            answer = yield Choose(Choice(offer.action, offer.services, behaviours))
            chosen = answer if isinstance(answer, Chosen) else Chosen(answer, None)
            if chosen.service not in offer.services:
                raise ValueError(f"the policy chose {chosen.service}, which isn't offered")
            return chosen
        except GeneratorExit:
            raise
        except Exception:
            yield from self._drop()
            raise
        except BaseException as interrupt:
            yield from _after(interrupt, self._drop())
            raise

    def _delegated(self, action: str) -> str:
        return action if self.document is None else self.document.delegated(action)

    def record(
        self, action: str, service: str, outcome: Outcome, key: str | None, source: str | None = None
    ) -> Steps[Done]:
        """Records that a request was served, without asking a device."""
        yield from self._catch_up()
        kept = self._look_up(action, key)
        if isinstance(kept, Done):
            if (kept.service, kept.state, kept.environment) != (service, *outcome):
                raise KeyTaken(f"the request with the key {key} was served with another outcome")
            return kept
        call = Call(service, self._delegated(action), action, self.position.calls + 1, key)
        self._failures = []
        yield from self._surely(protocol.do(action))
        self._open = action
        try:
            yield from self._surely(protocol.use(service))
            self.under_way = call
            move = yield from self._surely(protocol.saw(*outcome))
        except BaseException as error:
            self.under_way = None  # No device was asked, so none is asked what became of it.
            if isinstance(error, (Refusal, TypeError, ValueError)):
                yield from self._abort()
            raise
        self.position = self.position._replace(calls=call.number)
        done = self._served(call, outcome, move)
        begun = CallBegun(call, call.number, source, "it was recorded")
        ended = CallEnded(call.number, RECORDED, outcome, done.target)
        trouble = None
        try:
            yield from self._write(begun, ended, *self._keep(call, done))
        except StoreFailed as error:
            error.done, trouble = done, error
        yield Notify(done)
        if trouble is not None:
            raise trouble
        return done

    def _keep(self, call: Call, kept: Kept) -> list[Entry]:
        """Stores the value of a request's key. Returns the entries for the store."""
        if call.key is None:
            return []
        self.keys.pop(call.key, None)
        self.keys[call.key] = kept
        dropped = []
        while len(self.keys) > KEYS:
            dropped.append(next(iter(self.keys)))
            del self.keys[dropped[-1]]
        return [KeyStored(call.key, kept, tuple(dropped))]

    # Changes.

    def event(self, event: Event[Value], cause: Frozen = Frozen.BY_HAND, source: str | None = None) -> Steps[Value]:
        """Sends a line that isn't part of a request. `cause` is the reason of a freeze."""
        try:
            value, notice = yield from self._make(event, cause, source)
        except Refusal:
            yield from self._catch_up()
            raise
        if notice is not None:
            trouble = yield from self._written()
            yield Notify(notice)
            if trouble is not None:
                raise trouble
        return value

    def _make(self, event: Event[Value], cause: Frozen, source: str | None) -> Steps[tuple[Value, Notice | None]]:
        """Makes a change, which is written later. Returns its value, and its notice."""
        words = event.words
        if words[0] in ("do", "use", "saw", "abort", "quit"):
            raise ValueError(f"{words[0]} is part of a request, and can't be posted")
        value: Any
        try:
            value = yield from self._surely(event)
        except AlreadyFrozen:
            if cause is not Frozen.BY_HAND or self.position.places[words[1]].frozen is Frozen.BY_HAND:
                raise
            report: Report = yield from self._surely(protocol.report())
            value = Repair(report.pairs - report.related, 0)
        if not event.changes:
            return value, None
        self.position = self.position.after(words, cause)
        made = ChangeMade(self.position.changes, words, cause if words[0] == "freeze" else None, source)
        self._unwritten.append(made)
        return value, Changed(words)

    def thaw(self, service: str, state: str | None, source: str | None = None) -> Steps[Repair]:
        """Takes a frozen service into use again."""
        if state is not None:
            with contextlib.suppress(StoreFailed):  # `thaw` writes it too, or raises the error.
                yield from self.event(protocol.jump(service, state), source=source)
        return (yield from self.event(protocol.thaw(service), source=source))

    def join(
        self, service: str, behaviour: str, state: str, loose: bool, device: DeviceKind, source: str | None = None
    ) -> Steps[Repair]:
        """Adds a service."""
        try:
            repair = yield from self.event(protocol.join(service, behaviour, state, loose=loose), source=source)
        except StoreFailed:
            self.devices[service] = device  # It has joined, and this is written later.
            raise
        self.devices[service] = device
        return repair

    def _ask_back(self) -> Steps[None]:
        """Thaws the failed services that are back."""
        for service in sorted(self.failed):
            try:
                answer = yield AskBack(service)
            except GeneratorExit:
                raise
            except Exception as error:
                LOG.warning("%s is treated as not back: %r", service, error)
                continue
            if answer is None or answer is False:
                continue
            try:
                yield from self.thaw(service, None if answer is True else answer)
                LOG.info("%s is back", service)
            except NotFrozen:
                place = self.position.places[service]._replace(frozen=None)
                self.position = self.position.with_place(service, place)
            except (Refusal, TypeError, ValueError) as error:
                LOG.warning("%s is treated as not back: %r", service, error)

    # The store, and the program.

    def _write(self, *entries: Entry) -> Steps[None]:
        """Writes the position, these entries, and those that couldn't be written before. If this fails, they are
        written with the next ones."""
        if self._store is None:
            return
        self._unwritten += entries
        try:
            yield Commit(self.position, tuple(self._unwritten))
        except StoreFailed as error:
            yield from self._settle(error)
            raise
        self._unwritten.clear()
        yield from self._settle(None)

    def _settle(self, error: StoreFailed | None) -> Steps[None]:
        """Ends the requests that waited for this write. If it failed, they are written later."""
        while self._owed:
            done, settle = self._owed.pop(0)
            try:
                yield from self._tell_served(done)
            finally:
                if error is None:
                    settle(done, None)
                else:
                    later = StoreFailed(str(error))
                    later.done = done
                    settle(None, later)

    def _catch_up(self) -> Steps[None]:
        """Writes the entries that couldn't be written before. An answer mustn't have more than the disk."""
        if self._unwritten:
            yield from self._write()

    def _surely(self, event: Event[Value]) -> Steps[Value]:
        """Sends a line. If the program ends meanwhile, the line is sent to another one, which continues from the
        position."""
        for _ in range(RESTARTS):
            try:
                value: Value = yield Tell(event)
                return value
            except SessionOver as over:
                yield from self._restart(over)
        last: Value = yield Tell(event)
        return last

    def _restart(self, over: SessionOver) -> Steps[None]:
        """Starts another program, which continues from the position."""
        if self._store is None:
            raise over
        LOG.warning("the program is restarted: %s", over)
        yield from self._restore_surely()
        yield Notify(Restarted(str(over)))

    def _restore_surely(self) -> Steps[None]:
        """Continues from the position in a new program, and in another one if that one ends."""
        for _ in range(RESTARTS):
            try:
                yield Restore(self._snapshot())
                return
            except SessionOver as over:
                LOG.warning("the program ended again: %s", over)
            except (Refusal, TypeError, ValueError) as error:
                raise StoreBroken(f"the program refuses the position of the store: {error}") from error
        yield Restore(self._snapshot())

    def _snapshot(self) -> Snapshot:
        """A snapshot of the session."""
        if self.document is None:
            raise DocumentError("the document can't be read from here")
        service = None if self._open is None or self.under_way is None else self.under_way.service
        return Snapshot(self.document.with_states(self.position), self._open, service)

    # After a kill.

    def _recover(self, call: Call) -> Steps[None]:
        """Finds out the result of the call that was under way."""
        done: Done | None = None
        repeated = self.devices[call.service].repeatable
        told = yield from self._told(call, Serve(call) if repeated else AskState(call))
        if told is None and repeated:  # The call may still reach the device, which refuses it after it has answered.
            repeated = False
            told = yield from self._told(call, AskState(call))
        outcome = self._judged(call, told, repeated)
        trouble = None
        try:
            if isinstance(outcome, tuple):
                done = yield from self._answer(call, outcome)
        except StoreFailed as error:
            done, trouble = error.done, error
        verdict = Verdict.IN_DOUBT
        if done is not None:
            verdict = Verdict.DONE
        elif outcome is NOT_DONE:
            verdict = Verdict.NOT_DONE
            yield from self._drop()
            trouble = yield from self._ended(CallEnded(call.number, result_of(verdict)))
        elif self.under_way is not None:
            yield from self._drop_and_freeze(call.service, Frozen.IN_DOUBT)
            trouble = yield from self._ended(CallEnded(call.number, IN_DOUBT), *self._keep(call, call))
        self.recovered = Recovery(call, verdict, done)
        LOG.warning("%s was under way at %s: %s", call.request, call.service, verdict.value)
        yield Notify(self.recovered)
        if trouble is not None:
            raise trouble

    def _ended(self, *entries: Entry) -> Steps[StoreFailed | None]:
        """Writes the result of a call. Returns the error if this fails."""
        try:
            yield from self._write(*entries)
        except StoreFailed as error:
            return error
        return None

    def _told(self, call: Call, effect: Effect) -> Steps[Told]:
        """The answer of the device, None if it fails or has another form."""
        try:
            told = yield effect
        except GeneratorExit:
            raise
        except Exception as error:
            LOG.warning("%s can't report the result of %s: %r", call.service, call.request, error)
            return None
        if told is NOT_DONE:
            return NOT_DONE
        if isinstance(told, Did):
            outcome = _outcome(told.outcome)
            return None if outcome is None else Did(outcome)
        return _outcome(told)

    def _judged(self, call: Call, told: Told, repeated: bool) -> Outcome | Verdict | None:
        """The result of a call by the answer of its device: a possible outcome, NOT_DONE, or None if it is unknown.
        The answer is that to the call if the call was repeated, or if the device states that it did it. Otherwise it
        is the present state. If this is the state before the call, and the action may lead to it, the result is
        unknown."""
        did = isinstance(told, Did)
        outcome = told.outcome if isinstance(told, Did) else told
        if not isinstance(outcome, tuple):
            return outcome
        assert self.document is not None
        before = self.position.places[call.service]
        outcomes = list(self.document.outcomes(before.behaviour, before.state, self.position.environment, call.request))
        if outcome[0] == before.state and not repeated and not did:
            return None if any(state == outcome[0] for state, _ in outcomes) else NOT_DONE
        return outcome if outcome in outcomes else None

    # A journal of an older form.

    def _take_over(self, store: Store, journal: takeover.Journal) -> Steps[None]:
        """Continues from a journal of an older form, which becomes a database."""
        self._check_document(store, journal.snapshot.document)
        replay = takeover.Replay(journal)
        yield Restore(journal.snapshot)
        try:
            yield from replay.play()
        except (Refusal, KeyError, TypeError, ValueError) as error:
            raise StoreBroken(f"{store.path}: {error!r}") from error
        self.position, self.keys, self.under_way = replay.position, replay.keys, replay.under_way
        self._request, self._failures = replay.request, replay.failures
        self._open = None if self.under_way is None else self.under_way.request
        self._check_devices()
        yield Begin(self._stored())
        if self.under_way is not None:
            yield from self._recover(self.under_way)


def _after(interrupt: BaseException, steps: Steps[None]) -> Steps[None]:
    """Takes steps after an interrupt, which the caller raises. An error of these steps is logged, since it would hide
    the interrupt. The next turn restores the session."""
    try:
        yield from steps
    except GeneratorExit:
        raise
    except Exception as error:
        LOG.warning("after %r: %r", interrupt, error)


def _outcome(answer: Any) -> Outcome | None:
    """The outcome in an answer, None if it has another form."""
    if isinstance(answer, (tuple, list)) and len(answer) == 2:
        state, environment = answer
        if isinstance(state, str) and isinstance(environment, str):
            return state, environment
    return None
