"""A small home without input and output: this module simulates the program, the store and two devices.

A `Universe` has the state that outlasts a home: the content of the disk, the calls that the devices did, and the
progress of the person who makes the requests. A `Run` continues a home in a universe until it is done. It collects the
universes that the home would leave if it ended before or after each of its effects.
"""

from __future__ import annotations

import contextlib
import functools
from collections.abc import Iterator, Mapping
from dataclasses import dataclass, field, replace
from typing import Any

from roman_client import (
    NOT_DONE,
    AlreadyFrozen,
    Call,
    DeviceFailed,
    DeviceTimeout,
    Did,
    Document,
    Done,
    Frozen,
    Idle,
    Impossible,
    InDoubt,
    NoComposition,
    NotFrozen,
    ProgramEnded,
    StoreFailed,
    protocol,
)
from roman_client.core import Ahead, Dispatching
from roman_client.effects import AskState, Begin, Choose, Commit, Notify, Restore, Serve
from roman_client.policies import Choice
from roman_client.position import Position
from roman_client.protocol import Effect, Tell
from roman_client.replies import Explanation, Move, Offer, Repair, Report, Service
from roman_client.store import CallBegun, CallEnded, KeyStored, Stored

TICK = {
    "roman": 1,
    "environment": {"states": ["e"], "start": "e", "actions": ["tick"], "steps": [["e", "tick", "e"]]},
    "behaviours": [
        {
            "name": "clock",
            "states": ["a", "b"],
            "start": "a",
            "final": ["a", "b"],
            "steps": [["a", True, "tick", "b"], ["b", True, "tick", "a"]],
        }
    ],
    "services": [{"name": "t1", "behaviour": "clock"}, {"name": "t2", "behaviour": "clock"}],
    "target": {"states": ["s"], "start": "s", "final": ["s"], "steps": [["s", True, "tick", "s"]]},
}

DOCUMENT = Document(TICK)
OTHER = {"a": "b", "b": "a"}


@dataclass(frozen=True)
class Manner:
    """The behaviour of a device. A device that `tells` knows whether it did a call. One that is `plain` knows only its
    state, and one that is `mute` knows nothing. It `fails` at its first calls, or is `late` at them. If it `acts_late`,
    it carries out the late calls."""

    tells: str = "tells"
    fails: int = 0
    late: int = 0
    acts_late: bool = False
    repeatable: bool = False
    late_is_doubt: bool = False

    @property
    def refuses(self) -> bool:
        """Whether a late call does no harm, because the device knows its number."""
        return self.tells == "tells" or self.repeatable


@dataclass(frozen=True)
class Clock:
    """A device: its state, the calls that it did with their keys, and those that are on their way to it. It refuses
    calls after it has answered that it didn't do them."""

    state: str = "a"
    done: tuple[tuple[int, str | None], ...] = ()
    refused: frozenset[int] = frozenset()
    coming: tuple[Call, ...] = ()
    asked: int = 0

    def act(self, call: Call) -> Clock:
        """The device after a call has reached it. It never does a call twice."""
        if call.number in self.refused or call.number in dict(self.done):
            return self
        return replace(self, state=OTHER[self.state], done=(*self.done, (call.number, call.key)))

    def arrive(self) -> Clock:
        """The device after all calls on their way have reached it."""
        clock = replace(self, coming=())
        for call in self.coming:
            clock = clock.act(call)
        return clock


@dataclass(frozen=True)
class Universe:
    """The state that outlasts a home. `step` is the number of the person's steps that are acknowledged."""

    disk: Stored | None
    clocks: tuple[tuple[str, Clock], ...]
    step: int = 0
    told: tuple[tuple[str, str], ...] = ()

    @property
    def devices(self) -> dict[str, Clock]:
        """The devices by service."""
        return dict(self.clocks)

    def with_device(self, service: str, clock: Clock) -> Universe:
        """The universe with another state of a device."""
        return replace(self, clocks=tuple((name, clock if name == service else each) for name, each in self.clocks))

    def identity(self) -> Any:
        """The parts by which universes are distinguished."""
        disk = self.disk
        stored = None
        if disk is not None:
            position = disk.position
            stored = (
                position.target,
                tuple(position.places.items()),
                position.served,
                position.calls,
                disk.under_way,
                tuple(disk.keys),
                tuple(map(type, disk.keys.values())),
                len(disk.failures),
            )
        return stored, self.clocks, self.step, self.told


class Program:
    """The parts of the program that this home needs. Each service that isn't frozen can serve."""

    def __init__(self) -> None:
        self.states: dict[str, str] = {}
        self.frozen: set[str] = set()
        self.open: str | None = None
        self.service: str | None = None

    def restore(self, document: Document, request: str | None, service: str | None) -> None:
        """Continues from a snapshot."""
        self.states = {each.name: each.state for each in document.services}
        self.frozen = {each.name for each in document.services if each.frozen}
        self.open, self.service = request, service

    def tell(self, words: tuple[str, ...]) -> Any:
        """Returns the value of the reply to a line."""
        word, *rest = words
        return getattr(self, f"_{word}")(*rest)

    def _report(self) -> Report:
        services = tuple(
            Service(name, "clock", state, name in self.frozen, False) for name, state in self.states.items()
        )
        return Report(4, 4, "e", "s", True, services, True, {})

    def _do(self, action: str) -> Offer:
        assert self.open is None, "a request is open"
        ready = tuple(each for each in self.states if each not in self.frozen)
        if not ready:
            raise NoComposition(f"do {action}", "no composition")
        self.open = action
        return Offer(action, ready)

    def _use(self, service: str) -> None:
        assert self.open is not None and self.service is None and service not in self.frozen
        self.service = service

    def _saw(self, state: str, environment: str) -> Move:
        assert self.service is not None
        if OTHER[self.states[self.service]] != state:
            raise Impossible(f"saw {state} {environment}", "impossible")
        self.states[self.service] = state
        self.open = self.service = None
        return Move("s", "e")

    def _abort(self) -> None:
        if self.open is None:
            raise Idle("abort", "error idle")
        self.open = self.service = None

    def _freeze(self, service: str) -> Repair:
        if service in self.frozen:
            raise AlreadyFrozen(f"freeze {service}", "error frozen")
        self.frozen.add(service)
        return Repair(0, 0)

    def _thaw(self, service: str) -> Repair:
        if service not in self.frozen:
            raise NotFrozen(f"thaw {service}", "error ready")
        self.frozen.remove(service)
        return Repair(0, 0)

    def _jump(self, service: str, state: str) -> None:
        self.states[service] = state

    def _explain(self) -> Explanation:
        return Explanation(())


class Disk:
    """The store of a running home, with the attributes that its core reads."""

    path = "the disk"
    journal = None

    def __init__(self, stored: Stored | None) -> None:
        self.stored = stored


@dataclass
class Device:
    """The attributes of a device that the core reads."""

    timeout: float | None
    repeatable: bool
    late_is_doubt: bool


@dataclass
class Faults:
    """A fault of a run: at an effect, the program ends before or after it has performed it, or the disk is full."""

    at: int = -1
    kind: str = ""


@dataclass
class Run:
    """A home that continues in a universe."""

    universe: Universe
    manners: Mapping[str, Manner]
    script: tuple[str, ...]
    faults: Faults = field(default_factory=Faults)
    left: list[Universe] = field(default_factory=list)
    effects: int = 0

    def __post_init__(self) -> None:
        self.program = Program()
        self.program.restore(DOCUMENT, None, None)
        devices = {name: Device(None, each.repeatable, each.late_is_doubt) for name, each in self.manners.items()}
        self.core: Dispatching[Device] = Dispatching(devices, False, Disk(self.universe.disk))  # type: ignore[arg-type]

    def go(self) -> None:
        """Continues until all steps of the script are acknowledged, and all devices are back."""
        self.begin()
        self.take_rest()

    def take_rest(self) -> None:
        """Takes the steps that aren't acknowledged."""
        while self.universe.step < len(self.script):
            told = self.take(self.script[self.universe.step])
            self.universe = replace(
                self.universe, step=self.universe.step + 1, told=(*self.universe.told, (str(self.universe.step), told))
            )
        self.arrive()
        self.return_all()

    def begin(self) -> None:
        """Begins, or continues from the store."""
        self.perform(self.core.turn(lambda: self.core.begin(DOCUMENT)))

    def take(self, step: str) -> str:
        """Takes a step of the person, who repeats it until it succeeds. Returns the answer."""
        word, _, rest = step.partition(" ")
        for _ in range(8):
            try:
                if word == "request":
                    done: Done = self.perform(self.core.turn(lambda: self.core.request("tick", rest)))
                    return f"{done.service} {done.state}"
                if word == "both":
                    return " ".join(self.take_both(*rest.split()))
                if word == "freeze":
                    self.perform(self.core.turn(lambda: self.core.event(protocol.freeze(rest))))
                else:
                    self.thaw(rest)  # The person looks at the device.
                return "changed"
            except (AlreadyFrozen, NotFrozen):
                return "changed"  # The change was made before the home ended.
            except InDoubt:
                return "in doubt"
            except NoComposition:
                self.return_all()
            except StoreFailed:
                continue
        raise AssertionError(f"{step} comes to no end")

    def take_both(self, *keys: str) -> list[str]:
        """Makes requests that follow each other at once. Returns the answers when all are acknowledged."""
        told: dict[str, str] = {}

        def settle(key: str, done: Done | None, error: BaseException | None) -> None:
            if done is not None:
                told[key] = f"{done.service} {done.state}"
                acknowledged = (str(self.universe.step), f"acknowledged {key}")
                self.universe = replace(self.universe, told=(*self.universe.told, acknowledged))

        for key in keys:
            ahead = Ahead(functools.partial(settle, key), lambda: key != keys[-1])
            try:
                done: Done = self.perform(self.core.turn(lambda: self.core.request("tick", key, None, ahead)))
            except InDoubt:
                assert not any(each == f"acknowledged {key}" for _, each in self.universe.told), f"{key} isn't kept"
                told[key] = "in doubt"
                continue
            if not self.core.is_owed(done):
                told[key] = f"{done.service} {done.state}"
        self.perform(self.core.turn(self.core.flush))
        if len(told) < len(keys):
            raise StoreFailed("one isn't acknowledged")
        return [told[key] for key in keys]

    def return_all(self) -> None:
        """Thaws the services that aren't frozen by hand, in the states of their devices."""
        for service in sorted(self.core.failed):
            self.thaw(service)

    def thaw(self, service: str) -> None:
        """Thaws a service in the state of its device, and repeats this if the disk is full."""
        state = self.universe.devices[service].state
        for _ in range(3):
            with contextlib.suppress(StoreFailed, NotFrozen):
                self.perform(self.core.turn(lambda: self.core.thaw(service, state)))
                return

    def arrive(self) -> None:
        """Lets the calls on their way reach their devices."""
        for name, clock in self.universe.clocks:
            self.universe = self.universe.with_device(name, clock.arrive())

    # Effects.

    def perform(self, steps: protocol.Steps[Any]) -> Any:
        """Performs the effects one by one. Stores the universe that each would leave if it were the last one."""
        try:
            effect = next(steps)
            while True:
                self.left.extend(self.cut_before(effect))
                try:
                    result = self.one(effect)
                except Exception as error:
                    self.left.append(self.universe)
                    effect = steps.throw(error)
                else:
                    self.left.append(self.universe)
                    effect = steps.send(result)
        except StopIteration as end:
            return end.value

    def cut_before(self, effect: Effect) -> Iterator[Universe]:
        """The universes that an end just before an effect leaves. A call of a device may be on its way."""
        yield self.universe
        if isinstance(effect, Serve) and self.manners[effect.call.service].refuses:
            clock = self.universe.devices[effect.call.service]
            coming = replace(clock, coming=(*clock.coming, effect.call))
            yield self.universe.with_device(effect.call.service, coming)

    def one(self, effect: Effect) -> Any:
        """Performs one effect, or its fault."""
        self.effects += 1
        kind = self.faults.kind if self.effects == self.faults.at else ""
        if isinstance(effect, (Tell, Restore)):
            if kind == "ended before":
                self.program = Program()
                raise ProgramEnded(-9, (), ())
            value = self.talk(effect)
            if kind == "ended after":
                self.program = Program()
                raise ProgramEnded(-9, (), ())
            return value
        if isinstance(effect, Commit):
            if kind == "full":
                raise StoreFailed("the disk is full")
            self.commit(effect)
        elif isinstance(effect, Begin):
            self.universe = replace(self.universe, disk=effect.stored)
        elif isinstance(effect, Serve):
            return self.serve(effect.call)
        elif isinstance(effect, AskState):
            return self.ask(effect.call)
        elif isinstance(effect, Choose):
            choice: Choice = effect.choice
            return choice.offered[0]
        else:
            assert isinstance(effect, Notify)
        return None

    def talk(self, effect: Tell[Any] | Restore) -> Any:
        """Performs an effect of the program."""
        if isinstance(effect, Tell):
            if not self.program.states:
                raise ProgramEnded(-9, (), ())
            return self.program.tell(effect.event.words)
        snapshot = effect.snapshot
        self.program.restore(snapshot.document, snapshot.request, snapshot.service)
        return None

    def commit(self, effect: Commit) -> None:
        """Performs a commit of the store, in one transaction."""
        stored = self.universe.disk
        assert stored is not None
        for entry in effect.entries:
            if isinstance(entry, CallBegun):
                assert stored.under_way in (None, entry.call), f"{stored.under_way} never ends"
                failures = stored.failures if stored.request == entry.request else ()
                stored = replace(stored, under_way=entry.call, request=entry.request, failures=failures)
            elif isinstance(entry, CallEnded):
                if stored.under_way is not None and stored.under_way.number == entry.number:
                    stored = replace(stored, under_way=None)
            elif isinstance(entry, KeyStored):
                stored = replace(stored, keys={**stored.keys, entry.key: entry.kept})
        self.universe = replace(self.universe, disk=replace(stored, position=effect.position))

    def serve(self, call: Call) -> Any:
        """Performs a call of a device."""
        manner, clock = self.manners[call.service], self.universe.devices[call.service]
        clock = replace(clock, asked=clock.asked + 1)
        if clock.asked <= manner.fails:
            self.universe = self.universe.with_device(call.service, clock)
            raise DeviceFailed("out of order")
        late = clock.asked <= manner.late
        if not late or manner.acts_late:
            clock = clock.act(call)
        self.universe = self.universe.with_device(call.service, clock)
        if late:
            raise DeviceTimeout("late")
        return clock.state, "e"

    def ask(self, call: Call) -> Any:
        """The answer of a device about a call."""
        manner, clock = self.manners[call.service], self.universe.devices[call.service]
        if manner.tells == "mute":
            return None
        if manner.tells == "plain":
            return clock.state, "e"
        if call.number in dict(clock.done):
            return Did((clock.state, "e"))
        refused = replace(clock, refused=clock.refused | {call.number})
        self.universe = self.universe.with_device(call.service, refused)
        return NOT_DONE

    # Checks at the end.

    def check(self) -> None:
        """Raises AssertionError if a property fails when the run is done."""
        position: Position = self.core.position
        acted = [key for clock in self.universe.devices.values() for _, key in clock.done]
        late = any(each.late and not each.late_is_doubt for each in self.manners.values())
        for key in set(acted):
            assert acted.count(key) == 1 or late, f"{key} was done twice: {self.universe}"
        for number, told in self.universe.told:
            word, _, rest = self.script[int(number)].partition(" ")
            if word == "request" and told != "in doubt":
                assert rest in acted, f"{rest} was acknowledged, and not done: {self.universe}"
            if word == "both" and "in doubt" not in told:
                keys = told.split()[1:] if told.startswith("acknowledged") else rest.split()
                assert set(keys) <= set(acted), f"{keys} were acknowledged, and not done: {self.universe}"
        for name, clock in self.universe.clocks:
            place = position.places[name]
            assert place.frozen is not None or place.state == clock.state, f"{name} is {clock.state}: {place}"
            assert (place.frozen is Frozen.BY_HAND) == self.is_held(name), f"{name}: {place}, {self.universe}"
            assert place.frozen in (None, Frozen.BY_HAND), f"{name} is frozen for good: {place}"
            assert self.program.states[name] == place.state
            assert (name in self.program.frozen) == (place.frozen is not None)
        assert self.program.open is None and self.core.under_way is None
        disk = self.universe.disk
        assert disk is not None and disk.under_way is None and disk.position == position

    def is_held(self, service: str) -> bool:
        """Whether the person has frozen a service, and hasn't thawed it."""
        steps = [step.split()[0] for step in self.script if step.endswith(f" {service}")]
        return steps[-1:] == ["freeze"]


def beginning(manners: Mapping[str, Manner]) -> Universe:
    """The universe before the first start."""
    return Universe(None, tuple((name, Clock()) for name in manners))
