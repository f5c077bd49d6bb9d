"""The devices of a home: how each service is reached, what devices report, and changes of services."""

from __future__ import annotations

import asyncio
import contextlib
import difflib
import logging
from collections.abc import Callable
from dataclasses import dataclass
from functools import partial
from typing import Any

from roman_client import NOT_DONE, Call, DeviceFailed, Did, Document, Frozen, Refusal, StoreFailed, aio, protocol
from roman_client.devices import Outcome, Told
from roman_client.protocol import Event

from .activity import Activity
from .background import Background
from .config import DeviceEntry, HomeFile, HomeFileError
from .devices import Answer, Reach, Simulated
from .devices.base import DEADLINE
from .devices.factory import make_reach
from .devices.maps import Map, check_map, check_states, check_words
from .environment import EnvironmentSensor
from .errors import TEMPORARY_ERRORS, NoDevice, NoSpace, UnknownState, error_text
from .events import EventLog
from .limits import one_line
from .moves import PAUSE, Moves
from .mqtt_api import Connection
from .polling import poll
from .processes import Processes
from .recovery import Retries
from .registry import Registry
from .toml_lines import located

LOG = logging.getLogger("roman_live")

FIRST_WORD = 10.0
"""The number of seconds that the start waits for the states of the devices. Slower devices report later."""

COMPARED = 3
"""The number of times that a device is asked for its state after the broker was gone. It may reconnect later than the
home."""

NO_FILES_PAUSE = 0.1
"""The number of seconds after which a device is asked again if no file was left for it."""

ENVIRONMENT = ""
"""The subject of a move of the environment. No service has this name."""

BY_ITSELF = "the device"
"""The source, for the history, of a change that a device reported."""


class HomeDevice(aio.Device):
    """A service as the dispatcher sees it."""

    def __init__(self, fleet: Fleet, reach: Reach, entry: DeviceEntry | None) -> None:
        """A simulated device has neither an entry nor a deadline. A quick device has no deadline."""
        self.reach = reach
        self.poll = reach.poll if entry is None or entry.poll is None else entry.poll
        self.timeout = None if entry is None or reach.is_quick else entry.seconds or reach.timeout or DEADLINE
        self.repeatable = reach.repeatable or entry is not None and entry.repeat
        self.late_is_doubt = reach.late_is_doubt or entry is not None and entry.late_is_doubt
        self._fleet = fleet

    async def serve(self, call: Call) -> Outcome:
        while True:
            try:
                answer = await self.reach.ask(self._fleet.number(call), call)
                return self._fleet.outcome(call, answer)
            except NoSpace as error:
                LOG.warning("%s can't be asked yet: %s", call.service, error)
            await asyncio.sleep(NO_FILES_PAUSE)

    async def state(self, call: Call) -> Told:
        answer = await self.reach.tell(self._fleet.number(call), call)
        if answer is None:
            return None
        if answer.done is False:
            return NOT_DONE
        outcome = self._fleet.outcome(call, answer)
        return Did(outcome) if answer.done else outcome


@dataclass(frozen=True)
class EarlierRuns:
    """The data that earlier runs with the store left: the number from which calls are counted, the last call of each
    service, and the locks of their commands."""

    first: int
    last: dict[str, int]
    processes: Processes

    def number(self, service: str) -> int | None:
        """The number of the last call of a service."""
        last = self.last.get(service)
        return None if last is None else self.first + last


def check_names(file: HomeFile, document: Document) -> None:
    """Raises HomeFileError for a map, or a word, with a name that isn't in the document."""
    behaviours = {each.name: each.behaviour for each in document.services}
    environments = document.environment.states
    try:
        for name, entry in file.devices.items():
            if isinstance(entry.reach, Map):
                check_map(f"devices.{name}", entry.reach, document, behaviours.get(name))
        if file.environment is not None:
            states = file.environment.map.states
            check_states("environment", states, environments, "no state of the environment", environments)
        check_words(file.words.actions, file.words.states, document)
    except HomeFileError as error:
        text = file.path.read_text(encoding="utf-8")
        raise HomeFileError(f"{file.path}: {located(text, str(error))}") from None


class Fleet:
    """The devices of a home. It is the listener of its devices."""

    def __init__(
        self,
        file: HomeFile,
        document: Document,
        dispatcher: aio.Dispatcher,
        registry: Registry,
        activity: Activity,
        events: EventLog,
        earlier: EarlierRuns,
        changed: Callable[[], None],
        *,
        simulate: bool,
    ) -> None:
        """Makes a device for each service of the home file, and adds it to the dispatcher. `changed` is called when the
        displayed state of a service has changed. With `simulate` a person plays all services of the document. Raises
        HomeFileError."""
        self.document = document
        self.registry = registry
        self.broker = None if file.mqtt is None or simulate else Connection(file.mqtt, self._broker_changed)
        self.sensor: EnvironmentSensor | None = None
        if file.environment is not None and not simulate:
            self.sensor = EnvironmentSensor(file.environment, self.broker, self._sensed, self._sensor_said)
        self.background = Background()
        self.devices: dict[str, HomeDevice] = {}
        self._file = file
        self._dispatcher = dispatcher
        self._activity = activity
        self._events = events
        self._earlier = earlier
        self._changed = changed
        self._simulate = simulate
        self._ready = False
        self._turns: dict[str, asyncio.Lock] = {}
        self._coming: dict[str, Answer | None] = {}
        self.moves = Moves(self._post, activity, lambda error: events.add("wrong", str(error)))
        self.retries = Retries(registry, self.held, self.told, self.back, changed, by_hand=simulate)
        for name in [each.name for each in document.services] if simulate else file.devices:
            self._add(name)
        if not simulate:
            check_names(file, document)
        missing = self._missing()
        if missing:
            raise HomeFileError("\n".join(missing))

    def _missing(self) -> list[str]:
        """An error for each service of the document without a device, with the table that is probably meant for it."""
        names = [each.name for each in self.document.services]
        spare = [name for name in self.devices if name not in names]
        errors = []
        for name in names:
            if name not in self.devices:
                near = difflib.get_close_matches(name, spare, 1)
                meant = f"; is devices.{near[0]} meant for it?" if near else ""
                errors.append(f"{self._file.path}: devices.{name} is missing; the document has this service{meant}")
        return errors

    def _add(self, service: str) -> HomeDevice:
        """Makes the device of a service. Raises NoDevice if the home file has none."""
        if self._simulate:
            device = HomeDevice(self, Simulated(service, self, lambda name: self.registry[name].state), None)
        else:
            entry = self._file.devices.get(service)
            if entry is None:
                raise NoDevice(f"the home file has no table [devices.{service}], so it can't be reached")
            before = self._earlier.number(service)
            processes = self._earlier.processes
            reach = make_reach(service, entry, self, self.broker, processes, before, self.outcomes)
            device = HomeDevice(self, reach, entry)
        self.devices[service] = self._dispatcher.devices[service] = device
        return device

    # Beginning and end.

    async def open(self) -> None:
        """Connects to the broker, and opens all devices."""
        if self.broker is not None:
            await self.broker.open()
        for device in self.devices.values():
            await device.reach.open()
        if self.sensor is not None:
            await self.sensor.reach.open()

    async def begin(self) -> None:
        """Asks all devices for their states, waits a little for the answers, and starts to watch them."""
        self._ready = True
        if not self._simulate:
            comparing = [self.background.run(self.compare(name)) for name in self.registry.present()]
            if self.sensor is not None:
                comparing.append(self.background.run(self.sensor.ask()))
                self.background.run(self.sensor.watch())
            if comparing:
                await asyncio.wait(comparing, timeout=FIRST_WORD)
            for name, device in self.devices.items():
                if device.poll is not None:
                    self.background.run(self._poll(name, device.poll))
        self.retries.start_all(at_once=True)

    async def close(self) -> None:
        """Stops all work in the background. Later reports of devices are ignored."""
        self._ready = False
        self.moves.hold()
        await self.background.close()
        await self.retries.close()

    async def disconnect(self) -> None:
        """Closes all devices, and the connection to the broker."""
        for device in self.devices.values():
            await device.reach.close()
        if self.sensor is not None:
            await self.sensor.reach.close()
        if self.broker is not None:
            await self.broker.close()

    # Calls.

    def number(self, call: Call) -> int:
        """The number of a call for its device. It is unique among the calls of all stores."""
        return self._earlier.first + call.number

    @property
    def newest(self) -> int:
        """The number of the newest call."""
        return self._earlier.first + self._dispatcher.core.position.calls

    async def end_earlier(self, call: Call) -> None:
        """Waits until no command of an earlier run is at work on a call, at most until its deadline."""
        device = self.devices.get(call.service)
        seconds = DEADLINE if device is None or device.timeout is None else device.timeout
        await self._earlier.processes.end(self.number(call), seconds)

    def outcome(self, call: Call, answer: Answer) -> Outcome:
        """The outcome that an answer means. If the answer lacks the environment, this is the state of its sensor, or
        the present state if it may stay, or the only possible one. Raises DeviceFailed if several remain."""
        if answer.environment is not None:
            return answer.state, answer.environment
        possible = self.document.environment.after(self.registry.environment, call.action)
        if self.sensor is not None and self.sensor.state in possible:
            return answer.state, self.sensor.state
        if self.registry.environment in possible:
            return answer.state, self.registry.environment
        if len(possible) != 1:
            raise DeviceFailed(f"didn't report the environment, which may be {' or '.join(possible)}")
        return answer.state, possible[0]

    def outcomes(self, call: Call) -> set[Outcome]:
        """The outcomes that the document allows for a call."""
        known = self.registry[call.service]
        environment = self.registry.environment
        return set(self.document.outcomes(known.behaviour, known.state, environment, call.request))

    # Changes by hand.

    def held(self) -> frozenset[str]:
        """The services that were frozen by hand. They don't recover by themselves."""
        return self._dispatcher.core.position.frozen(Frozen.BY_HAND)

    async def freeze(self, service: str, source: str | None = None) -> None:
        """Takes a service out of use, until `thaw`."""
        async with self._turn(service):
            await self._dispatcher.change(protocol.freeze(service), source)

    async def thaw(self, service: str, source: str | None = None) -> None:
        """Takes a service back into use, in the state that its device reports, if it reports one."""
        answer = None
        if service in self.registry and self.registry[service].frozen:
            with contextlib.suppress(Exception):
                answer = await self.told(service)
        async with self._turn(service):
            await self._thaw(service, answer, source)

    async def _thaw(self, service: str, answer: Answer | None, source: str | None) -> None:
        """Thaws a service in the states that its device reports. Raises UnknownState."""
        state = environment = None
        if answer is not None:
            state, environment = answer.state, answer.environment
            self._check_place(service, answer)
        if environment is not None and environment != self.registry.environment:
            with contextlib.suppress(StoreFailed):  # `thaw` writes it too, or raises the error.
                await self.jump_environment(environment, source)
        await self._dispatcher.thaw(service, state, source)

    def _turn(self, service: str) -> asyncio.Lock:
        """The lock of a service. An unknown service gets a new one, and the program refuses it."""
        if service not in self.registry:
            return asyncio.Lock()
        return self._turns.setdefault(service, asyncio.Lock())

    def _check_place(self, service: str, answer: Answer) -> None:
        """Raises UnknownState if a device names a state that isn't in the document."""
        behaviour = self.document.behaviours[self.registry[service].behaviour]
        environment = self.document.environment
        if answer.state not in behaviour.states:
            known = f"none of {behaviour.name}'s states: {', '.join(behaviour.states)}"
            raise UnknownState(f"{service} says it is in {one_line(answer.state)}, which is {known}")
        if answer.environment is not None and answer.environment not in environment.states:
            known = f"none of its states: {', '.join(environment.states)}"
            raise UnknownState(f"{service} says the environment is in {one_line(answer.environment)}, which is {known}")

    async def die(self, service: str, source: str | None = None) -> None:
        """Removes a service for good."""
        await self._dispatcher.change(protocol.die(service), source)

    async def join(self, service: str, behaviour: str, state: str, loose: bool, source: str | None = None) -> None:
        """Adds a service. Raises NoDevice if the home file has no device for it."""
        device = self.devices.get(service)
        if device is None:
            device = self._add(service)
            await device.reach.open()
        await self._dispatcher.join(service, behaviour, state, device, loose=loose, source=source)

    async def jump(self, service: str, state: str, source: str | None = None) -> None:
        """Sets the state of a service."""
        await self._dispatcher.change(protocol.jump(service, state), source)

    async def jump_environment(self, state: str, source: str | None = None) -> None:
        """Sets the state of the environment."""
        await self._dispatcher.change(protocol.jumpenv(state), source)

    # Reports of devices.

    def moved(self, service: str, answer: Answer) -> None:
        known = self.registry.get(service)
        if known is None or known.dead or not self._ready:
            return
        if known.frozen and service not in self.held():
            if service in self._coming:
                self._coming[service] = answer
            else:
                self._coming[service] = None
                self.background.run(self._come_back(service, answer))
            return
        if service == self._activity.chosen:
            return  # The device is being asked, and its answer will be newer.
        self._place(service, answer)

    def answered(self, service: str) -> None:
        if service == self._activity.chosen:
            self._activity.chosen = None

    def gone(self, service: str) -> None:
        known = self.registry.get(service)
        if known is None or known.dead or known.frozen or not self._ready:
            return
        known.last_error = "is gone"
        self._events.add("gone", f"{service} is gone", service=service)
        if service != self._activity.chosen:
            self.moves.add(service, protocol.freeze(service))

    def late(self, service: str, text: str) -> None:
        self._events.add("late", f"{service} {text}", service=service)
        self.retries.hurry(service)

    def environment_moved(self, state: str) -> None:
        """Sets the state of the environment, which moved by itself."""
        if state != self.registry.environment or self.moves.is_open:
            self.moves.add(ENVIRONMENT, protocol.jumpenv(state))

    def look_at_environment(self) -> None:
        """Corrects the environment if its sensor contradicts the move of the document."""
        if self.sensor is not None and self.sensor.state is not None:
            self.environment_moved(self.sensor.state)

    def _sensed(self, state: str) -> None:
        """Takes the state of the environment from its sensor."""
        if self._ready:
            self.environment_moved(state)

    def _sensor_said(self, text: str, well: bool) -> None:
        self._events.add("sensor", text, level=logging.INFO if well else logging.WARNING)

    def _place(self, service: str, answer: Answer) -> None:
        """Sets the states that a service reported by itself. If its call was answered and isn't recorded yet, the
        registry still has older states, so these aren't compared."""
        is_newer = self._activity.is_at(service)
        if answer.environment is not None:
            if is_newer:
                self.moves.add(ENVIRONMENT, protocol.jumpenv(answer.environment))
            else:
                self.environment_moved(answer.environment)
        if is_newer or answer.state != self.registry[service].state or self.moves.is_open:
            self.moves.add(service, protocol.jump(service, answer.state))

    def _post(self, event: Event[Any]) -> asyncio.Future[Any]:
        """Makes a change when it has its turn."""
        return self._dispatcher.post(event, Frozen.GONE, BY_ITSELF)

    async def _come_back(self, service: str, answer: Answer) -> None:
        """Takes a frozen service back into use after it has reported its state. Later reports are handled after
        that."""
        try:
            await self.back(service, answer, is_newest=True)
            await asyncio.sleep(PAUSE)
        finally:
            newer = self._coming.pop(service)
        if newer is not None:
            self.moved(service, newer)

    def _broker_changed(self, connected: bool, text: str) -> None:
        self._events.add("broker", text, level=logging.INFO if connected else logging.WARNING, connected=connected)
        self._changed()
        if not connected or not self._ready:
            return
        self.retries.hurry_all()
        if self.sensor is not None and self.sensor.reach.by_broker:
            self.background.run(self.sensor.ask())
        for name in self.registry.present():
            if self.devices[name].reach.by_broker:
                self.background.run(self.compare(name, COMPARED))

    # Asking for states.

    async def told(self, service: str) -> Answer | None:
        """The present state of a device. Raises an exception if the device doesn't answer in time."""
        device = self.devices[service]
        return await device.reach.present(device.timeout)

    async def compare(self, service: str, times: int = 1) -> None:
        """Asks a device for its state, because it may have moved unnoticed."""
        for _ in range(times):
            if await self._look(service):
                return
        if self.devices[service].reach.by_broker and self.broker is not None and not self.broker.connected:
            return  # This was reported.
        self._report_silence(service)

    def _report_silence(self, service: str) -> None:
        text = f"{service} doesn't tell where it is: {self.registry[service].last_error}"
        self._events.add("silent", text, level=logging.WARNING, service=service)

    def _calls(self, service: str) -> int | None:
        """The number of calls of a service in this run, or None if it can't be asked for its state now."""
        known = self.registry.get(service)
        return None if known is None or known.dead or service == self._activity.chosen else known.calls

    async def _look(self, service: str) -> bool:
        """Asks a device once for its state. The answer is ignored if a call of the device begins meanwhile. Returns
        False if the device doesn't answer."""
        known, calls = self.registry[service], self._calls(service)
        if known.frozen or calls is None:
            return True
        try:
            answer = await self.told(service)
        except Exception as error:
            known.last_error = error_text(error)
            return self._calls(service) != calls
        if answer is not None and self._calls(service) == calls:
            known.last_error = None
            self._place(service, answer)
        return True

    async def _poll(self, service: str, seconds: float) -> None:
        """Polls a device for its state, so that moves by hand are noticed."""
        told, calls = partial(self.told, service), partial(self._calls, service)
        await poll(seconds, told, calls, partial(self._heard, service), partial(self._lost, service))

    def _heard(self, service: str, answer: Answer) -> None:
        """Handles the state of a device that was asked for it."""
        known = self.registry[service]
        if not known.frozen:
            known.last_error = None
        self.moved(service, answer)

    def _lost(self, service: str, error: Exception) -> None:
        """Handles the error of a device that was asked for its state."""
        known = self.registry[service]
        if known.frozen:
            return
        if self.devices[service].reach.gone_if_silent:
            self.gone(service)
        else:
            known.last_error = error_text(error)
            self._report_silence(service)

    async def back(self, service: str, answer: Answer, is_newest: bool = False) -> bool:
        """Thaws a frozen service that is back, unless it was thawed meanwhile or frozen by hand. Returns False if this
        fails. An answer that `is_newest` is used even if the service was thawed meanwhile."""
        try:
            async with self._turn(service):
                if is_newest and not self.registry[service].frozen:
                    self.moved(service, answer)
                if not self.registry[service].frozen or service in self.held():
                    return True
                await self._thaw(service, answer, BY_ITSELF)
        except UnknownState as error:
            self.registry[service].last_error = str(error)
            return False
        except (Refusal, TypeError, ValueError) as error:
            self.registry[service].last_error = one_line(f"says it is in {answer.state}: {error}")
            return False
        except TEMPORARY_ERRORS as error:
            LOG.warning("%s can't be thawed: %s", service, error)
            return False
        self._events.add("back", f"{service} is back in {answer.state}", service=service, state=answer.state)
        return True
